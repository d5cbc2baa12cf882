// bad_literal.c:2:11: bad literal
int day = 08;
int main(void) { return day; }
