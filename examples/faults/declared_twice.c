// declared_twice.c:3:5: declared twice
int total;
int total;
int main(void) { return total; }
