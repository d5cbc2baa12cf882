// wrong_number_of_arguments.c:3:25: wrong number of arguments
int twice(int a) { return a + a; }
int main(void) { return twice(); }
