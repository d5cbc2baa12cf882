// no_main.c:3:1: no main
int f(void) { return 0; }
