// directive.c:2:1: directive
#define SIZE 4
int main(void) { return 0; }
