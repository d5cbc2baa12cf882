/* Prints: a line of two numbers, many times. */
#include <stdio.h>

int main(void) {
  int turns = 100000;
  unsigned int x = 1u;
  int i;
  for (i = 0; i < turns; i++) {
    x = x * 1664525u + 1013904223u;
    printf("%d %u\n", i, x);
  }
  return 0;
}
