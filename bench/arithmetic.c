/* Arithmetic in local variables: numbers of a linear generator, mixed into one. */
#include <stdio.h>

int main(void) {
  int turns = 400000;
  unsigned int x = 1u;
  unsigned int sum = 0u;
  int i;
  for (i = 0; i < turns; i++) {
    x = x * 1664525u + 1013904223u;
    sum = sum + ((x >> 16) ^ (x & 255u));
    if (x % 3u == 0u) sum = sum * 5u + 1u;
  }
  printf("%u\n", sum);
  return 0;
}
