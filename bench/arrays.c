/* Loops over a global array and a global variable: a sieve for primes. */
#include <stdio.h>

char composite[5000];
int found;

int main(void) {
  int turns = 20;
  int t, i, k;
  for (t = 0; t < turns; t++) {
    found = 0;
    for (i = 2; i < 5000; i++) composite[i] = 0;
    for (i = 2; i < 5000; i++) {
      if (composite[i] == 0) {
        found++;
        for (k = i + i; k < 5000; k += i) composite[k] = 1;
      }
    }
  }
  printf("%d\n", found);
  return 0;
}
