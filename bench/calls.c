/* Calls of a function by itself: Fibonacci numbers, the slow way. */
#include <stdio.h>

int fibonacci(int n) {
  if (n < 2) return n;
  return fibonacci(n - 1) + fibonacci(n - 2);
}

int main(void) {
  int turns = 200;
  int sum = 0;
  int t;
  for (t = 0; t < turns; t++) sum += fibonacci(15);
  printf("%d\n", sum);
  return 0;
}
