/* Objects: a list is made, turned round, added up and freed. */
#include <stdio.h>
#include <stdlib.h>

struct item { int value; struct item *next; };

int main(void) {
  int turns = 200;
  int sum = 0;
  int t, i;
  struct item *first, *one, *turned;
  for (t = 0; t < turns; t++) {
    first = NULL;
    for (i = 0; i < 300; i++) {
      one = calloc(1, sizeof(struct item));
      one->value = i;
      one->next = first;
      first = one;
    }
    turned = NULL;
    while (first) {
      one = first->next;
      first->next = turned;
      turned = first;
      first = one;
    }
    while (turned) {
      sum = sum * 3 % 1000003 + turned->value;
      one = turned->next;
      free(turned);
      turned = one;
    }
  }
  printf("%d\n", sum);
  return 0;
}
