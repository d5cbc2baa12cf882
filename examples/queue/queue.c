/* Two threads put numbers into a queue, two take them out and add them up. */
#include "dsu.h"

struct item { int value; struct item *next; };

struct item *first;
struct item *last;
int closed;
mtx_t guard;
thrd_t producers[2];
thrd_t consumers[2];

int put(int value) {
  struct item *made = calloc(1, sizeof(struct item));
  made->value = value;
  mtx_lock(&guard);
  if (last) last->next = made;
  else first = made;
  last = made;
  mtx_unlock(&guard);
  return value;
}

struct item *take(void) {
  struct item *taken;
  mtx_lock(&guard);
  taken = first;
  if (taken) {
    first = taken->next;
    if (first == NULL) last = NULL;
  }
  mtx_unlock(&guard);
  return taken;
}

int produce(int from) {
  int i;
  for (i = from; i < from + 5; i++) put(i);
  return 0;
}

int consume(int id) {
  struct item *taken;
  int sum = 0;
  int ends = 0;
  while (!ends) {
    ends = closed;
    taken = take();
    while (taken) {
      sum += taken->value;
      free(taken);
      taken = take();
    }
  }
  printf("consumer %d: %d\n", id, sum);
  return sum;
}

int main(void) {
  int i;
  int sum;
  int total = 0;
  mtx_init(&guard, mtx_plain);
  for (i = 0; i < 2; i++) thrd_create(&producers[i], produce, 10 * i);
  for (i = 0; i < 2; i++) thrd_create(&consumers[i], consume, i);
  for (i = 0; i < 2; i++) thrd_join(producers[i], NULL);
  closed = 1;
  for (i = 0; i < 2; i++) {
    thrd_join(consumers[i], &sum);
    total += sum;
  }
  printf("all: %d\n", total);
  return 0;
}
