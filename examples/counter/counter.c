/* Four threads add to one number, each time under the mutex. */
#include "dsu.h"

int total;
mtx_t guard;
thrd_t workers[4];

int add(int times) {
  int i;
  for (i = 0; i < times; i++) {
    mtx_lock(&guard);
    total = total + 1;
    mtx_unlock(&guard);
  }
  return times;
}

int main(void) {
  int i;
  int added;
  int sum = 0;
  mtx_init(&guard, mtx_plain);
  for (i = 0; i < 4; i++) thrd_create(&workers[i], add, 3 + i);
  for (i = 0; i < 4; i++) {
    thrd_join(workers[i], &added);
    sum += added;
  }
  printf("%d of %d\n", total, sum);
  return 0;
}
