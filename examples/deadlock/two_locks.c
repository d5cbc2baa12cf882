/* Two threads take two mutexes in opposite orders. Most runs end; some don't. */
#include "dsu.h"

mtx_t left;
mtx_t right;

int other(int times) {
  mtx_lock(&right);
  mtx_lock(&left);
  mtx_unlock(&left);
  mtx_unlock(&right);
  return times;
}

int main(void) {
  thrd_t t;
  mtx_init(&left, mtx_plain);
  mtx_init(&right, mtx_plain);
  thrd_create(&t, other, 1);
  mtx_lock(&left);
  mtx_lock(&right);
  mtx_unlock(&right);
  mtx_unlock(&left);
  thrd_join(t, NULL);
  printf("done\n");
  return 0;
}
