/* The server with half the fee. A request has one field more, for what the client paid. */
#include "dsu.h"

struct request { int client; int amount; int paid; struct request *next; };

struct request *waiting;
int balance[3];
int answered;
mtx_t guard;
thrd_t workers[3];

int fee(int amount) { return amount / 20; }

struct request *next_request(void) {
  struct request *r;
  mtx_lock(&guard);
  r = waiting;
  if (r) waiting = r->next;
  mtx_unlock(&guard);
  return r;
}

int pay(int client, int kept) {
  mtx_lock(&guard);
  balance[client] += kept;
  answered++;
  printf("client %d: %d\n", client, balance[client]);
  mtx_unlock(&guard);
  return kept;
}

int work(int id) {
  struct request *r = next_request();
  while (r) {
    dsu_tx {
      int kept = r->amount - fee(r->amount);
      r->paid = r->amount - kept;
      pay(r->client, kept);
    }
    free(r);
    dsu_update();
    r = next_request();
  }
  return id;
}

int main(void) {
  int i;
  mtx_init(&guard, mtx_plain);
  for (i = 0; i < 9; i++) {
    struct request *r = calloc(1, sizeof(struct request));
    r->client = i % 3;
    r->amount = 10 * (i + 1);
    r->next = waiting;
    waiting = r;
  }
  for (i = 0; i < 3; i++) thrd_create(&workers[i], work, i);
  for (i = 0; i < 3; i++) thrd_join(workers[i], NULL);
  printf("answered %d\n", answered);
  return 0;
}
