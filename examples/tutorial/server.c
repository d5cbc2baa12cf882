/* A thread puts jobs into a queue. Three workers take them out, and put the price of each on its client's account. */
#include "dsu.h"

struct job { int client; int size; struct job *next; };
struct account { int jobs; int paid; };

struct job *first;
struct job *last;
struct account *accounts[3];
int closed;
mtx_t guard;
thrd_t receiver;
thrd_t workers[3];

int price(int size) { return size / 10 * 3; }

int work(int id) {
  int ended = 0;
  while (!ended) {
    struct job *job;
    mtx_lock(&guard);
    job = first;
    if (job) first = job->next;
    else ended = closed;
    mtx_unlock(&guard);
    if (job) {
      struct account *account = accounts[job->client];
      int cost = price(job->size);
      mtx_lock(&guard);
      account->jobs++;
      account->paid += cost;
      printf("client %d, job %d: paid %d\n", job->client, account->jobs, account->paid);
      mtx_unlock(&guard);
      free(job);
    }
  }
  return id;
}

int receive(int jobs) {
  int i;
  for (i = 0; i < jobs; i++) {
    struct job *job = calloc(1, sizeof(struct job));
    job->client = i % 3;
    job->size = 10 * i + 5;
    mtx_lock(&guard);
    if (first) last->next = job;
    else first = job;
    last = job;
    mtx_unlock(&guard);
  }
  mtx_lock(&guard);
  closed = 1;
  mtx_unlock(&guard);
  return jobs;
}

int main(void) {
  int i;
  mtx_init(&guard, mtx_plain);
  for (i = 0; i < 3; i++) accounts[i] = calloc(1, sizeof(struct account));
  thrd_create(&receiver, receive, 15);
  for (i = 0; i < 3; i++) thrd_create(&workers[i], work, i);
  thrd_join(receiver, NULL);
  for (i = 0; i < 3; i++) thrd_join(workers[i], NULL);
  for (i = 0; i < 3; i++) printf("client %d: %d jobs, paid %d\n", i, accounts[i]->jobs, accounts[i]->paid);
  return 0;
}
