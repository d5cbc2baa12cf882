/* The server of server.c with its waits and loops in functions that touch no data, so that it can be patched while it runs. */
#include "dsu.h"

struct job { int client; int size; struct job *next; };
struct account { int jobs; int paid; };

struct job *first;
struct job *last;
struct account *accounts[3];
int closed;
mtx_t guard;
thrd_t receiver;
thrd_t workers[3];

void lock(void) { mtx_lock(&guard); }

void unlock(void) { mtx_unlock(&guard); }

int price(int size) { return size * 3 / 10; }

struct job *new_job(int client, int size) {
  struct job *job = calloc(1, sizeof(struct job));
  job->client = client;
  job->size = size;
  return job;
}

void append(struct job *job) {
  if (first) last->next = job;
  else first = job;
  last = job;
}

void put(int client, int size) {
  struct job *job = new_job(client, size);
  lock();
  append(job);
  unlock();
}

struct job *take(void) {
  struct job *job = first;
  if (job) first = job->next;
  return job;
}

void print_paid(int client, int jobs, int paid) {
  printf("client %d, job %d: paid %d\n", client, jobs, paid);
}

void pay(int client, int cost) {
  struct account *account = accounts[client];
  account->jobs++;
  account->paid += cost;
  print_paid(client, account->jobs, account->paid);
}

void charge(int client, int size) {
  int cost = price(size);
  lock();
  pay(client, cost);
  unlock();
}

void finish(struct job *job) {
  charge(job->client, job->size);
  free(job);
}

/* Does one job if there is one. Gives 0 once there are none to come. */
int turn(void) {
  struct job *job;
  int more;
  lock();
  job = take();
  more = job || !closed;
  unlock();
  if (job) finish(job);
  return more;
}

int work(int id) {
  while (turn()) ;
  return id;
}

void close_queue(void) {
  lock();
  closed = 1;
  unlock();
}

int receive(int jobs) {
  int i;
  for (i = 0; i < jobs; i++) put(i % 3, 10 * i + 5);
  close_queue();
  return jobs;
}

void new_account(int client) { accounts[client] = calloc(1, sizeof(struct account)); }

void print_account(int client) {
  struct account *account = accounts[client];
  printf("client %d: %d jobs, paid %d\n", client, account->jobs, account->paid);
}

int main(void) {
  int i;
  mtx_init(&guard, mtx_plain);
  for (i = 0; i < 3; i++) new_account(i);
  thrd_create(&receiver, receive, 15);
  for (i = 0; i < 3; i++) thrd_create(&workers[i], work, i);
  dsu_update();
  thrd_join(receiver, NULL);
  for (i = 0; i < 3; i++) thrd_join(workers[i], NULL);
  dsu_update();
  for (i = 0; i < 3; i++) print_account(i);
  return 0;
}
