/* Lets an ordinary C compiler take the programs that ginseng runs: cc -std=c11 -I include PROGRAM.c

   An update point does nothing there, and a transaction is a plain block. A newer text with dsu_transform is for ginseng
   alone. A thread's function has one integer or handle parameter, where C11 has a void *: dsu_started calls it by its own
   type, with the argument converted to its parameter. */
#ifndef DSU_H
#define DSU_H

#include <stdint.h>
#include <stdio.h>
#include <stdlib.h>
#include <threads.h>

#define dsu_update() ((void)0)
#define dsu_tx

/* The type of a thread function's parameter. Plain char is signed in ginseng. */
enum dsu_parameter {
  DSU_CHAR,
  DSU_SIGNED_CHAR,
  DSU_UNSIGNED_CHAR,
  DSU_SHORT,
  DSU_UNSIGNED_SHORT,
  DSU_INT,
  DSU_UNSIGNED_INT,
  DSU_LONG,
  DSU_UNSIGNED_LONG,
  DSU_HANDLE
};

/* What a thread starts with. Integers and handles fit an intptr_t. */
struct dsu_start {
  void (*function)(void);
  enum dsu_parameter parameter;
  intptr_t argument;
};

#define DSU_CALL(type) (((int (*)(type))start.function)((type)start.argument))

static inline int dsu_started(void *given) {
  struct dsu_start start = *(struct dsu_start *)given;
  free(given);
  switch (start.parameter) {
    case DSU_CHAR: return DSU_CALL(char);
    case DSU_SIGNED_CHAR: return DSU_CALL(signed char);
    case DSU_UNSIGNED_CHAR: return DSU_CALL(unsigned char);
    case DSU_SHORT: return DSU_CALL(short);
    case DSU_UNSIGNED_SHORT: return DSU_CALL(unsigned short);
    case DSU_INT: return DSU_CALL(int);
    case DSU_UNSIGNED_INT: return DSU_CALL(unsigned int);
    case DSU_LONG: return DSU_CALL(long);
    case DSU_UNSIGNED_LONG: return DSU_CALL(unsigned long);
    case DSU_HANDLE: return DSU_CALL(void *);
  }
  return 0;
}

static inline int dsu_create(thrd_t *thread, void (*function)(void), enum dsu_parameter parameter, intptr_t argument) {
  struct dsu_start *start = malloc(sizeof *start);
  int created;
  if (!start) return thrd_error;
  start->function = function;
  start->parameter = parameter;
  start->argument = argument;
  created = (thrd_create)(thread, dsu_started, start);
  if (created != thrd_success) free(start);
  return created;
}

#define thrd_create(thread, start, argument)        \
  dsu_create((thread), (void (*)(void))(start),     \
    _Generic((start),                               \
      int (*)(char): DSU_CHAR,                      \
      int (*)(signed char): DSU_SIGNED_CHAR,        \
      int (*)(unsigned char): DSU_UNSIGNED_CHAR,    \
      int (*)(short): DSU_SHORT,                    \
      int (*)(unsigned short): DSU_UNSIGNED_SHORT,  \
      int (*)(int): DSU_INT,                        \
      int (*)(unsigned int): DSU_UNSIGNED_INT,      \
      int (*)(long): DSU_LONG,                      \
      int (*)(unsigned long): DSU_UNSIGNED_LONG,    \
      default: DSU_HANDLE),                         \
    (intptr_t)(argument))

#endif
