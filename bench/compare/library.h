/* Libraries that have the functions of nr.h, loaded side by side, and the clock that they are measured by. */
#ifndef LIBRARY_H
#define LIBRARY_H

#define _GNU_SOURCE
#include "../../include/nr.h"
#include <dlfcn.h>
#include <pthread.h>
#include <stdio.h>
#include <stdlib.h>
#include <string.h>
#include <time.h>

enum { ORDER = 8192, READERS = 4, MOST = 8, MOST_HANDS = 2048 };

typedef struct {
  const char *name;
  uint32_t (*open)(const nr_shape *, nr_writer *);
  uint32_t (*open_reader)(nr_writer *, nr_reader *);
  uint32_t (*find)(nr_reader *, uint32_t, nr_rows *);
  uint32_t (*ask)(nr_reader *, uint32_t, uint64_t *);
  uint32_t (*fill)(nr_writer *, uint32_t, uint64_t, const nr_row *, size_t);
  uint32_t (*update)(nr_writer *, uint32_t, const nr_delta *, size_t);
  uint32_t (*evict)(nr_writer *, uint32_t);
  /* Where the library has them, and else none. */
  uint32_t (*pin)(nr_reader *, uint32_t, uint32_t *);
  uint32_t (*copy)(nr_reader *, nr_rows *);
  uint32_t (*again)(nr_reader *, uint32_t);
  uint32_t (*release)(nr_reader *);
  uint32_t (*find_kept)(nr_reader *, uint32_t, nr_rows *);
  uint32_t (*find_each)(nr_reader *, nr_wanted *, size_t);
  void *from;
  nr_writer writer;
  struct {
    nr_reader handle;
    char apart[120];
  } reader[READERS];
  nr_reader hand[MOST_HANDS];
} library;

static void stop(const char *why) {
  fprintf(stderr, "bench: %s\n", why);
  exit(1);
}

/* Nanoseconds. */
static double now(void) {
  struct timespec t;
  clock_gettime(CLOCK_MONOTONIC, &t);
  return (double)t.tv_sec * 1e9 + (double)t.tv_nsec;
}

static void *function(void *from, const char *name) {
  void *found = dlsym(from, name);
  if (!found) stop(name);
  return found;
}

/* Loads a library, and opens a map of it with its readers. */
static void load(library *l, const char *name, const char *path, nr_shape shape) {
  l->from = dlopen(path, RTLD_NOW | RTLD_LOCAL);
  if (!l->from) stop(dlerror());
  l->name = name;
  *(void **)&l->open = function(l->from, "nr_open");
  *(void **)&l->open_reader = function(l->from, "nr_open_reader");
  *(void **)&l->find = function(l->from, "nr_find");
  *(void **)&l->ask = function(l->from, "nr_ask");
  *(void **)&l->fill = function(l->from, "nr_fill");
  *(void **)&l->update = function(l->from, "nr_update");
  *(void **)&l->evict = function(l->from, "nr_evict");
  *(void **)&l->pin = dlsym(l->from, "nr_pin");
  *(void **)&l->copy = dlsym(l->from, "nr_copy");
  *(void **)&l->again = dlsym(l->from, "nr_again");
  *(void **)&l->release = dlsym(l->from, "nr_release");
  *(void **)&l->find_kept = dlsym(l->from, "nr_find_kept");
  *(void **)&l->find_each = dlsym(l->from, "nr_find_each");
  if (l->open(&shape, &l->writer) != NR_DONE) stop("an opening");
  for (int i = 0; i < READERS; i++)
    if (l->open_reader(&l->writer, &l->reader[i].handle) != NR_DONE) stop("a reader");
}

/* Keys in an order made by chance, another one for each reader. */
static inline void shuffle(uint32_t order[READERS][ORDER], uint32_t keys) {
  uint64_t s = 88172645463325252u;
  for (int t = 0; t < READERS; t++)
    for (int i = 0; i < ORDER; i++) {
      s ^= s << 13, s ^= s >> 7, s ^= s << 17;
      order[t][i] = (uint32_t)(s >> 20) % keys;
    }
}

static int by_size(const void *a, const void *b) {
  double x = *(const double *)a, y = *(const double *)b;
  return (x > y) - (x < y);
}

/* What stands at that part of the values, which it sorts. */
static inline double at_part(double *values, int n, double part) {
  qsort(values, (size_t)n, sizeof *values, by_size);
  return values[(int)(part * n)];
}

#endif
