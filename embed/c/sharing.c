/* Threads share the cache of cache.c, get keys and change them. No get has anything older than its key's last change,
   each entry is freed once, some keys stay, and the cache is never fuller than it may be. */
#include "../../include/nr.h"
#include "order.h"
#include <pthread.h>
#include <sched.h>
#include <stdatomic.h>
#include <stdbool.h>
#include <stdio.h>
#include <stdlib.h>
#include <string.h>

static char order, returns;
static atomic_uint asked, made, freed;

enum { REFUSED = 97 };

static void want(bool is_so, const char *what) {
  if (is_so) return;
  fprintf(stderr, "sharing: %s\n", what);
  exit(1);
}

/* What cache.c calls: of the library's calls the thread sanitizer is told their order, of the memory how often. */
static void is_its_own(const nr_given *given);

static uint32_t in_order(uint32_t said, const nr_given *given) {
  if (said != NR_GIVEN) return said;
  NR_CAME_BACK(&returns);
  is_its_own(given);
  return said;
}

static uint32_t find_in_order(nr_cache_reader *reader, uint64_t id, nr_cache_value *found) {
  uint32_t said = nr_cache_find(reader, id, found);
  if (said == NR_ROWS) NR_FOUND(&order);
  return said;
}

static uint32_t release_in_order(nr_cache_reader *reader) {
  NR_LETS_GO(&returns);
  return nr_cache_release(reader);
}

static uint32_t land_in_order(nr_cache *of, uint64_t number, uint64_t stamp, uint64_t value, uint32_t weight,
  uint64_t bound, nr_given *given) {
  NR_PUTS(&order);
  return in_order(nr_cache_land(of, number, stamp, value, weight, bound, given), given);
}

static uint32_t reap_in_order(nr_cache *of, nr_given *given) { return in_order(nr_cache_reap(of, given), given); }

/* One time in so many there is no memory. */
static void *made_one(size_t size) {
  if (++asked % REFUSED == 0) return NULL;
  made++;
  return malloc(size);
}

static void freed_one(void *one) {
  freed++;
  free(one);
}

#define nr_cache_find find_in_order
#define nr_cache_release release_in_order
#define nr_cache_land land_in_order
#define nr_cache_reap reap_in_order
#define malloc made_one
#define free freed_one
#include "cache.c"

enum { KEYS = 100, ROUNDS = 20000, EVERY = 50 };

/* The base's version of each key, and the newest one whose change has told the cache. */
static atomic_uint base[KEYS], told[KEYS];

/* It is slow enough for others to run meanwhile. */
static entry query(const char *key) {
  entry one;
  strcpy(one.key, key);
  sprintf(one.value, "%u", base[atoi(key)]);
  sched_yield();
  return one;
}

static void is_its_own(const nr_given *given) {
  want(given->id == id_of(((const entry *)(uintptr_t)given->value)->key), "an entry that comes out with its id");
}

/* Opens a reader, which takes it from the cache: so under the lock. */
static nr_cache_reader opened(void) {
  nr_cache_reader reader = {0};
  pthread_mutex_lock(&lock);
  want(nr_open_cache_reader(&cache, &reader) == NR_DONE, "a reader");
  pthread_mutex_unlock(&lock);
  return reader;
}

/* The version that a get of a key has. */
static unsigned version_of(nr_cache_reader *reader, unsigned key) {
  char name[16];
  sprintf(name, "%u", key);
  entry one = get(reader, name);
  want(!strcmp(one.key, name), "the key's own entry");
  return (unsigned)atoi(one.value);
}

static void change(unsigned key) {
  char name[16];
  sprintf(name, "%u", key);
  unsigned version = ++base[key], before = told[key];
  changed(name);
  while (before < version && !atomic_compare_exchange_weak(&told[key], &before, version)) {
  }
}

static void *get_all(void *given) {
  unsigned place = (unsigned)(uintptr_t)given;
  nr_cache_reader reader = opened();
  for (unsigned round = 0; round < ROUNDS; round++) {
    unsigned key = round * (place + 3) % KEYS * (round % 7) / 7;
    unsigned oldest = told[key];
    want(version_of(&reader, key) >= oldest, "nothing older than the last change");
    if (round % EVERY == place) change(key);
  }
  nr_close_cache_reader(&reader);
  return NULL;
}

/* Once others have filled the cache, some keys stay after some rounds, though they are more than one group holds: a value
   goes first until its key was asked for again. */
static void try_some(void) {
  nr_cache_reader reader = opened();
  nr_cache_counts counts;
  for (unsigned key = 0; key < KEYS; key++) version_of(&reader, key);
  nr_cache_count(&cache, &counts);
  want(counts.values == CAPACITY, "a cache that is full, and no fuller");
  for (unsigned round = 0, before = 0; round < 40; round++) {
    before = made;
    for (unsigned key = 0; key < CAPACITY / 2; key++) version_of(&reader, key);
    want(round < 39 || made == before, "some keys that stay");
  }
  nr_close_cache_reader(&reader);
}

/* What no load brings is its caller's alone. */
static void try_alone(void) {
  entry one = load("7", 0);
  want(!strcmp(one.key, "7") && (unsigned)atoi(one.value) == base[7], "an entry without a load");
}

int main(void) {
  pthread_t threads[THREADS];
  want(nr_open_cache(&shape, &cache) == NR_DONE, "a cache");
  for (uintptr_t place = 0; place < THREADS; place++)
    pthread_create(&threads[place], NULL, get_all, (void *)place);
  for (int place = 0; place < THREADS; place++) pthread_join(threads[place], NULL);
  try_some();
  try_alone();
  close_cache();
  want(made == freed, "an entry was never freed");
  puts("no key had an older value than its last change, and each entry was freed once");
  return 0;
}
