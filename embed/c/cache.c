/* A cache of strings before a slow query: an id is a key's hash, and its value an entry's address. Threads find without
   a lock, and share one for what a miss or a change needs. Of those that miss a key one queries, and the others wait for
   it. Whoever frees an entry has been given it: it left the cache, and nobody looks at it. In sharing.c threads share it.
   Copy it, include nr.h as your compiler finds it, write a query, open the cache by `shape`, and open each thread a
   reader under the lock. */
#include "../../include/nr.h"
#include <pthread.h>
#include <stdlib.h>
#include <string.h>

enum { THREADS = 4, CAPACITY = 40, LENGTH = 64 };

typedef struct { char key[LENGTH], value[LENGTH]; } entry;

/* A key with what the base has of it: a slow query of yours. No lock is held meanwhile. */
static entry query(const char *key);

/* Eight places for each five entries. The cache's key is to be drawn at random where strangers choose keys. */
static const nr_cache_shape shape = {.groups = CAPACITY / 5, .capacity = CAPACITY, .readers = THREADS + 1,
  .flights = THREADS, .changes = 1, .key = 0x9e3779b97f4a7c15};
static nr_cache cache;
static pthread_mutex_t lock = PTHREAD_MUTEX_INITIALIZER;
static pthread_cond_t ended = PTHREAD_COND_INITIALIZER;

/* FNV-1a: where strangers choose keys, take a keyed hash. */
static uint64_t id_of(const char *key) {
  uint64_t id = 0xcbf29ce484222325;
  while (*key) id = (id ^ (unsigned char)*key++) * 0x100000001b3;
  return id ? id : 1;
}

/* Frees what came out of the cache since. The lock is held. */
static void reap(void) {
  for (nr_given given; nr_cache_reap(&cache, &given) == NR_GIVEN;) free((entry *)(uintptr_t)given.value);
}

/* Queries a key and lands what it has. Of a key that changed meanwhile, or of no load, the cache keeps nothing; and where
   there is no memory for an entry, the load ends without one. */
static entry load(const char *key, uint64_t number) {
  entry had = query(key), *one = malloc(sizeof *one);
  nr_flight flight;
  nr_given given;
  if (one) *one = had;
  pthread_mutex_lock(&lock);
  uint32_t said = one ? nr_cache_land(&cache, number, 1, (uintptr_t)one, 1, 0, &given)
                      : nr_cache_fail(&cache, number, &flight);
  if (said == NR_GIVEN) free((entry *)(uintptr_t)given.value);
  if (said == NR_OWN) free(one);
  reap();
  pthread_cond_broadcast(&ended);
  pthread_mutex_unlock(&lock);
  return had;
}

/* A key's entry. Another key may have its hash, and where more threads load than there is room for, one has no load:
   then the key is queried, and the load 0 is none. */
static entry get(nr_cache_reader *reader, const char *key) {
  nr_cache_value found;
  while (nr_cache_find(reader, id_of(key), &found) != NR_ROWS) {
    nr_flight flight = {0, 0};
    pthread_mutex_lock(&lock);
    uint32_t said = nr_cache_begin(&cache, id_of(key), 0, &flight);
    if (said == NR_WAITING) pthread_cond_wait(&ended, &lock);
    pthread_mutex_unlock(&lock);
    if (said != NR_WAITING && said != NR_ROWS) return load(key, flight.number);
  }
  entry one = *(const entry *)(uintptr_t)found.value;
  nr_cache_release(reader);
  return strcmp(one.key, key) ? load(key, 0) : one;
}

/* Once a key has changed in the base: what was queried before goes, or isn't kept. */
static void changed(const char *key) {
  pthread_mutex_lock(&lock);
  nr_cache_invalidate(&cache, id_of(key));
  reap();
  pthread_mutex_unlock(&lock);
}

/* Once no thread gets any more. */
static void close_cache(void) {
  nr_cache_invalidate_all(&cache);
  reap();
  nr_close_cache(&cache);
}
