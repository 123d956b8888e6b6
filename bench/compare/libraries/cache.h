/* What caches.c measures: a cache of some of the keys' values, of which a missing one is loaded once, whoever wants it.
   Either one thread loads what readers asked for and they look again, or who misses a key loads it, and others wait. */
#ifndef CACHE_H
#define CACHE_H

#include "contestant.h"

/* How many keys there are, and how many values the cache may have. */
typedef struct {
  uint64_t keys, resident;
} cache_plan;

typedef struct {
  const char *name;
  void *(*open)(const cache_plan *);
  void *(*reader)(void *cache);
  void (*begin)(void *cache, void *reader);
  void (*end)(void *cache, void *reader);
  /* The words of a key's value in a room of the reader's. NULL where it isn't there: it was asked for, by this call or
     before, and the reader looks again. Where no thread loads, it loads the value itself, by `load_value`. */
  const uint64_t *(*find)(void *cache, void *reader, uint64_t key);
  /* What the loading thread does next: takes a key that was asked for; and puts the value that it has got for it. Neither
     where readers load. */
  bool (*take)(void *cache, uint64_t *key);
  void (*put)(void *cache, uint64_t key);
} cache;

/* The value that a reader loads. It takes as long as a load does here, and is counted. */
#ifdef __cplusplus
extern "C"
#endif
void load_value(uint64_t key, value *to);

/* The keys that are there, in the order in which they came. */
typedef struct {
  uint64_t *key, first, last, room;
} queue_of_keys;

static inline void open_queue(queue_of_keys *q, uint64_t room) {
  q->key = (uint64_t *)zeros(room * sizeof *q->key);
  q->first = q->last = 0, q->room = room;
}

static inline bool is_full(const queue_of_keys *q) { return q->last - q->first == q->room; }
static inline void push_key(queue_of_keys *q, uint64_t key) { q->key[q->last++ % q->room] = key; }
static inline uint64_t pop_key(queue_of_keys *q) { return q->key[q->first++ % q->room]; }

#endif
