/* What libraries.c measures: a map whose keys all have values, read by some threads and updated by one. */
#ifndef CONTESTANT_H
#define CONTESTANT_H

#include <stdbool.h>
#include <stddef.h>
#include <stdint.h>
#include <stdio.h>
#include <stdlib.h>
#include <string.h>

#ifndef ROWS
#define ROWS 4
#endif

enum { WORDS = 2 * ROWS, MOST_READERS = 4, GROUP = 16 };

typedef struct {
  uint64_t word[WORDS];
} value;

/* How many keys there are, and whether they are ids of 64 bits in place of the numbers from 0. */
typedef struct {
  uint64_t keys;
  bool ids;
} plan;

typedef struct contestant {
  const char *name;
  /* With any keys; with numbers alone; with ids alone. */
  enum { BOTH, NUMBERS, IDS } keys;
  /* Its updates are not safe beside reads. */
  bool reads_only;
  /* The map is another contestant's, which it reads in its own way. */
  const struct contestant *map_of;
  /* Each key has version 0. */
  void *(*open)(const plan *);
  /* A reader, made by the main thread; it is begun and ended by the thread that reads. Of a thread that writes the
     reader is NULL. */
  void *(*reader)(void *map);
  void (*begin)(void *map, void *reader);
  void (*end)(void *map, void *reader);
  /* The words that a key had, in a room of the reader's; NULL if there is no such key. */
  const uint64_t *(*find)(void *map, void *reader, uint64_t key);
  /* Of GROUP keys; none where each key is found by itself. */
  void (*find_each)(void *map, void *reader, const uint64_t *key, const uint64_t **found);
  /* Puts a version of a key's value. */
  void (*update)(void *map, uint64_t key, uint64_t version);
} contestant;

static inline void stop_for(const char *why) {
  fprintf(stderr, "libraries: %s\n", why);
  exit(1);
}

/* Its bits mixed, so that neighbours go anywhere. Never the same for two numbers. */
static inline uint64_t mixed(uint64_t k) {
  k ^= k >> 33, k *= 0xff51afd7ed558ccdu;
  k ^= k >> 33, k *= 0xc4ceb9fe1a85ec53u;
  return k ^ k >> 33;
}

/* The key at that index. No id is 0. */
static inline uint64_t key_at(const plan *p, uint64_t i) { return p->ids ? mixed(i + 1) : i; }

/* A cheap hash of an id, the same for all hash tables. */
static inline uint64_t hash_of(uint64_t id) {
  uint64_t y = id * 0x9e3779b97f4a7c15u;
  return y ^ y >> 32;
}

/* Rows of the key and of the version, in ascending order. */
static inline void make_value(uint64_t key, uint64_t version, value *to) {
  for (int j = 0; j < ROWS; j++) to->word[2 * j] = key, to->word[2 * j + 1] = (version << 8) + (uint64_t)j;
}

/* Whether these are all words of one version of the key's value. */
static inline bool is_whole(uint64_t key, const uint64_t *word) {
  bool whole = true;
  for (int j = 0; j < ROWS; j++)
    whole &= (word[2 * j] == key) & (word[2 * j + 1] == (word[1] & ~(uint64_t)255) + (uint64_t)j);
  return whole;
}

/* Zeros that begin at a page, also of a value in C++. */
static inline void *zeros(size_t bytes) {
  void *at = aligned_alloc(4096, (bytes + 4095) & ~(size_t)4095);
  if (!at) stop_for("there is no memory");
  return memset(at, 0, bytes);
}

static inline void no_thread(void *map, void *reader) { (void)map, (void)reader; }

#endif
