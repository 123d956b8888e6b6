/* How ids come by ways: eight names a group, and two groups an id, of which the second is for ids whose own is well
   filled. A map takes as few groups as leave no id without a way, from five ids a group on. */
#ifndef WAYS_H
#define WAYS_H

#include "contestant.h"

enum { WAYS = 8, AMPLE = 3, TRIES_OF_KEYS = 16 };

typedef struct {
  uint32_t own, second;
} two_groups;

/* How many groups there are, and the key of the hash. */
typedef struct {
  uint32_t groups;
  uint64_t key;
} grouping;

typedef two_groups groups_of(grouping, uint64_t id);

/* The group that an id gets a way of, by how many each has given. */
static inline uint32_t group_given(const uint8_t *given, two_groups of) {
  return given[of.own] <= WAYS - AMPLE || given[of.own] <= given[of.second] ? of.own : of.second;
}

static inline bool has_room(const plan *p, grouping g, groups_of *of) {
  uint8_t *given = calloc(g.groups, 1);
  if (!given) stop_for("there is no memory");
  bool fits = true;
  for (uint64_t i = 0; i < p->keys && fits; i++) fits = ++given[group_given(given, of(g, key_at(p, i)))] <= WAYS;
  free(given);
  return fits;
}

static inline grouping fewest_groups(const plan *p, groups_of *of) {
  uint32_t keys = (uint32_t)p->keys;
  grouping g = {keys / 5 + 1, 0};
  for (;; g.groups += keys / 32 + 1)
    for (g.key = 1; g.key <= TRIES_OF_KEYS; g.key++)
      if (has_room(p, g, of)) return g;
}

#endif
