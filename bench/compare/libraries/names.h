/* Numbers of ids, by open addressing. Nothing is added once the threads read. */
#ifndef NAMES_H
#define NAMES_H

#include "contestant.h"

typedef struct {
  uint64_t id, number;
} name;

typedef struct {
  bool ids;
  uint64_t mask;
  name *at;
} names;

static inline void open_names(names *n, const plan *p) {
  n->ids = p->ids;
  if (!n->ids) return;
  uint64_t room = 2;
  while (room < 2 * p->keys) room *= 2;
  n->mask = room - 1;
  n->at = (name *)zeros(room * sizeof *n->at);
  for (uint64_t i = 0; i < p->keys; i++) {
    uint64_t id = key_at(p, i), place = hash_of(id) & n->mask;
    while (n->at[place].id) place = (place + 1) & n->mask;
    n->at[place].id = id, n->at[place].number = i;
  }
}

/* The number of a key that is there. */
static inline uint64_t number_of(const names *n, uint64_t key) {
  if (!n->ids) return key;
  uint64_t place = hash_of(key) & n->mask;
  while (n->at[place].id != key) place = (place + 1) & n->mask;
  return n->at[place].number;
}

#endif
