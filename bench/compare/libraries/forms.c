/* The algorithm's steps in C without proof: finds that count themselves at the key and at the slot, and, with ANNOUNCES,
   finds that write the slot into their reader's own word and look again. With RELEASES the stores of rows and the clearing
   of a reader's word are released in place of sequentially consistent, and finds of sixteen keys announce in sixteen words.
   With VERSIONED a find reads the set without an announcement, and looks afterwards whether the key was written meanwhile.
   With TAGGED the keys are ids: an id has the number of its way for a key, its set begins with a row that is its tag, and a
   find looks at its way's mark. Which way of a group has the id, a word of hints tells, one of 8 bits for each way, which is
   never 0 and is written before the name: only names whose hint is the id's are looked at. With HANDLES a find is a function
   of a library, as in nr.h: it takes a handle that leads to the map. One thread writes. */
#include "ways.h"
#include <emmintrin.h>
#include <stdatomic.h>

#ifndef ANNOUNCES
#define ANNOUNCES 0
#endif
#ifndef TAGGED
#define TAGGED 0
#endif
#ifndef HANDLES
#define HANDLES 0
#endif
#ifndef VERSIONED
#define VERSIONED 0
#endif

#if RELEASES
enum { STORES = memory_order_release };
#else
enum { STORES = memory_order_seq_cst };
#endif

enum { STRIDE = 2 * (ROWS + TAGGED) + 2, LINE = 8, TRIES = 2, SPARE = 64, READERS = 4 * MOST_READERS };

/* The words of a group: eight names, marks, hints, and the turn of its claims, which nobody takes here. */
enum { GROUP_WORDS = WAYS + 3 };

/* No way has the id. */
#define NO_WAY UINT64_MAX

/* A key's word: arrivals, its slot, whether it is filled, whether it was asked for. */
#define FILLED 2u
#define ASK 1u
#define ARRIVE ((uint64_t)1 << 24)
#define COUNTS (((uint64_t)1 << 40) - 1)
#define NAMED(word) ((word) & (ARRIVE - 1 - ASK))
#define SLOT(word) ((uint32_t)((word) >> 2 & 0x3fffff))

typedef _Atomic uint64_t word;

/* A slot that no key names any more, and its arrivals. */
typedef struct {
  uint32_t slot;
  uint64_t arrivals;
} retired;

typedef struct {
  /* Of ids: all names, behind them each group's marks with its hints, and then the turns. */
  grouping groups;
  word *name;
  uint64_t keys, slots, fresh;
  word *key, *slot;
  /* What each reader has announced, a slot's number and 1: a word of a line, or sixteen of two. */
  word *said;
  uint32_t readers;
  /* Retired slots, oldest first; those before `heard` were retired before the last scan of what is announced. */
  retired *queue;
  uint64_t room, first, last, heard;
  uint32_t *stamp, scan;
} map;

typedef struct {
  word *said;
  value to[GROUP];
} reader;

/* By handles. What one thread writes shares no line with what others do. */
typedef struct {
  map *of;
  reader *by;
  bool holds;
  char apart[256];
} side;

typedef struct {
  uint64_t count;
  value rows;
} room;

typedef struct {
  side *at;
  room found;
  char apart[256];
} handle;

typedef enum { ROWS_THERE, HOLE, CLOSED, NO_KEY, HOLDING } answer;

static uint64_t load(word *at) { return atomic_load(at); }

/* The word of a key. Behind it lies its version, if keys have one, which is odd while the word is being changed. */
static word *word_of(map *m, uint64_t place) { return &m->key[VERSIONED ? 2 * place : place]; }

static word *block(map *m, uint32_t slot) { return &m->slot[(uint64_t)slot * STRIDE]; }

static inline uint64_t hashed(grouping g, uint64_t id) {
  uint64_t product = id * 0xbf58476d1ce4e5b9u;
  return (product ^ product >> 32) * (g.key | 1);
}

static inline uint32_t own_group(grouping g, uint64_t id) { return (uint32_t)((hashed(g, id) >> 32) * g.groups >> 32); }

static inline uint32_t second_group(grouping g, uint64_t id) {
  uint64_t further = (uint64_t)(uint32_t)hashed(g, id) * (g.groups - 1) >> 32;
  return (own_group(g, id) + 1 + (uint32_t)further) % g.groups;
}

static two_groups groups_in_form(grouping g, uint64_t id) { return (two_groups){own_group(g, id), second_group(g, id)}; }

static inline uint8_t hint_of(grouping g, uint64_t id) {
  uint8_t bits = (uint8_t)(hashed(g, id) >> 32);
  return bits ? bits : 1;
}

static word *marks_of(map *m, uint32_t group) { return &m->name[(uint64_t)WAYS * m->groups.groups + 2 * (uint64_t)group]; }

static word *hints_of(map *m, uint32_t group) { return marks_of(m, group) + 1; }

/* The places at which these hints have that one, a bit each: eight bytes are compared at once. */
static inline unsigned fitting(uint64_t hints, uint8_t hint) {
  __m128i are = _mm_cvtsi64_si128((long long)hints);
  return (unsigned)_mm_movemask_epi8(_mm_cmpeq_epi8(are, _mm_set1_epi8((char)hint))) & 255;
}

/* The way of the group that has the id's name: one of those that have its hint. */
static inline uint64_t way_in(map *m, uint32_t group, uint64_t id) {
  unsigned left = fitting(load(hints_of(m, group)), hint_of(m->groups, id));
  for (; left; left &= left - 1) {
    uint64_t way = (uint64_t)WAYS * group + (unsigned)__builtin_ctz(left);
    if (load(&m->name[way]) == id) return way;
  }
  return NO_WAY;
}

/* The way of either group. */
static inline uint64_t way_of(map *m, uint64_t id) {
  uint64_t way = way_in(m, own_group(m->groups, id), id);
  return way == NO_WAY ? way_in(m, second_group(m->groups, id), id) : way;
}

/* The place of a key's word, whose line, and that of the marks, are fetched while the way is looked for. */
static inline uint64_t place_of(map *m, uint64_t key) {
  if (!TAGGED) return key;
  uint32_t own = own_group(m->groups, key);
  load(word_of(m, (uint64_t)WAYS * own));
  load(marks_of(m, own));
  return way_of(m, key);
}

static void name_way(map *m, uint32_t group, unsigned place, uint64_t id) {
  uint64_t hint = (uint64_t)hint_of(m->groups, id) << 8 * place;
  atomic_store(hints_of(m, group), load(hints_of(m, group)) | hint);
  atomic_store(&m->name[(uint64_t)WAYS * group + place], id);
}

static void name_ids(map *m, const plan *p) {
  uint8_t *given = calloc(m->groups.groups, 1);
  if (!given) stop_for("there is no memory");
  for (uint64_t i = 0; i < p->keys; i++) {
    uint64_t id = key_at(p, i);
    uint32_t group = group_given(given, groups_in_form(m->groups, id));
    name_way(m, group, given[group]++, id);
  }
  free(given);
}

static void put(map *m, uint32_t slot, uint64_t key, uint64_t version) {
  value v;
  make_value(key, version, &v);
  word *at = block(m, slot) + 1;
  atomic_store_explicit(at++, ROWS + TAGGED, STORES);
  if (TAGGED) {
    atomic_store_explicit(at++, 0, STORES);
    atomic_store_explicit(at++, key, STORES);
  }
  for (int i = 0; i < WORDS; i++) atomic_store_explicit(at++, v.word[i], STORES);
}

static word *words(uint64_t count) { return zeros(count * sizeof(word)); }

static void *opened(const plan *p) {
  map *m = zeros(sizeof *m);
  uint64_t keys = p->keys;
  if (TAGGED) {
    m->groups = fewest_groups(p, groups_in_form);
    keys = (uint64_t)WAYS * m->groups.groups;
    m->name = words((uint64_t)GROUP_WORDS * m->groups.groups);
    name_ids(m, p);
  }
  m->keys = keys;
  m->slots = p->keys + READERS + SPARE;
  m->key = words(VERSIONED ? 2 * keys : keys);
  m->slot = words(m->slots * STRIDE);
  m->said = words(READERS * 2 * LINE);
  m->room = m->slots + 1;
  m->queue = zeros(m->room * sizeof *m->queue);
  m->stamp = zeros(m->slots * sizeof *m->stamp);
  for (uint64_t i = 0; i < p->keys; i++) {
    uint64_t key = key_at(p, i);
    put(m, (uint32_t)i, key, 0);
    atomic_store(word_of(m, place_of(m, key)), i << 2 | FILLED);
  }
  m->fresh = p->keys;
  return m;
}

static void *new_reader(void *of) {
  map *m = of;
  reader *r = zeros(sizeof *r);
  if (m->readers == READERS) stop_for("a reader");
  r->said = &m->said[m->readers++ * 2 * LINE];
  if (!HANDLES) return r;
  handle *h = calloc(1, sizeof *h);
  side *at = calloc(1, sizeof *at);
  if (!h || !at) stop_for("there is no memory");
  at->of = m, at->by = r;
  h->at = at;
  return h;
}

/* The rows of the slot that the word names; NULL where its tag is another id's. */
static inline const uint64_t *copied(map *m, uint64_t named, uint64_t key, value *to) {
  word *at = block(m, SLOT(named)) + 1;
  uint64_t rows = load(at++);
  if (TAGGED) {
    uint64_t none = load(at++), id = load(at++);
    if (none != 0 || id != key) return NULL;
    rows--;
  }
  for (uint64_t i = 0; i < 2 * rows; i++) to->word[i] = load(&at[i]);
  return to->word;
}

static inline const uint64_t *find_counted(map *m, uint64_t place, uint64_t key, value *to) {
  uint64_t named = atomic_fetch_add(word_of(m, place), ARRIVE);
  if (!(named & FILLED)) return NULL;
  const uint64_t *found = copied(m, named, key, to);
  atomic_fetch_add(block(m, SLOT(named)), 1);
  return found;
}

/* Whether what was found is what the key had at one moment. */
static inline bool found_unheld(map *m, uint64_t place, uint64_t key, value *to, const uint64_t **found) {
  word *at = word_of(m, place);
  uint64_t version = load(at + 1), named = load(at);
  *found = named & FILLED ? copied(m, named, key, to) : NULL;
  return !(version & 1) && load(at + 1) == version;
}

static inline const uint64_t *find_at(map *m, reader *r, uint64_t place, uint64_t key, value *to) {
  const uint64_t *unheld;
  if (VERSIONED && __builtin_expect(found_unheld(m, place, key, to, &unheld), 1)) return unheld;
#if ANNOUNCES
  uint64_t named = load(word_of(m, place));
  for (int i = 0; i < TRIES; i++) {
    if (!(named & FILLED)) return NULL;
    atomic_store(r->said, SLOT(named) + (uint64_t)1);
    uint64_t now = load(word_of(m, place));
    if (__builtin_expect(NAMED(now ^ named) == 0, 1)) {
      const uint64_t *found = copied(m, named, key, to);
      atomic_store_explicit(r->said, 0, STORES);
      return found;
    }
    named = now;
  }
  atomic_store(r->said, 0);
#endif
  (void)r;
  return find_counted(m, place, key, to);
}

static inline bool is_marked(map *m, uint64_t way) { return load(marks_of(m, (uint32_t)(way / WAYS))) >> way % WAYS & 1; }

static inline void mark(map *m, uint64_t way) {
  atomic_fetch_or(marks_of(m, (uint32_t)(way / WAYS)), (uint64_t)1 << way % WAYS);
}

static inline const uint64_t *find_into(map *m, reader *r, uint64_t key, value *to) {
  uint64_t place = place_of(m, key);
  if (!TAGGED) return find_at(m, r, place, key, to);
  if (place == NO_WAY) return NULL;
  bool marked = is_marked(m, place);
  const uint64_t *found = find_at(m, r, place, key, to);
  if (found && !marked) mark(m, place);
  return found;
}

/* As a library has it: its function is compiled apart, looks at what it is given, and answers by a number. */
__attribute__((noinline)) static answer find_by_handle(handle *h, uint64_t key, room *to) {
  if (!h || !h->at) return CLOSED;
  map *m = h->at->of;
  if (!TAGGED && key >= m->keys) return NO_KEY;
  if (h->at->holds) return HOLDING;
  if (!find_into(m, h->at->by, key, &to->rows)) return HOLE;
  to->count = ROWS;
  return ROWS_THERE;
}

static const uint64_t *find(void *of, void *by, uint64_t key) {
  if (!HANDLES) {
    reader *r = by;
    return find_into(of, r, key, r->to);
  }
  handle *h = by;
  return find_by_handle(h, key, &h->found) == ROWS_THERE ? h->found.rows.word : NULL;
}

#if !HANDLES && !VERSIONED
/* Loads a word of each line that these keys' sets have: of two lines at once, and then of others by the rows. */
static inline void load_ahead(map *m, const uint64_t named[GROUP]) {
  uint64_t rows[GROUP];
  for (int i = 0; i < GROUP; i++) {
    word *at = block(m, SLOT(named[i]));
    rows[i] = load(&at[1]);
    load(&at[STRIDE > LINE + 1 ? LINE + 1 : STRIDE - 1]);
  }
  for (int line = 2; line < 1 + (ROWS + TAGGED + 3) / 4; line++)
    for (int i = 0; i < GROUP; i++) {
      uint64_t last = 2 * rows[i] + 1, at = (uint64_t)line * LINE + 1;
      load(&block(m, SLOT(named[i]))[at < last ? at : last]);
    }
}

#if ANNOUNCES
/* Announces them all at once. */
static inline void find_together(map *m, reader *r, const uint64_t *place, const uint64_t *named, const uint64_t *key,
    const uint64_t **found) {
  for (int i = 0; i < GROUP - 1; i++)
    atomic_store_explicit(&r->said[i], named[i] & FILLED ? SLOT(named[i]) + (uint64_t)1 : 0, memory_order_relaxed);
  atomic_store(&r->said[GROUP - 1], named[GROUP - 1] & FILLED ? SLOT(named[GROUP - 1]) + (uint64_t)1 : 0);
  uint32_t missed = 0;
  for (int i = 0; i < GROUP; i++) {
    uint64_t now = load(word_of(m, place[i]));
    if (__builtin_expect(NAMED(now ^ named[i]) != 0 || !(now & FILLED), 0)) missed |= 1u << i;
    else found[i] = copied(m, now, key[i], &r->to[i]);
  }
  for (int i = 0; i < GROUP; i++) atomic_store_explicit(&r->said[i], 0, memory_order_release);
  for (int i = 0; missed; i++, missed >>= 1)
    if (missed & 1) found[i] = find_at(m, r, place[i], key[i], &r->to[i]);
}

/* Announces each over the last one. */
static inline void find_in_turn(map *m, reader *r, const uint64_t *place, const uint64_t *key, const uint64_t **found) {
  for (int i = 0; i < GROUP; i++) {
    uint64_t named = load(word_of(m, place[i]));
    if (named & FILLED) {
      atomic_store(r->said, SLOT(named) + (uint64_t)1);
      if (__builtin_expect(NAMED(load(word_of(m, place[i])) ^ named) == 0, 1)) {
        found[i] = copied(m, named, key[i], &r->to[i]);
        continue;
      }
    }
    found[i] = find_at(m, r, place[i], key[i], &r->to[i]);
  }
  atomic_store(r->said, 0);
}
#endif

/* Of keys that are there. */
static void find_each(void *of, void *by, const uint64_t *key, const uint64_t **found) {
  map *m = of;
  reader *r = by;
  uint64_t place[GROUP], named[GROUP];
  bool marked[GROUP];
  if (TAGGED)
    for (int i = 0; i < GROUP; i++) load(&m->name[(uint64_t)WAYS * own_group(m->groups, key[i])]);
  for (int i = 0; i < GROUP; i++) {
    place[i] = TAGGED ? way_of(m, key[i]) : key[i];
    marked[i] = !TAGGED || is_marked(m, place[i]);
  }
  for (int i = 0; i < GROUP; i++) named[i] = load(word_of(m, place[i]));
  load_ahead(m, named);
#if RELEASES
  find_together(m, r, place, named, key, found);
#elif ANNOUNCES
  find_in_turn(m, r, place, key, found);
#else
  for (int i = 0; i < GROUP; i++) found[i] = find_at(m, r, place[i], key[i], &r->to[i]);
#endif
  for (int i = 0; TAGGED && i < GROUP; i++)
    if (found[i] && !marked[i]) mark(m, place[i]);
}
#endif

#if ANNOUNCES
/* Marks each slot that some reader has announced: all slots retired before are heard now. */
static void listen(map *m) {
  m->scan++;
  for (uint64_t i = 0; i < READERS * 2 * LINE; i++) {
    uint64_t said = load(&m->said[i]);
    if (said) m->stamp[said - 1] = m->scan;
  }
  m->heard = m->last;
}
#endif

static void retire(map *m, uint32_t slot, uint64_t arrivals) {
  m->queue[m->last++ % m->room] = (retired){slot, arrivals};
}

/* A slot that nobody reads, and its departures. */
static uint32_t take_slot(map *m, uint64_t *departures) {
  if (m->fresh < m->slots) {
    *departures = load(block(m, (uint32_t)m->fresh));
    return (uint32_t)m->fresh++;
  }
  for (uint64_t tries = 2 * (m->last - m->first) + 2; tries; tries--) {
#if ANNOUNCES
    if (m->first >= m->heard) listen(m);
#endif
    retired it = m->queue[m->first++ % m->room];
    bool held = ANNOUNCES && m->stamp[it.slot] == m->scan;
    if (!held) {
      *departures = load(block(m, it.slot));
      held = ((*departures ^ it.arrivals) & COUNTS) != 0;
    }
    if (!held) return it.slot;
    retire(m, it.slot, it.arrivals);
  }
  stop_for("no slot");
  return 0;
}

static void update(void *of, uint64_t key, uint64_t version) {
  map *m = of;
  uint64_t place = place_of(m, key), departures;
  word *at = word_of(m, place);
  load(at);
  uint32_t slot = take_slot(m, &departures);
  put(m, slot, key, version);
  uint64_t had = VERSIONED ? load(at + 1) : 0;
  if (VERSIONED) atomic_store_explicit(at + 1, had + 1, STORES);
  uint64_t old = atomic_exchange(at, (departures & COUNTS) << 24 | (uint64_t)slot << 2 | FILLED);
  if (VERSIONED) atomic_store(at + 1, had + 2);
  retire(m, SLOT(old), old >> 24);
}

#if TAGGED
#define KIND IDS
#define OF_KIND(name) name##_ids
#else
#define KIND NUMBERS
#define OF_KIND(name) name
#endif
#define FORM .keys = KIND, .open = opened, .reader = new_reader, .begin = no_thread, .end = no_thread, .find = find, .update = update

#define FORM_EACH .find_each = find_each, FORM

#if HANDLES
const contestant OF_KIND(handled) = {.name = "C by handles", FORM};
#elif VERSIONED
const contestant OF_KIND(versioned) = {.name = "C, unheld reads", FORM};
#elif RELEASES
const contestant OF_KIND(releasing) = {.name = "C, stores released", FORM};
const contestant OF_KIND(releasing_each) = {.name = "C, stores released, 16 at once", .map_of = &OF_KIND(releasing), FORM_EACH};
#elif ANNOUNCES
const contestant OF_KIND(announcing) = {.name = "the same steps in C", FORM};
const contestant OF_KIND(announcing_each) = {.name = "the same steps in C, 16 at once", .map_of = &OF_KIND(announcing), FORM_EACH};
#else
const contestant OF_KIND(counted) = {.name = "counted in C", FORM};
const contestant OF_KIND(counted_each) = {.name = "counted in C, 16 at once", .map_of = &OF_KIND(counted), FORM_EACH};
#endif
