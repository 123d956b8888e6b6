/* Measures maps that have the functions of nr.h against each other, in one process: rounds in turn, each beginning with
   another map, until the time is over, at least five. Prints a line for each column and map: the rows of a key, the
   column, the map, the median of its times, and the median of its times over the first map's in the same round.
   Usage: peers SECONDS ROWS[@BOUND] NAME=LIBRARY.so .. */
#define _GNU_SOURCE
#include "library.h"
#include <malloc.h>
#include <math.h>
#include <sched.h>
#include <stdatomic.h>

enum { KEYS = 8192, MOST_ROUNDS = 2000, SAMPLES = 4000, PART = 1024, BESIDE = 3, HOT_KEY = 17 };

static const double WINDOW = 2e6;

typedef enum {
  READ_1, READ_2, READ_3, READ_4, HOT_1, HOT_2, HOT_3, HOT_4, BESIDE_WRITER, UPDATE, HALF, LAST, HOT_WRITTEN, HOT_UPDATE, HOT_EACH_1, HOT_EACH_10, SKEWED_1,
  SKEWED_3, STEEP_1, STEEP_3, FILL, EVICT, AGAIN, KEPT_1, KEPT_2, KEPT_3, KEPT_4, KEPT_WRITTEN, KEPT_EACH_1, KEPT_EACH_10,
  AGAIN_3, AGAIN_WRITTEN, AGAIN_EACH_1, AGAIN_EACH_10, HELD,
  COLUMNS = HELD + 4 * 3
} column;

/* How many held sets a thread's cache has, in the columns from HELD on: of each skew by 1 and by 3 threads. */
static const int hands[3] = {32, 128, MOST_HANDS / READERS};

static const char *const names[COLUMNS] = {"read by 1", "read by 2", "read by 3", "read by 4", "hot key by 1",
    "hot key by 2", "hot key by 3", "hot key by 4", "read by 3 beside writer", "update beside 3 readers", "p50 of a read beside writer", "p99.9 of a read beside writer",
    "hot key by 3 beside its writer", "update of the hot key", "hot key by 3, written each 1 us",
    "hot key by 3, written each 10 us", "skew 0.99 by 1", "skew 0.99 by 3", "skew 1.2 by 1", "skew 1.2 by 3", "fill",
    "eviction", "again by 1", "kept: hot key by 1", "kept: hot key by 2", "kept: hot key by 3", "kept: hot key by 4", "kept: hot key by 3 beside its writer",
    "kept: hot key by 3, written each 1 us", "kept: hot key by 3, written each 10 us", "again: hot key by 3",
    "again: hot key by 3 beside its writer", "again: hot key by 3, written each 1 us", "again: hot key by 3, written each 10 us", "skew 0.99 by 1, 32 hands",
    "skew 0.99 by 1, 128 hands", "skew 0.99 by 1, 512 hands", "skew 0.99 by 3, 32 hands", "skew 0.99 by 3, 128 hands",
    "skew 0.99 by 3, 512 hands", "skew 1.2 by 1, 32 hands", "skew 1.2 by 1, 128 hands", "skew 1.2 by 1, 512 hands",
    "skew 1.2 by 3, 32 hands", "skew 1.2 by 3, 128 hands", "skew 1.2 by 3, 512 hands"};

/* Which keys are read: each as often as another, one alone, or few of them often, by Zipf's law. */
typedef enum { EVEN, SKEWED, STEEP, ORDERS, HOT = ORDERS } keys_read;

static const double NEVER = -1, ALWAYS = 0;

/* The maps, and behind them those that are read by held sets, with a reader for each hand and slots for all that they
   hold. */
static library maps[2 * MOST];
static double each[COLUMNS][MOST][MOST_ROUNDS], over[COLUMNS][MOST][MOST_ROUNDS];
static double bytes[MOST];
static int count, deltas;
static uint32_t rows, bound;
static uint32_t order[ORDERS][READERS][ORDER];
static nr_row set[255];
static nr_delta there[2], back[2];
static char is_there[2 * MOST][KEYS];
static int from[2 * MOST];

typedef struct {
  library *map;
  int id;
  keys_read keys;
  /* Of the thread's cache of held sets; 0: none. */
  int hands;
  double each;
} job;

/* A round's threads begin together, and its writer ends when its readers have. */
static atomic_int ready, running;
static atomic_bool go;

static void wait_for_all(void) {
  atomic_fetch_add(&ready, 1);
  while (!atomic_load(&go)) sched_yield();
}

/* Of each hand of the thread's cache the key that it finds, and the one that missed there last, each with 1 added. */
static _Thread_local struct {
  uint32_t kept, missed;
} places[MOST_HANDS / READERS];

/* A find by the cache: a hand takes a key that misses at its place twice with no other key's miss in between. The number
   of hands is a power of two. */
static uint32_t find_by_hands(const job *j, uint32_t key, nr_rows *found) {
  uint32_t place = key & (uint32_t)(j->hands - 1);
  if (places[place].kept != key + 1) {
    if (places[place].missed != key + 1) {
      places[place].missed = key + 1;
      return j->map->find(&j->map->reader[j->id].handle, key, found);
    }
    places[place].kept = key + 1;
  }
  return j->map->find_kept(&j->map->hand[j->id * (MOST_HANDS / READERS) + (int)place], key, found);
}

static uint32_t key_at(const job *j, int i) {
  return j->keys == HOT ? HOT_KEY : order[j->keys][j->id][i % ORDER];
}

static void find(const job *j, int i, nr_rows *found) {
  uint32_t key = key_at(j, i);
  uint32_t told = j->hands ? find_by_hands(j, key, found)
                           : j->map->find(&j->map->reader[j->id].handle, key, found);
  if (told != NR_ROWS) stop("a find");
  if (found->count != rows && (rows || found->count > 1)) stop("a number of rows");
}

static void *reads(void *given) {
  job *j = given;
  static _Thread_local nr_rows found;
  wait_for_all();
  double began = now(), ended;
  int made = 0;
  do {
    for (int i = 0; i < 64; i++) find(j, made++, &found);
    ended = now();
  } while (ended - began < WINDOW);
  j->each = (ended - began) / made;
  atomic_fetch_sub(&running, 1);
  return NULL;
}

/* Reads the hot key by a held set whose rows the thread has copied: asks whether the key has them still, and where it
   hasn't, holds and copies them anew. */
static void *looks_again(void *given) {
  job *j = given;
  static _Thread_local nr_rows found;
  nr_reader *hand = &j->map->hand[j->id * (MOST_HANDS / READERS)];
  uint32_t held;
  if (j->map->pin(hand, HOT_KEY, &held) != NR_ROWS || j->map->copy(hand, &found) != NR_ROWS) stop("a pin");
  wait_for_all();
  double began = now(), ended;
  int made = 0;
  do {
    for (int i = 0; i < 64; i++, made++) {
      if (j->map->again(hand, HOT_KEY) == NR_ROWS) continue;
      j->map->release(hand);
      if (j->map->pin(hand, HOT_KEY, &held) != NR_ROWS || j->map->copy(hand, &found) != NR_ROWS) stop("a pin");
    }
    ended = now();
  } while (ended - began < WINDOW);
  j->each = (ended - began) / made;
  j->map->release(hand);
  atomic_fetch_sub(&running, 1);
  return NULL;
}

/* Ends what the threads' caches hold, so that no slot is kept from the writer: each hand finds a key first, since a
   release is owed a held set. */
static void let_go(const job *j) {
  static nr_rows found;
  for (int i = 0; i < j->hands; i++) {
    nr_reader *hand = &j->map->hand[j->id * (MOST_HANDS / READERS) + i];
    if (j->map->find_kept(hand, HOT_KEY, &found) != NR_ROWS) stop("a find");
    j->map->release(hand);
  }
}

/* The time of each read by itself, with what the clock costs. */
static double samples[SAMPLES];

static void *reads_apart(void *given) {
  job *j = given;
  static _Thread_local nr_rows found;
  wait_for_all();
  for (int i = 0; i < SAMPLES; i++) {
    double began = now();
    find(j, i, &found);
    samples[i] = now() - began;
  }
  atomic_fetch_sub(&running, 1);
  return NULL;
}

static void update(library *l, uint32_t key) {
  char *is = &is_there[l - maps][key];
  if (l->update(&l->writer, key, *is ? back : there, (size_t)deltas) != NR_DONE) stop("an update");
  *is = !*is;
}

/* Runs readers, and beside them a writer that begins an update at each such interval, or never; what one update took. */
static double run_with(library *l, int hands, int threads, void *(*body)(void *), keys_read keys, double each_so, double *read) {
  pthread_t t[READERS];
  job jobs[READERS];
  atomic_store(&ready, 0);
  atomic_store(&running, threads);
  atomic_store(&go, 0);
  for (int i = 0; i < threads; i++) {
    jobs[i] = (job){l, i, keys, hands, 0};
    if (pthread_create(&t[i], NULL, body, &jobs[i])) stop("a thread");
  }
  while (atomic_load(&ready) < threads) sched_yield();
  double began = now();
  int made = 0, *place = &from[l - maps];
  atomic_store(&go, 1);
  while (each_so != NEVER && atomic_load(&running)) {
    if (now() - began < made * each_so) continue;
    update(l, keys == HOT ? HOT_KEY : order[keys][READERS - 1][(*place)++ % ORDER]);
    made++;
  }
  double took = now() - began;
  *read = 0;
  for (int i = 0; i < threads; i++) {
    pthread_join(t[i], NULL);
    *read += jobs[i].each / threads;
    if (hands) let_go(&jobs[i]);
  }
  return made ? took / made : took;
}

static double run(library *l, int threads, void *(*body)(void *), keys_read keys, double each_so, double *read) {
  return run_with(l, 0, threads, body, keys, each_so, read);
}

/* Evicts keys, requests them, and fills them. */
static void fill_again(library *l, int round, double *fill, double *evict) {
  uint64_t number;
  uint32_t first = (uint32_t)round * PART % KEYS;
  double began = now();
  for (uint32_t key = first; key < first + PART; key++)
    if (l->evict(&l->writer, key) != NR_EVICTED) stop("an eviction");
  *evict = (now() - began) / PART;
  for (uint32_t key = first; key < first + PART; key++)
    if (l->ask(&l->reader[0].handle, key, &number) != NR_SEND) stop("a request");
  began = now();
  for (uint32_t key = first; key < first + PART; key++)
    if (l->fill(&l->writer, key, 0, set, rows) != NR_DONE) stop("a fill");
  *fill = (now() - began) / PART;
  memset(&is_there[l - maps][first], 0, PART);
}

/* Reads by held sets. A map that has none is told again by the column of its plain reads. */
static void measure_kept(int m, int r) {
  library *l = &maps[MOST + m];
  static const column plain[] = {READ_1, HOT_1, HOT_2, HOT_3, HOT_4, HOT_WRITTEN, HOT_EACH_1, HOT_EACH_10};
  static const column skewed[] = {SKEWED_1, SKEWED_3, STEEP_1, STEEP_3};
  if (!maps[m].find_kept) {
    for (int i = 0; i < 8; i++) each[AGAIN + i][m][r] = each[plain[i]][m][r];
    each[AGAIN_3][m][r] = each[HOT_3][m][r];
    for (int i = 0; i < 3; i++) each[AGAIN_WRITTEN + i][m][r] = each[KEPT_WRITTEN + i][m][r];
    for (int i = 0; i < 12; i++) each[HELD + i][m][r] = each[skewed[i / 3]][m][r];
    return;
  }
  run(l, 1, looks_again, HOT, NEVER, &each[AGAIN][m][r]);
  for (int threads = 1; threads <= READERS; threads++)
    run_with(l, 1, threads, reads, HOT, NEVER, &each[KEPT_1 + threads - 1][m][r]);
  run_with(l, 1, 3, reads, HOT, ALWAYS, &each[KEPT_WRITTEN][m][r]);
  run_with(l, 1, 3, reads, HOT, 1e3, &each[KEPT_EACH_1][m][r]);
  run_with(l, 1, 3, reads, HOT, 1e4, &each[KEPT_EACH_10][m][r]);
  static const double intervals[] = {NEVER, ALWAYS, 1e3, 1e4};
  for (int i = 0; i < 4; i++) run(l, 3, looks_again, HOT, intervals[i], &each[AGAIN_3 + i][m][r]);
  for (int i = 0; i < 12; i++)
    run_with(l, hands[i % 3], i / 3 % 2 ? 3 : 1, reads, i / 6 ? STEEP : SKEWED, NEVER, &each[HELD + i][m][r]);
}

static void measure(int m, int r) {
  library *l = &maps[m];
  double none;
  for (int threads = 1; threads <= READERS; threads++) {
    run(l, threads, reads, EVEN, NEVER, &each[READ_1 + threads - 1][m][r]);
    run(l, threads, reads, HOT, NEVER, &each[HOT_1 + threads - 1][m][r]);
  }
  each[UPDATE][m][r] = run(l, BESIDE, reads, EVEN, ALWAYS, &each[BESIDE_WRITER][m][r]);
  run(l, 1, reads_apart, EVEN, ALWAYS, &none);
  each[HALF][m][r] = at_part(samples, SAMPLES, 0.5);
  each[LAST][m][r] = at_part(samples, SAMPLES, 0.999);
  each[HOT_UPDATE][m][r] = run(l, BESIDE, reads, HOT, ALWAYS, &each[HOT_WRITTEN][m][r]);
  run(l, 3, reads, HOT, 1e3, &each[HOT_EACH_1][m][r]);
  run(l, 3, reads, HOT, 1e4, &each[HOT_EACH_10][m][r]);
  run(l, 1, reads, SKEWED, NEVER, &each[SKEWED_1][m][r]);
  run(l, 3, reads, SKEWED, NEVER, &each[SKEWED_3][m][r]);
  run(l, 1, reads, STEEP, NEVER, &each[STEEP_1][m][r]);
  run(l, 3, reads, STEEP, NEVER, &each[STEEP_3][m][r]);
  fill_again(l, r, &each[FILL][m][r], &each[EVICT][m][r]);
  measure_kept(m, r);
}

/* Keys by Zipf's law, the hottest ones anywhere among the numbers, and the same ones for all readers. */
static void skew(uint32_t of[READERS][ORDER], const uint32_t any_order[ORDER], double by) {
  static double below[KEYS];
  static uint32_t key_at[KEYS];
  double all = 0;
  for (uint32_t i = 0; i < KEYS; i++) key_at[i] = i, below[i] = all += pow(i + 1, -by);
  for (uint32_t i = 0; i < KEYS; i++) {
    uint32_t other = any_order[i % ORDER], key = key_at[i];
    key_at[i] = key_at[other], key_at[other] = key;
  }
  uint64_t s = 88172645463325252u;
  for (int t = 0; t < READERS; t++)
    for (int i = 0; i < ORDER; i++) {
      s ^= s << 13, s ^= s >> 7, s ^= s << 17;
      double drawn = (double)(s >> 11) / 9007199254740992.0 * all;
      uint32_t low = 0, high = KEYS - 1;
      while (low < high) {
        uint32_t middle = (low + high) / 2;
        if (below[middle] < drawn) low = middle + 1;
        else high = middle;
      }
      of[t][i] = key_at[low];
    }
}

static double in_use(void) {
  struct mallinfo2 info = mallinfo2();
  return (double)info.uordblks + (double)info.hblkhd;
}

static void open_filled(library *l, const char *name, const char *path, uint32_t readers) {
  load(l, name, path, (nr_shape){KEYS, KEYS + readers + 1, readers, bound, 0, 0});
  for (uint32_t key = 0; key < KEYS; key++) {
    uint64_t number;
    if (l->ask(&l->reader[0].handle, key, &number) != NR_SEND) stop("a request");
    if (l->fill(&l->writer, key, number, set, rows) != NR_DONE) stop("a fill");
  }
}

static void begin(char *argument) {
  char *split = strchr(argument, '=');
  if (!split || count == MOST) stop("NAME=LIBRARY.so");
  *split = 0;
  double before = in_use();
  open_filled(&maps[count], argument, split + 1, READERS);
  bytes[count] = (in_use() - before) / KEYS;
  if (maps[count].find_kept) {
    library *l = &maps[MOST + count];
    open_filled(l, argument, split + 1, READERS + MOST_HANDS);
    for (int i = 0; i < MOST_HANDS; i++)
      if (l->open_reader(&l->writer, &l->hand[i]) != NR_DONE) stop("a hand");
  }
  count++;
}

static void tell(const char *column, int m, double value, double ratio) {
  printf("%u\t%s\t%s\t%.1f\t%.2f\n", rows, column, maps[m].name, value, ratio);
}

int main(int arguments, char **argument) {
  if (arguments < 4) stop("usage: peers SECONDS ROWS[@BOUND] NAME=LIBRARY.so ..");
  double until = now() + atof(argument[1]) * 1e9;
  const char *at = strchr(argument[2], '@');
  rows = (uint32_t)atoi(argument[2]);
  bound = at ? (uint32_t)atoi(at + 1) : rows > 15 ? rows : 15;
  for (uint32_t i = 0; i < 255; i++) set[i] = (nr_row){7 + i / 4, i % 4};
  nr_row old = set[rows / 2], other = {old.a, 1000};
  /* An update takes one row and puts another; without rows it puts one, and then takes it. */
  deltas = rows ? 2 : 1;
  there[0] = (nr_delta){other, true}, there[1] = (nr_delta){old, false};
  back[0] = (nr_delta){other, false}, back[1] = (nr_delta){old, true};
  shuffle(order[EVEN], KEYS);
  skew(order[SKEWED], order[EVEN][0], 0.99);
  skew(order[STEEP], order[EVEN][0], 1.2);
  for (int i = 3; i < arguments; i++) begin(argument[i]);
  int rounds = 0;
  for (; rounds < MOST_ROUNDS && (rounds < 5 || now() < until); rounds++) {
    for (int i = 0; i < count; i++) measure((i + rounds) % count, rounds);
    for (int c = 0; c < COLUMNS; c++)
      for (int m = 0; m < count; m++) over[c][m][rounds] = each[c][m][rounds] / each[c][0][rounds];
  }
  for (int c = 0; c < COLUMNS; c++)
    for (int m = 0; m < count; m++)
      tell(names[c], m, at_part(each[c][m], rounds, 0.5), at_part(over[c][m], rounds, 0.5));
  for (int m = 0; m < count; m++) tell("bytes a key", m, bytes[m], bytes[m] / bytes[0]);
  fprintf(stderr, "%u rows: %d rounds\n", rows, rounds);
  return 0;
}
