/* Measures how the calls of maps that have the functions of nr.h grow with the number of keys: rounds in turn in one
   process, each beginning with another map. Prints a line for each column and map: the keys, the rows that a key may
   have, the column, the map, and the median of its nanoseconds.
   Usage: sizes KEYS BOUND ROUNDS NAME=LIBRARY.so .. */
#define _GNU_SOURCE
#include "library.h"

enum { ROWS_THERE = 1, GROUP = 16, CALLS = 100000 / GROUP * GROUP, FILLS = 512, MOST_ROUNDS = 100, THREADS = 3 };

typedef enum { FIND_1, EACH_1, FIND_3, EACH_3, UPDATE, FILL, COLUMNS } column;

static const char *const names[COLUMNS] = {"find by 1", "16 at once by 1", "find by 3", "16 at once by 3", "update", "fill"};

static library maps[MOST];
static double each[COLUMNS][MOST][MOST_ROUNDS];
static uint32_t keys, bound;
static const nr_row set[ROWS_THERE] = {{7, 1}};
static const nr_delta there[2] = {{{9, 9}, true}, {{7, 1}, false}}, back[2] = {{{9, 9}, false}, {{7, 1}, true}};

/* A key drawn from all, each as often as another. */
static uint32_t drawn(uint64_t *s) {
  *s ^= *s << 13, *s ^= *s >> 7, *s ^= *s << 17;
  return (uint32_t)((*s >> 32) * keys >> 32);
}

typedef struct {
  library *map;
  int id;
  uint64_t seed;
  double each;
} job;

static void *finds(void *given) {
  job *j = given;
  static _Thread_local nr_rows found;
  double began = now();
  for (int i = 0; i < CALLS; i++)
    if (j->map->find(&j->map->reader[j->id].handle, drawn(&j->seed), &found) != NR_ROWS) stop("a find");
  j->each = (now() - began) / CALLS;
  return NULL;
}

/* Sixteen keys by one call, and by sixteen where the library has no such call. */
static void find_group(job *j, nr_wanted *wanted) {
  nr_reader *reader = &j->map->reader[j->id].handle;
  if (j->map->find_each) {
    if (j->map->find_each(reader, wanted, GROUP) != NR_DONE) stop("finds");
  } else {
    for (int i = 0; i < GROUP; i++) wanted[i].answer = j->map->find(reader, wanted[i].key, &wanted[i].rows);
  }
  for (int i = 0; i < GROUP; i++)
    if (wanted[i].answer != NR_ROWS) stop("a find");
}

static void *finds_of_16(void *given) {
  job *j = given;
  static _Thread_local nr_wanted wanted[GROUP];
  double began = now();
  for (int i = 0; i < CALLS; i += GROUP) {
    for (int at = 0; at < GROUP; at++) wanted[at].key = drawn(&j->seed);
    find_group(j, wanted);
  }
  j->each = (now() - began) / CALLS;
  return NULL;
}

static double find_by(library *l, void *(*finds)(void *), int threads, uint64_t seed) {
  pthread_t t[THREADS];
  job jobs[THREADS];
  double sum = 0;
  for (int i = 0; i < threads; i++) {
    jobs[i] = (job){l, i, seed + (uint64_t)i * 7919, 0};
    if (pthread_create(&t[i], NULL, finds, &jobs[i])) stop("a thread");
  }
  for (int i = 0; i < threads; i++) {
    pthread_join(t[i], NULL);
    sum += jobs[i].each;
  }
  return sum / threads;
}

/* Each key gets another row in place of its own, and that one back by the next update. */
static double update(library *l, uint64_t seed) {
  double began = now();
  for (int i = 0; i < CALLS / 2; i++) {
    uint32_t key = drawn(&seed);
    if (l->update(&l->writer, key, there, 2) != NR_DONE) stop("an update");
    if (l->update(&l->writer, key, back, 2) != NR_DONE) stop("an update back");
  }
  return (now() - began) / CALLS;
}

/* Evicts and requests neighbours from a drawn key on, and then fills them. */
static double fill(library *l, uint64_t seed) {
  uint64_t number;
  uint32_t first = drawn(&seed) % (keys - FILLS + 1);
  for (uint32_t key = first; key < first + FILLS; key++) {
    if (l->evict(&l->writer, key) != NR_EVICTED) stop("an eviction");
    if (l->ask(&l->reader[0].handle, key, &number) != NR_SEND) stop("a request");
  }
  double began = now();
  for (uint32_t key = first; key < first + FILLS; key++)
    if (l->fill(&l->writer, key, 0, set, ROWS_THERE) != NR_DONE) stop("a fill");
  return (now() - began) / FILLS;
}

static void measure(int m, int r) {
  library *l = &maps[m];
  uint64_t seed = 88172645463325252u + (uint64_t)r * 104729;
  each[FIND_1][m][r] = find_by(l, finds, 1, seed);
  each[EACH_1][m][r] = find_by(l, finds_of_16, 1, seed);
  each[FIND_3][m][r] = find_by(l, finds, THREADS, seed);
  each[EACH_3][m][r] = find_by(l, finds_of_16, THREADS, seed);
  each[UPDATE][m][r] = update(l, seed);
  each[FILL][m][r] = fill(l, seed);
}

static void begin(library *l, char *argument) {
  char *split = strchr(argument, '=');
  if (!split) stop("NAME=LIBRARY.so");
  *split = 0;
  uint64_t number;
  load(l, argument, split + 1, (nr_shape){keys, keys + READERS + 1, READERS, bound, 0, 0});
  for (uint32_t key = 0; key < keys; key++) {
    if (l->ask(&l->reader[0].handle, key, &number) != NR_SEND) stop("a request");
    if (l->fill(&l->writer, key, number, set, ROWS_THERE) != NR_DONE) stop("a fill");
  }
}

int main(int arguments, char **argument) {
  int count = arguments - 4;
  if (count < 1 || count > MOST) stop("usage: sizes KEYS BOUND ROUNDS NAME=LIBRARY.so ..");
  keys = (uint32_t)atoi(argument[1]);
  bound = (uint32_t)atoi(argument[2]);
  int rounds = atoi(argument[3]);
  if (keys < FILLS || rounds < 1 || rounds > MOST_ROUNDS) stop("a number of keys or rounds");
  for (int m = 0; m < count; m++) begin(&maps[m], argument[4 + m]);
  for (int r = 0; r < rounds; r++)
    for (int i = 0; i < count; i++) measure((i + r) % count, r);
  for (int c = 0; c < COLUMNS; c++)
    for (int m = 0; m < count; m++)
      printf("%u\t%u\t%s\t%s\t%.1f\n", keys, bound, names[c], maps[m].name, at_part(each[c][m], rounds, 0.5));
  return 0;
}
