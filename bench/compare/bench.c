/* Measures libraries that have the functions of nr.h against the first of them, in one process: rounds in turn, each
   beginning with another library; prints medians of the times, and of the times over the first one's.
   Usage: bench ROUNDS KEYS ROWS BOUND NAME=LIBRARY.so[@ITS-BOUND] ..
   With RETIRED=n in the environment there are n slots more, all retired. With REPEAT=find, ask, fill or update it makes
   ROUNDS thousand such calls of the first library and nothing else, for an instruction counter. */
#include "library.h"

enum { MOST_ROUNDS = 201 };

static library libraries[MOST];
static int count;
static uint32_t keys, rows, bound;
static uint32_t order[READERS][ORDER];
static nr_row set[255];
static nr_delta there[2], back[2];

static void fill_all(library *l) {
  for (uint32_t key = 0; key < keys; key++) {
    uint64_t number = 0;
    if (l->ask(&l->reader[0].handle, key, &number) != NR_SEND) stop("an ask");
    if (l->fill(&l->writer, key, number, set, rows) != NR_DONE) stop("a fill");
  }
}

/* Opens a map of a library, and fills it. */
static void begin(const char *name, const char *path, uint32_t slots, uint32_t most) {
  library *l = &libraries[count++];
  load(l, name, path, (nr_shape){keys, slots, READERS, most, 0, 0});
  void (*keep)(nr_writer *, const nr_delta *, size_t, const nr_delta *, size_t) = 0;
  *(void **)&keep = dlsym(l->from, "nr_keep");
  if (keep) keep(&l->writer, there, 2, back, 2);
  fill_all(l);
}

typedef struct {
  library *from;
  int id;
  int asks;
  volatile int *go;
  double each;
} job;

/* Finds, or requests of filled keys, by one thread: nanoseconds for each. */
static void *reads(void *given) {
  job *j = given;
  library *l = j->from;
  nr_reader *reader = &l->reader[j->id].handle;
  static _Thread_local nr_rows found;
  uint64_t number = 0;
  long made = 0;
  while (!*j->go) {
  }
  double began = now(), ended;
  do {
    for (int i = 0; i < ORDER; i++) {
      uint32_t key = order[j->id][i];
      if (j->asks) {
        if (l->ask(reader, key, &number) != NR_FILLED) stop("a request of a filled key");
      } else if (l->find(reader, key, &found) != NR_ROWS || found.count != rows)
        stop("a find");
    }
    made += ORDER;
    ended = now();
  } while (ended - began < 5e6);
  j->each = (ended - began) / (double)made;
  return NULL;
}

static double read_by(library *l, int asks, int threads) {
  pthread_t t[READERS];
  job jobs[READERS];
  volatile int go = 0;
  for (int i = 0; i < threads; i++) {
    jobs[i] = (job){l, i, asks, &go, 0};
    if (i > 0 && pthread_create(&t[i], NULL, reads, &jobs[i])) stop("a thread");
  }
  go = 1;
  reads(&jobs[0]);
  double sum = jobs[0].each;
  for (int i = 1; i < threads; i++) {
    pthread_join(t[i], NULL);
    sum += jobs[i].each;
  }
  return sum / threads;
}

static double find_1(library *l) { return read_by(l, 0, 1); }
static double find_3(library *l) { return read_by(l, 0, 3); }
static double ask_1(library *l) { return read_by(l, 1, 1); }
static double ask_3(library *l) { return read_by(l, 1, 3); }

/* Evicts and requests all keys, and then fills them: nanoseconds for a fill. */
static double fill(library *l) {
  uint64_t number = 0;
  double sum = 0;
  uint32_t part = keys < 1024 ? keys : 1024;
  for (uint32_t key = 0; key < part; key++) {
    if (l->evict(&l->writer, key) != NR_EVICTED) stop("an eviction");
    if (l->ask(&l->reader[0].handle, key, &number) != NR_SEND) stop("a request");
  }
  double began = now();
  for (uint32_t key = 0; key < part; key++)
    if (l->fill(&l->writer, key, 0, set, rows) != NR_DONE) stop("a fill");
  sum = now() - began;
  return sum / part;
}

/* Takes one row out and puts one in, and back again: nanoseconds for an update. */
static double update(library *l) {
  uint32_t part = keys < 1024 ? keys : 1024;
  if (!rows) return 1;
  double began = now();
  for (uint32_t key = 0; key < part; key++)
    if (l->update(&l->writer, key, there, 2) != NR_DONE) stop("an update");
  for (uint32_t key = 0; key < part; key++)
    if (l->update(&l->writer, key, back, 2) != NR_DONE) stop("an update");
  return (now() - began) / (2 * part);
}

static void column(const char *name, int rounds, double (*measure)(library *)) {
  static double each[MOST][MOST_ROUNDS], over[MOST][MOST_ROUNDS];
  for (int r = 0; r < rounds; r++) {
    for (int q = 0; q < count; q++) {
      int i = (q + r) % count;
      each[i][r] = measure(&libraries[i]);
    }
    for (int i = 0; i < count; i++) over[i][r] = each[i][r] / each[0][r];
  }
  printf("%-8s rows %3u of %3u, keys %5u:", name, rows, bound, keys);
  for (int i = 0; i < count; i++)
    printf("  %s %.1f ns (%.2f)", libraries[i].name, at_part(each[i], rounds, 0.5), at_part(over[i], rounds, 0.5));
  puts("");
  fflush(stdout);
}

/* That many calls of one kind, for an instruction counter. */
static void repeat(const char *what, long times) {
  library *l = &libraries[0];
  static nr_rows found;
  uint64_t number = 0;
  if (!strcmp(what, "find"))
    for (long i = 0; i < times; i++) l->find(&l->reader[0].handle, (uint32_t)i % keys, &found);
  else if (!strcmp(what, "ask"))
    for (long i = 0; i < times; i++) l->ask(&l->reader[0].handle, (uint32_t)i % keys, &number);
  else if (!strcmp(what, "update"))
    for (long i = 0; i < times / (2 * keys); i++) update(l);
  else if (!strcmp(what, "fill"))
    for (long i = 0; i < times / keys; i++) fill(l);
}

int main(int arguments, char **argument) {
  if (arguments < 6) stop("usage: bench ROUNDS KEYS ROWS BOUND NAME=LIBRARY.so ..");
  int rounds = atoi(argument[1]);
  keys = (uint32_t)atoi(argument[2]);
  rows = (uint32_t)atoi(argument[3]);
  bound = (uint32_t)atoi(argument[4]);
  const char *extra = getenv("RETIRED");
  uint32_t slots = 2 * keys + READERS + 1 + (extra ? (uint32_t)atoi(extra) : 0);
  if (rounds > MOST_ROUNDS || arguments - 5 > MOST) stop("too many");
  for (uint32_t i = 0; i < 255; i++) set[i] = (nr_row){7 + i / 4, i % 4};
  nr_row old = set[rows / 2], other = {old.a, 1000};
  there[0] = (nr_delta){old, false}, there[1] = (nr_delta){other, true};
  back[0] = (nr_delta){other, false}, back[1] = (nr_delta){old, true};
  shuffle(order, keys);
  for (int i = 5; i < arguments; i++) {
    char *split = strchr(argument[i], '=');
    if (!split) stop("NAME=LIBRARY.so");
    *split = 0;
    char *own = strchr(split + 1, '@');
    if (own) *own = 0;
    begin(argument[i], split + 1, slots, own ? (uint32_t)atoi(own + 1) : bound);
  }
  /* Uses every slot once, so that what is taken from here on is the oldest retired one. */
  for (int i = 0; i < count && rows; i++)
    for (uint32_t taken = keys; taken < slots; taken += 2 * (keys < 1024 ? keys : 1024)) update(&libraries[i]);
  const char *only = getenv("REPEAT");
  if (only) {
    repeat(only, atol(argument[1]) * 1000);
    return 0;
  }
  column("find", rounds, find_1);
  column("find by 3", rounds, find_3);
  column("ask", rounds, ask_1);
  column("ask by 3", rounds, ask_3);
  column("fill", rounds, fill);
  if (rows) column("update", rounds, update);
  return 0;
}
