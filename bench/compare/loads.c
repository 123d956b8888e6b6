/* Gets by clients that sleep for their rows, of a source that takes its time: how many a second.
   Usage: loads LIBRARY.so CLIENTS KEYS HELD UPQUERIES MICROSECONDS SECONDS
   A client finds a key drawn by chance. At a hole it requests it, posts the request, and sleeps until a key of its group
   is filled. The dataflow asks its source for UPQUERIES keys at once, oldest first, each of which has its row MICROSECONDS
   after it was asked. Of more than HELD filled keys it evicts the one that was filled first. */
#include "library.h"
#include <linux/futex.h>
#include <stdatomic.h>
#include <sys/syscall.h>
#include <unistd.h>

enum { GROUPS = 64, MOST_CLIENTS = 1024 };

typedef struct {
  _Alignas(128) _Atomic uint32_t count;
  _Atomic uint32_t sleepers;
} bell;

typedef struct {
  _Alignas(128) nr_reader reader;
  nr_poster poster;
  uint64_t chance;
  _Atomic uint64_t gets;
  pthread_t thread;
} client;

typedef struct {
  uint32_t key;
  uint64_t number;
  double due;
} upquery;

static library it;
static nr_taker taker;
static uint32_t (*take)(nr_taker *, uint32_t *, uint64_t *);
static uint32_t (*post)(nr_poster *, uint32_t, uint64_t);
static bell groups[GROUPS], posted;
static client clients[MOST_CLIENTS];
static uint32_t keys, held, most;
static double takes;
static atomic_bool ends, over;
static upquery *under_way;
static uint32_t first, under;
static uint32_t *filled;
static uint32_t oldest, holds;

static void ring(bell *it) {
  atomic_fetch_add(&it->count, 1);
  if (atomic_load(&it->sleepers)) syscall(SYS_futex, &it->count, FUTEX_WAKE_PRIVATE, INT32_MAX, NULL, NULL, 0);
}

/* Sleeps while it was rung no more than that often. */
static void wait_past(bell *it, uint32_t seen) {
  atomic_fetch_add(&it->sleepers, 1);
  while (atomic_load(&it->count) == seen) syscall(SYS_futex, &it->count, FUTEX_WAIT_PRIVATE, seen, NULL, NULL, 0);
  atomic_fetch_sub(&it->sleepers, 1);
}

static void request(client *own, uint32_t key, uint64_t number) {
  uint32_t told;
  do told = post(&own->poster, key, number);
  while (told == NR_IN_THE_WAY);
  if (told != NR_DONE) stop("a post");
  ring(&posted);
}

static void get(client *own, uint32_t key, nr_rows *rows) {
  bell *group = &groups[key % GROUPS];
  for (;;) {
    uint32_t seen = atomic_load(&group->count);
    if (it.find(&own->reader, key, rows) == NR_ROWS) return;
    uint64_t number = 0;
    uint32_t told = it.ask(&own->reader, key, &number);
    if (told == NR_SEND) request(own, key, number);
    if (told != NR_FILLED) wait_past(group, seen);
  }
}

static void *gets(void *own_client) {
  static _Thread_local nr_rows rows;
  client *own = own_client;
  while (!atomic_load(&ends)) {
    own->chance ^= own->chance << 13, own->chance ^= own->chance >> 7, own->chance ^= own->chance << 17;
    get(own, (uint32_t)(own->chance >> 20) % keys, &rows);
    atomic_store_explicit(&own->gets, own->gets + 1, memory_order_relaxed);
  }
  return NULL;
}

/* Asks the source until so many keys are under way, or none is wanted. */
static void ask_source(void) {
  while (under < most) {
    upquery next;
    uint32_t told = take(&taker, &next.key, &next.number);
    if (told == NR_EMPTY) return;
    if (told != NR_DONE) continue;
    next.due = now() + takes;
    under_way[(first + under++) % most] = next;
  }
}

static void hold(uint32_t key) {
  if (holds == held) {
    if (it.evict(&it.writer, filled[oldest]) != NR_EVICTED) stop("an eviction");
    oldest = (oldest + 1) % held, holds--;
  }
  filled[(oldest + holds++) % held] = key;
}

/* Fills the key that was asked for first. */
static void answer(void) {
  upquery done = under_way[first];
  nr_row row = {done.key, 0};
  first = (first + 1) % most, under--;
  if (it.fill(&it.writer, done.key, done.number, &row, 1) != NR_DONE) stop("a fill");
  ring(&groups[done.key % GROUPS]);
  hold(done.key);
}

static void *dataflow(void *none) {
  (void)none;
  while (!atomic_load(&over)) {
    uint32_t seen = atomic_load(&posted.count);
    ask_source();
    if (!under)
      wait_past(&posted, seen);
    else if (under_way[first].due <= now())
      answer();
  }
  return NULL;
}

static uint64_t gets_so_far(uint32_t count) {
  uint64_t all = 0;
  for (uint32_t i = 0; i < count; i++) all += atomic_load(&clients[i].gets);
  return all;
}

static void open_all(const char *path, uint32_t count) {
  uint32_t readers = count + READERS;
  load(&it, "nr", path, (nr_shape){keys, keys + readers + 1, readers, 15, 0, 0});
  *(void **)&take = function(it.from, "nr_take");
  *(void **)&post = function(it.from, "nr_post");
  uint32_t (*open_queue)(uint32_t, uint32_t, uint32_t, nr_taker *);
  uint32_t (*open_poster)(nr_taker *, nr_poster *);
  *(void **)&open_queue = function(it.from, "nr_open_queue");
  *(void **)&open_poster = function(it.from, "nr_open_poster");
  if (open_queue(keys, keys, count, &taker) != NR_DONE) stop("a queue");
  for (uint32_t i = 0; i < count; i++) {
    clients[i].chance = 88172645463325252u + i * 1000003u;
    if (it.open_reader(&it.writer, &clients[i].reader) != NR_DONE) stop("a reader");
    if (open_poster(&taker, &clients[i].poster) != NR_DONE) stop("a poster");
  }
}

static void pause_for(double seconds) {
  struct timespec t = {(time_t)seconds, (long)((seconds - (double)(time_t)seconds) * 1e9)};
  nanosleep(&t, NULL);
}

int main(int words, char **word) {
  if (words != 8) stop("usage: loads LIBRARY.so CLIENTS KEYS HELD UPQUERIES MICROSECONDS SECONDS");
  uint32_t count = (uint32_t)atol(word[2]);
  keys = (uint32_t)atol(word[3]), held = (uint32_t)atol(word[4]), most = (uint32_t)atol(word[5]);
  takes = atof(word[6]) * 1e3;
  if (count < 1 || count > MOST_CLIENTS || !keys || !held || held > keys || !most) stop("1 to 1024 clients, and at least 1 of each");
  under_way = calloc(most, sizeof *under_way);
  filled = calloc(held, sizeof *filled);
  if (!under_way || !filled) stop("no memory");
  open_all(word[1], count);
  pthread_t flow;
  if (pthread_create(&flow, NULL, dataflow, NULL)) stop("a thread");
  for (uint32_t i = 0; i < count; i++)
    if (pthread_create(&clients[i].thread, NULL, gets, &clients[i])) stop("a thread");
  pause_for(0.3);
  double began = now();
  uint64_t before = gets_so_far(count);
  pause_for(atof(word[7]));
  double rate = (double)(gets_so_far(count) - before) / (now() - began) * 1e9;
  atomic_store(&ends, 1);
  for (uint32_t i = 0; i < count; i++) pthread_join(clients[i].thread, NULL);
  atomic_store(&over, 1);
  ring(&posted);
  pthread_join(flow, NULL);
  printf("%.0f\n", rate);
  return 0;
}
