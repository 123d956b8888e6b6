/* Readers beside a writer that fills, updates, evicts and cancels, with fewer slots than keys, so that now and then
   there is none. Each set is of one version: its rows name it, and its note, which the writer keeps in memory of its
   own, names the key. A reader finds whole sets alone, none older than it found before or than was acknowledged, with
   their notes. With UNORDERED the thread sanitizer isn't told of the library's order, and has to miss it. */
#include "../../include/nr.h"
#include "order.h"
#include <pthread.h>
#include <sched.h>
#include <stdatomic.h>
#include <stdio.h>
#include <stdlib.h>

#ifdef UNORDERED
#undef NR_FOUND
#define NR_FOUND(at) ((void)(at))
#endif

enum { KEYS = 8, SLOTS = 6, READERS = 3, ROUNDS = 200000, VERSIONS = ROUNDS + 1 };

typedef struct note {
  uint32_t key;
  uint64_t version;
} note;

static note notes[VERSIONS];
/* The key's last version that its put returned with. Odd keys have none, and so nothing but the library orders their
   notes. */
static _Atomic uint64_t acknowledged[KEYS];
static char order[KEYS];
static atomic_bool done;

/* What was seen, by each thread for itself. */
typedef enum {
  FOUND, HOLE, SEND, WAITING, FILLED, HELD, KEPT, AGAIN, OTHER, FILL, UPDATE, DROP, EVICT, CANCEL, LATE, NO_SLOT, KINDS
} kind;
static const char *const names[KINDS] = {"a find", "a hole", "a request to send", "a request under way",
  "a request of a filled key", "a pin", "a kept find", "a find again", "a find again of another set", "a fill",
  "an update", "a dropped update", "an eviction", "a cancel", "a late fill", "no slot"};

typedef struct client {
  nr_reader reader;
  nr_poster poster;
  uint64_t state;
  uint64_t newest[KEYS];
  uint64_t seen[KINDS];
} client;

typedef struct dataflow {
  nr_writer writer;
  nr_taker taker;
  uint64_t state;
  uint64_t version[KEYS]; /* 0 of a hole */
  uint64_t versions;
  uint64_t seen[KINDS];
} dataflow;

static void want(bool is_so, const char *what) {
  if (is_so) return;
  fprintf(stderr, "readers: %s\n", what);
  exit(1);
}

static uint32_t below(uint64_t *state, uint32_t limit) {
  *state ^= *state << 13;
  *state ^= *state >> 7;
  *state ^= *state << 17;
  return (uint32_t)((*state >> 20) % limit);
}

/* The rows of a version: 1 to 4. */
static uint32_t rows_of(uint32_t key, uint64_t version, nr_row *rows) {
  uint32_t count = 1 + (uint32_t)(version % 4);
  for (uint32_t i = 0; i < count; i++) rows[i] = (nr_row){version, key + KEYS * i};
  return count;
}

static void is_set(uint32_t key, const nr_row *rows, uint64_t count) {
  nr_row wanted[4];
  want(count >= 1 && count == rows_of(key, rows[0].a, wanted), "as many rows as the version has");
  for (uint64_t i = 0; i < count; i++)
    want(rows[i].a == wanted[i].a && rows[i].b == wanted[i].b, "rows of one version");
}

static uint64_t floor_of(const client *client, uint32_t key) {
  uint64_t at_least = client->newest[key];
  if (key % 2) return at_least;
  uint64_t told = atomic_load_explicit(&acknowledged[key], memory_order_acquire);
  return told > at_least ? told : at_least;
}

static void is_found(client *client, uint32_t key, uint64_t at_least, const nr_row *rows, uint64_t count) {
  is_set(key, rows, count);
  uint64_t version = rows[0].a;
  want(version >= at_least, "no older set than was seen or acknowledged");
  client->newest[key] = version;
  NR_FOUND(&order[key]);
  want(notes[version].key == key && notes[version].version == version, "the note of the set that was found");
}

static void request(client *client, uint32_t key) {
  uint64_t number;
  switch (nr_ask(&client->reader, key, &number)) {
    case NR_SEND:
      client->seen[SEND]++;
      while (nr_post(&client->poster, key, number) != NR_DONE && !atomic_load(&done)) sched_yield();
      return;
    case NR_WAITING: client->seen[WAITING]++; return;
    case NR_FILLED: client->seen[FILLED]++; return;
    default: want(false, "an answer of a request");
  }
}

/* Holds a set for a while: it stays, whatever becomes of its key. */
static void hold(client *client, uint32_t key) {
  nr_row rows[4];
  uint32_t count = 0;
  uint64_t at_least = floor_of(client, key);
  if (nr_pin(&client->reader, key, &count) != NR_ROWS) return;
  client->seen[HELD]++;
  want(count <= 4, "how many rows are held");
  for (int turn = 0; turn < 4; turn++) {
    for (uint32_t i = 0; i < count; i++) want(nr_row_at(&client->reader, i, &rows[i]) == NR_ROWS, "a held row");
    want(nr_row_at(&client->reader, count, &rows[0]) == NR_NO_ROW, "no held row behind the last");
    if (turn == 0) is_found(client, key, at_least, rows, count);
    is_set(key, rows, count);
    want(rows[0].a == client->newest[key], "the held set");
    uint32_t again = nr_again(&client->reader, key);
    want(again == NR_ROWS || again == NR_OTHER, "an answer of a find again");
    client->seen[again == NR_ROWS ? AGAIN : OTHER]++;
    if (below(&client->state, 4) == 0) sched_yield();
  }
  nr_release(&client->reader);
}

/* Finds a key some times, and keeps its set between. */
static void keep(client *client, uint32_t key) {
  static _Thread_local nr_rows rows;
  uint32_t answer;
  do {
    uint64_t at_least = floor_of(client, key);
    answer = nr_find_kept(&client->reader, key, &rows);
    if (answer != NR_ROWS) break;
    client->seen[KEPT]++;
    is_found(client, key, at_least, rows.row, rows.count);
    if (below(&client->state, 4) == 0) sched_yield();
  } while (below(&client->state, 8));
  if (answer == NR_ROWS) nr_release(&client->reader);
}

static void *reads(void *given) {
  client *client = given;
  static _Thread_local nr_rows rows;
  while (!atomic_load(&done)) {
    uint32_t key = below(&client->state, KEYS);
    switch (below(&client->state, 8)) {
      case 0: case 1: hold(client, key); continue;
      case 2: keep(client, key); continue;
      default: break;
    }
    uint64_t at_least = floor_of(client, key);
    if (nr_find(&client->reader, key, &rows) == NR_ROWS) {
      client->seen[FOUND]++;
      is_found(client, key, at_least, rows.row, rows.count);
      if (below(&client->state, 16) == 0) request(client, key);
    } else {
      client->seen[HOLE]++;
      request(client, key);
    }
    if (below(&client->state, 8) == 0) sched_yield();
  }
  return NULL;
}

/* The next version of a key, with its note. */
static uint64_t new_version(dataflow *dataflow, uint32_t key) {
  uint64_t version = ++dataflow->versions;
  notes[version] = (note){key, version};
  NR_PUTS(&order[key]);
  return version;
}

static void acknowledge(dataflow *dataflow, uint32_t key, uint64_t version) {
  dataflow->version[key] = version;
  if (key % 2 == 0) atomic_store_explicit(&acknowledged[key], version, memory_order_release);
}

static void evict(dataflow *dataflow, uint32_t key) {
  bool is_filled = dataflow->version[key];
  want(nr_evict(&dataflow->writer, key) == (is_filled ? NR_EVICTED : NR_NOTHING), "an eviction");
  dataflow->seen[EVICT] += is_filled;
  dataflow->version[key] = 0;
}

/* Whether there was no slot, of which readers hold some or none. */
static bool lacks_slot(uint32_t answer) { return answer == NR_NO_SLOT || answer == NR_ALL_FILLED; }

/* Fills a key, and evicts others while there is no slot: readers hold as many sets as they are. */
static void fill(dataflow *dataflow, uint32_t key, uint64_t number) {
  nr_row rows[4];
  uint64_t version = new_version(dataflow, key);
  uint32_t count = rows_of(key, version, rows), answer;
  while (lacks_slot(answer = nr_fill(&dataflow->writer, key, number, rows, count))) {
    dataflow->seen[NO_SLOT]++;
    want(nr_state(&dataflow->writer, key) == NR_ASKED, "a key that is asked for while there is no slot");
    evict(dataflow, below(&dataflow->state, KEYS));
    sched_yield();
  }
  want(answer == NR_DONE, "a fill");
  dataflow->seen[FILL]++;
  acknowledge(dataflow, key, version);
}

/* Answers a request, or takes it back: then it fills nothing any more. */
static void answer(dataflow *dataflow) {
  uint32_t key;
  uint64_t number, current;
  if (nr_take(&dataflow->taker, &key, &number) != NR_DONE) return;
  want(nr_number(&dataflow->writer, key, &current) == NR_DONE && current == number, "the number of a request");
  want(dataflow->version[key] == 0, "a request of a hole");
  if (below(&dataflow->state, 4)) {
    fill(dataflow, key, number);
    return;
  }
  want(nr_cancel(&dataflow->writer, key) == NR_CANCELLED, "a cancel");
  dataflow->seen[CANCEL]++;
  nr_row row = {0, 0};
  uint32_t late = nr_fill(&dataflow->writer, key, number, &row, 1);
  want(late == NR_NOT_ASKED || late == NR_STALE, "a late fill");
  dataflow->seen[LATE]++;
}

/* A batch that makes of a key's version the next one. */
static void update(dataflow *dataflow, uint32_t key) {
  nr_row old[4], rows[4];
  nr_delta batch[8];
  uint32_t before = rows_of(key, dataflow->version[key], old), n = 0;
  uint64_t version = new_version(dataflow, key);
  uint32_t after = rows_of(key, version, rows);
  for (uint32_t i = 0; i < before; i++) batch[n++] = (nr_delta){old[i], false};
  for (uint32_t i = 0; i < after; i++) batch[n++] = (nr_delta){rows[i], true};
  uint32_t answer = nr_update(&dataflow->writer, key, batch, n);
  if (!dataflow->version[key]) {
    want(answer == NR_DROPPED, "an update of a hole");
    dataflow->seen[DROP]++;
  } else if (answer == NR_DONE) {
    dataflow->seen[UPDATE]++;
    acknowledge(dataflow, key, version);
  } else {
    want(lacks_slot(answer), "an update");
    dataflow->seen[NO_SLOT]++;
  }
}

/* The map is what the writer made of it. */
static void look(dataflow *dataflow, uint32_t key) {
  static nr_rows rows;
  uint32_t answer = nr_look(&dataflow->writer, key, &rows);
  want(answer == (dataflow->version[key] ? NR_ROWS : NR_HOLE), "a look");
  if (answer != NR_ROWS) return;
  is_set(key, rows.row, rows.count);
  want(rows.row[0].a == dataflow->version[key], "the version that was put");
}

static void write_all(dataflow *dataflow) {
  for (int round = 0; round < ROUNDS; round++) {
    uint32_t key = below(&dataflow->state, KEYS);
    switch (below(&dataflow->state, 8)) {
      case 0: evict(dataflow, key); break;
      case 1: look(dataflow, key); break;
      case 2: case 3: case 4: update(dataflow, key); break;
      default: answer(dataflow);
    }
    if (round % 8 == 0) sched_yield();
  }
}

static void open_all(dataflow *dataflow, client *clients) {
  const nr_shape shape = {KEYS, SLOTS, READERS, 4, UINT64_MAX - 50, 0};
  want(nr_open(&shape, &dataflow->writer) == NR_DONE, "a map");
  want(nr_open_queue(KEYS, KEYS, READERS, &dataflow->taker) == NR_DONE, "a queue");
  for (uint64_t i = 0; i < READERS; i++) {
    want(nr_open_reader(&dataflow->writer, &clients[i].reader) == NR_DONE, "a reader");
    want(nr_open_poster(&dataflow->taker, &clients[i].poster) == NR_DONE, "a poster");
    clients[i].state = 0x9e3779b97f4a7c15 * (i + 1);
  }
}

int main(void) {
  static client clients[READERS];
  static dataflow dataflow = {.state = 0x2545f4914f6cdd1d};
  open_all(&dataflow, clients);
  pthread_t threads[READERS];
  for (int i = 0; i < READERS; i++) want(pthread_create(&threads[i], NULL, reads, &clients[i]) == 0, "a thread");
  write_all(&dataflow);
  atomic_store(&done, true);
  for (int i = 0; i < READERS; i++) {
    want(pthread_join(threads[i], NULL) == 0, "a thread's end");
    for (kind kind = 0; kind < KINDS; kind++) dataflow.seen[kind] += clients[i].seen[kind];
    nr_close_reader(&clients[i].reader);
    nr_close_poster(&clients[i].poster);
  }
  nr_close_writer(&dataflow.writer);
  nr_close_taker(&dataflow.taker);
  for (kind kind = 0; kind < KINDS; kind++) {
    want(dataflow.seen[kind] > 0, names[kind]);
  }
  puts("each set was whole, and none older than what was told");
  return 0;
}
