/* Rows that refer to texts of any length: `a` orders them, `b` is the text's place in a store of the dataflow's.
   Readers read the texts of a set while they hold it. The store frees a text once the set that refers to it came
   back, and at the end none is left. Under valgrind or the address sanitizer a text that was freed too early or
   never shows. */
#include "../../include/nr.h"
#include "order.h"
#include <pthread.h>
#include <sched.h>
#include <stdatomic.h>
#include <stdint.h>
#include <stdio.h>
#include <stdlib.h>
#include <string.h>

enum { KEYS = 4, READERS = 3, SLOTS = KEYS + READERS, MOST = 3, ROUNDS = 50000 };

static atomic_bool done;
static atomic_uint reading = READERS;
/* What the thread sanitizer takes for the library's order: that of the puts and finds of a key, and that of the sets
   that readers let go and that come back. */
static char order[KEYS], returns;

static void want(bool is_so, const char *what) {
  if (is_so) return;
  fprintf(stderr, "texts: %s\n", what);
  exit(1);
}

/* A reader's thread, which asks for what it misses. */
typedef struct client {
  nr_reader reader;
  nr_poster poster;
  uint64_t state;
  uint64_t held, kept;
} client;

typedef struct dataflow {
  nr_writer writer;
  nr_taker taker;
  uint64_t state;
  uint64_t made, freed, waited, reaped, left;
} dataflow;

static uint32_t below(uint64_t *state, uint32_t limit) {
  *state ^= *state << 13;
  *state ^= *state >> 7;
  *state ^= *state << 17;
  return (uint32_t)((*state >> 20) % limit);
}

/* A text of a version of a key: the key's letter, and then a digit of the version as often as it is long. */
static uint64_t new_text(dataflow *dataflow, uint32_t key, uint64_t version) {
  size_t length = 2 + version % 61;
  char *text = malloc(length + 1);
  want(text != NULL, "memory for a text");
  text[0] = (char)('a' + key);
  memset(text + 1, (int)('0' + version % 10), length - 1);
  text[length] = 0;
  dataflow->made++;
  return (uint64_t)(uintptr_t)text;
}

static char *text_of(nr_row row) { return (char *)(uintptr_t)row.b; }

static bool is_text(uint32_t key, nr_row row) {
  const char *text = text_of(row);
  size_t length = 2 + row.a % 61;
  if (strlen(text) != length || text[0] != (char)('a' + key)) return false;
  for (size_t i = 1; i < length; i++)
    if (text[i] != (char)('0' + row.a % 10)) return false;
  return true;
}

/* Frees what a set that came back referred to. */
static void free_texts(dataflow *dataflow, const nr_rows *had) {
  NR_CAME_BACK(&returns);
  want(had->count <= MOST, "as many rows as a set may have");
  for (uint64_t i = 0; i < had->count; i++) free(text_of(had->row[i]));
  dataflow->freed += had->count;
}

/* The rows of some texts, in ascending order. */
static uint32_t new_rows(dataflow *dataflow, uint32_t key, uint64_t version, nr_row *rows) {
  uint32_t count = 1 + (uint32_t)(version % MOST);
  for (uint32_t i = 0; i < count; i++) rows[i] = (nr_row){version + i, new_text(dataflow, key, version + i)};
  NR_PUTS(&order[key]);
  return count;
}

/* A call that puts texts: what it answers when it is done, and what is to be freed else. */
static void has_put(dataflow *dataflow, uint32_t answer, const nr_row *rows, uint32_t count, const nr_rows *had) {
  switch (answer) {
    case NR_GIVEN: dataflow->waited++; free_texts(dataflow, had); return;
    case NR_DONE: return;
    default: break;
  }
  want(answer == NR_DROPPED || answer == NR_NO_SLOT || answer == NR_TOO_MANY, "an answer of a put");
  for (uint32_t i = 0; i < count; i++) free(text_of(rows[i]));
  dataflow->freed += count;
}

static void replace(dataflow *dataflow, uint32_t key, uint64_t version) {
  static nr_rows had;
  nr_row rows[MOST];
  uint32_t count = new_rows(dataflow, key, version, rows);
  has_put(dataflow, nr_replace_reclaiming(&dataflow->writer, key, rows, count, &had), rows, count, &had);
}

/* The same by signed rows: each text of the key is taken away, and new ones added. A text that stayed would be in two
   sets, and come back with each. */
static void update(dataflow *dataflow, uint32_t key, uint64_t version) {
  static nr_rows old, had;
  nr_delta batch[2 * MOST];
  nr_row rows[MOST];
  if (nr_look(&dataflow->writer, key, &old) != NR_ROWS) return;
  uint32_t count = new_rows(dataflow, key, version, rows), n = 0;
  for (uint64_t i = 0; i < old.count; i++) batch[n++] = (nr_delta){old.row[i], false};
  for (uint32_t i = 0; i < count; i++) batch[n++] = (nr_delta){rows[i], true};
  has_put(dataflow, nr_update_reclaiming(&dataflow->writer, key, batch, n, &had), rows, count, &had);
}

/* Answers a request, if one has come. Without a slot the key's request is taken back. */
static void answer(dataflow *dataflow, uint64_t version) {
  static nr_rows had;
  nr_row rows[MOST];
  uint32_t key;
  uint64_t number;
  if (nr_take(&dataflow->taker, &key, &number) != NR_DONE) return;
  uint32_t count = new_rows(dataflow, key, version, rows);
  uint32_t said = nr_fill_reclaiming(&dataflow->writer, key, number, rows, count, &had);
  has_put(dataflow, said, rows, count, &had);
  if (said == NR_NO_SLOT) want(nr_cancel(&dataflow->writer, key) == NR_CANCELLED, "a cancel");
}

/* Takes out all that nobody holds, so that only what readers hold waits. */
static void reap_all(dataflow *dataflow) {
  static nr_rows had;
  uint32_t answer;
  while ((answer = nr_reap(&dataflow->writer, &had)) == NR_GIVEN) {
    dataflow->reaped++;
    free_texts(dataflow, &had);
  }
  want(answer == NR_HELD || answer == NR_NOTHING, "an answer of a reap");
}

static void write_all(dataflow *dataflow) {
  for (uint64_t round = 0; round < ROUNDS || atomic_load(&reading); round++) {
    uint32_t key = below(&dataflow->state, KEYS);
    answer(dataflow, round);
    switch (below(&dataflow->state, 8)) {
      case 0: case 1: case 2: replace(dataflow, key, round); break;
      case 3: case 4: case 5: update(dataflow, key, round); break;
      case 6: reap_all(dataflow); break;
      default: nr_evict(&dataflow->writer, key);
    }
    if (round % 16 == 0) sched_yield();
    if (round >= ROUNDS) atomic_store(&done, true);
  }
}

static void request(client *client, uint32_t key) {
  uint64_t number;
  if (nr_ask(&client->reader, key, &number) != NR_SEND) return;
  while (nr_post(&client->poster, key, number) != NR_DONE) sched_yield();
}

/* Reads a key's texts twice while it holds their set. */
static void hold(client *client, uint32_t key) {
  uint32_t count;
  nr_row row;
  if (nr_pin(&client->reader, key, &count) != NR_ROWS) {
    request(client, key);
    return;
  }
  NR_FOUND(&order[key]);
  for (int turn = 0; turn < 2; turn++) {
    for (uint32_t i = 0; i < count; i++)
      want(nr_row_at(&client->reader, i, &row) == NR_ROWS && is_text(key, row), "a text that is held");
    if (turn == 0 && client->held % 8 == 0) sched_yield();
  }
  client->held++;
  NR_LETS_GO(&returns);
  nr_release(&client->reader);
}

/* Reads them by a find that is kept, which holds the set until the next. */
static void keep(client *client, uint32_t key) {
  static _Thread_local nr_rows rows;
  if (nr_find_kept(&client->reader, key, &rows) != NR_ROWS) return;
  NR_FOUND(&order[key]);
  for (uint64_t i = 0; i < rows.count; i++) want(is_text(key, rows.row[i]), "a text that is kept");
  client->kept++;
  NR_LETS_GO(&returns);
  nr_release(&client->reader);
}

static void *reads(void *given) {
  client *client = given;
  while (!atomic_load(&done) || client->held == 0 || client->kept == 0) {
    uint32_t key = below(&client->state, KEYS);
    if (below(&client->state, 4) == 0)
      keep(client, key);
    else
      hold(client, key);
  }
  atomic_fetch_sub(&reading, 1);
  return NULL;
}

/* Fills a key, if it isn't filled, so that a set is there at the end. */
static void fill_last(dataflow *dataflow, nr_reader *reader) {
  static nr_rows had;
  nr_row rows[MOST];
  uint64_t number;
  if (nr_ask(reader, 0, &number) == NR_FILLED) return;
  want(nr_number(&dataflow->writer, 0, &number) == NR_DONE, "the number of a request");
  uint32_t count = new_rows(dataflow, 0, ROUNDS, rows);
  has_put(dataflow, nr_fill_reclaiming(&dataflow->writer, 0, number, rows, count, &had), rows, count, &had);
}

/* What was never given out comes out at the map's end. */
static void take_apart(dataflow *dataflow) {
  static nr_rows had;
  nr_remains remains = {0};
  want(nr_take_apart(&dataflow->writer, &remains) == NR_DONE, "the map's end");
  while (nr_next(&remains, &had) == NR_GIVEN) {
    dataflow->left++;
    free_texts(dataflow, &had);
  }
  nr_close_remains(&remains);
}

int main(void) {
  static dataflow dataflow = {.state = 0x2545f4914f6cdd1d};
  static client clients[READERS];
  const nr_shape shape = {KEYS, SLOTS, READERS, MOST, 0, 0};
  want(nr_open(&shape, &dataflow.writer) == NR_DONE, "a map");
  want(nr_open_queue(KEYS, KEYS, READERS, &dataflow.taker) == NR_DONE, "a queue");
  pthread_t threads[READERS];
  for (uint32_t i = 0; i < READERS; i++) {
    clients[i].state = 0x9e3779b97f4a7c15 * (i + 1);
    want(nr_open_reader(&dataflow.writer, &clients[i].reader) == NR_DONE, "a reader");
    want(nr_open_poster(&dataflow.taker, &clients[i].poster) == NR_DONE, "a poster");
    want(pthread_create(&threads[i], NULL, reads, &clients[i]) == 0, "a thread");
  }
  write_all(&dataflow);
  uint64_t kept = 0;
  for (uint32_t i = 0; i < READERS; i++) {
    want(pthread_join(threads[i], NULL) == 0, "a thread's end");
    if (i == 0) fill_last(&dataflow, &clients[0].reader);
    want(nr_return_reader(&dataflow.writer, &clients[i].reader) == NR_DONE, "a reader that is returned");
    want(nr_return_poster(&dataflow.taker, &clients[i].poster) == NR_DONE, "a poster that is returned");
    kept += clients[i].kept;
  }
  take_apart(&dataflow);
  nr_close_taker(&dataflow.taker);
  want(dataflow.waited && dataflow.reaped && dataflow.left && kept, "sets that came back in each way");
  want(dataflow.freed == dataflow.made, "each text freed once");
  puts("each text was read whole, and freed once");
  return 0;
}
