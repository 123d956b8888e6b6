/* Readers that announce what they read, beside a writer that replaces sets as fast as it can, with just as many slots as
   keys, readers and one together: no write may find them all kept back, and no reader may see a set that is written
   over. Each set is of one version, and each key's versions rise. With FEWER slots than that the writer has to be
   answered no slot. */
#include "../../include/nr.h"
#include <pthread.h>
#include <stdatomic.h>
#include <stdio.h>
#include <stdlib.h>

#ifndef FEWER
#define FEWER 0
#endif

enum { READERS = 3, WRITES = 60000, FINDS = 2048, ROWS = 4 };

typedef struct client {
  nr_reader reader;
  uint32_t keys;
  uint64_t newest[64];
  uint64_t finds, kept;
} client;

static atomic_bool done;

static void want(bool is_so, const char *what) {
  if (is_so) return;
  fprintf(stderr, "announced: %s\n", what);
  exit(1);
}

static void rows_of(uint32_t key, uint64_t version, nr_row *rows) {
  for (uint32_t i = 0; i < ROWS; i++) rows[i] = (nr_row){version, key + 64 * i};
}

static void is_found(client *client, uint32_t key, const nr_rows *found) {
  nr_row wanted[ROWS];
  want(found->count == ROWS, "as many rows as each set has");
  rows_of(key, found->row[0].a, wanted);
  for (uint32_t i = 0; i < ROWS; i++)
    want(found->row[i].a == wanted[i].a && found->row[i].b == wanted[i].b, "rows of one set");
  want(found->row[0].a >= client->newest[key], "no older set than was found before");
  client->newest[key] = found->row[0].a;
}

/* Finds that let go at once, and finds that keep their set for the next one, also for another key's. */
static void *reads(void *of) {
  client *client = of;
  nr_rows rows;
  for (uint64_t turn = 0; turn < FINDS || !atomic_load(&done); turn++) {
    uint32_t key = (uint32_t)(turn * 0x9e3779b1u >> 7) % client->keys;
    bool keeps = turn / 512 % 2;
    if (turn && turn % 1024 == 0) want(nr_release(&client->reader) == NR_DONE, "a release");
    want((keeps ? nr_find_kept(&client->reader, key, &rows) : nr_find(&client->reader, key, &rows)) == NR_ROWS, "rows");
    is_found(client, key, &rows);
    *(keeps ? &client->kept : &client->finds) += 1;
  }
  return NULL;
}

static void fills(nr_writer *writer, client *client) {
  nr_row rows[ROWS];
  for (uint32_t key = 0; key < client->keys; key++) {
    uint64_t number;
    rows_of(key, 0, rows);
    want(nr_ask(&client->reader, key, &number) == NR_SEND && nr_fill(writer, key, number, rows, ROWS) == NR_DONE, "a fill");
  }
}

/* With one slot more than keys, and a set that is held. */
static void lacks_a_slot(nr_writer *writer, nr_reader *reader) {
  nr_row rows[ROWS];
  uint32_t count;
  rows_of(0, 0, rows);
  want(nr_pin(reader, 0, &count) == NR_ROWS && nr_replace(writer, 0, rows, ROWS) == NR_DONE, "the last slot");
  want(nr_replace(writer, 0, rows, ROWS) == NR_NO_SLOT, "no slot, with fewer than enough");
  want(nr_release(reader) == NR_DONE, "a release");
}

static void writes(nr_writer *writer, uint32_t keys) {
  nr_row rows[ROWS];
  for (uint64_t version = 1; version <= WRITES; version++) {
    uint32_t key = (uint32_t)(version % keys);
    rows_of(key, version, rows);
    uint32_t answer = nr_replace(writer, key, rows, ROWS);
    want(answer == NR_DONE || (FEWER && answer == NR_NO_SLOT), "a slot for each write");
  }
}

static void runs(uint32_t keys) {
  nr_shape shape = {.keys = keys, .slots = keys + READERS + 1 - FEWER, .readers = READERS, .rows = ROWS};
  nr_writer writer = {0};
  static client clients[READERS];
  pthread_t threads[READERS];
  want(nr_open(&shape, &writer) == NR_DONE, "a map");
  for (int i = 0; i < READERS; i++) {
    clients[i] = (client){.keys = keys};
    want(nr_open_reader(&writer, &clients[i].reader) == NR_DONE, "a reader");
  }
  fills(&writer, &clients[0]);
  if (FEWER) lacks_a_slot(&writer, &clients[0].reader);
  atomic_store(&done, false);
  for (int i = 0; i < READERS; i++) want(pthread_create(&threads[i], NULL, reads, &clients[i]) == 0, "a thread");
  writes(&writer, keys);
  atomic_store(&done, true);
  for (int i = 0; i < READERS; i++) {
    pthread_join(threads[i], NULL);
    want(clients[i].finds > 0 && clients[i].kept > 0, "finds of both kinds by each reader");
    nr_close_reader(&clients[i].reader);
  }
  nr_close_writer(&writer);
}

int main(void) {
  for (uint32_t keys = 1; keys <= 64; keys *= 2) runs(keys);
  puts("announced: each write found a slot, and each find a whole set");
}
