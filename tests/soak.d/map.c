/* The map and the queue through C under load: rounds, each with a map and threads of its own, until SIGTERM.
     map KEYS SEED
   One thread is the dataflow, whose loads take a while; a change of the base replaces or updates the key's set, or takes
   the request back and evicts the key. */
#include "sets.h"
#include <signal.h>
#include <stdlib.h>

enum { GETS = 2000, WRITES = 4000, MOST_LOADS = 4 };
static const uint64_t ARRIVALS = (uint64_t)1 << 40;

typedef struct client {
  nr_reader reader;
  nr_poster poster;
  uint64_t dice;
  uint32_t place;
} client;

typedef struct load {
  uint32_t key, delay;
  uint64_t number, version;
  bool is_void;
} load;

static nr_writer writer;
static uint64_t dice;
static load loads[MOST_LOADS];
static uint32_t load_count;
/* The requests of lesser numbers were taken back. */
static uint64_t valid[KEYS];
static client clients[READERS];
static volatile sig_atomic_t is_over;

/* READERS */

static void request(client *client, uint32_t key) {
  uint64_t number = 0;
  uint32_t answer = nr_ask(&client->reader, key, &number);
  if (answer != NR_SEND) return;
  post(&client->poster, client->place, key, number);
}

static void get(client *client, uint32_t key) {
  nr_rows rows;
  uint64_t floor = model_floor(key);
  for (;;) {
    uint64_t seen = count_of(&filled);
    if (nr_find(&client->reader, key, &rows) == NR_ROWS) break;
    request(client, key);
    sleep_while(&filled, seen);
  }
  look(key, floor, rows.row, rows.count, false);
}

static void hold(client *client, uint32_t key, unsigned milliseconds) {
  nr_rows rows;
  uint64_t floor = model_floor(key);
  uint32_t count;
  if (nr_pin(&client->reader, key, &count) != NR_ROWS) return;
  if (milliseconds) model_sleeps(client->place, milliseconds), model_counts("holder stopped", 1);
  model_wants(nr_copy(&client->reader, &rows) == NR_ROWS && rows.count == count, "answer", "of nr_copy");
  look(key, floor, rows.row, rows.count, true);
  floor = model_floor(key);
  if (nr_again(&client->reader, key) == NR_ROWS) look(key, floor, rows.row, rows.count, true);
  nr_release(&client->reader);
}

static void keep(client *client, uint32_t key) {
  nr_rows rows;
  for (int turn = 0; turn < 3; turn++) {
    uint64_t floor = model_floor(key);
    if (nr_find_kept(&client->reader, key, &rows) != NR_ROWS) return;
    look(key, floor, rows.row, rows.count, true);
  }
  nr_release(&client->reader);
}

static void find_each(client *client) {
  static _Thread_local nr_wanted wanted[4];
  uint64_t floors[4];
  for (int i = 0; i < 4; i++) {
    wanted[i].key = model_key(&client->dice, KEYS);
    floors[i] = model_floor(wanted[i].key);
  }
  model_wants(nr_find_each(&client->reader, wanted, 4) == NR_DONE, "answer", "of nr_find_each");
  for (int i = 0; i < 4; i++)
    if (wanted[i].answer == NR_ROWS) look(wanted[i].key, floors[i], wanted[i].rows.row, wanted[i].rows.count, false);
}

static void *read_all(void *place) {
  client *client = &clients[(uintptr_t)place];
  model_begins(client->place);
  for (unsigned turn = 0; turn < GETS; turn++) {
    uint32_t key = model_key(&client->dice, KEYS);
    switch (model_rolls(&client->dice) % 16) {
      case 0: case 1: hold(client, key, 0); break;
      case 2: case 3: keep(client, key); break;
      case 4: find_each(client); break;
      default: get(client, key);
    }
    if (turn % 64 == 0) model_sleeps(client->place, 2);
    if (model_rolls(&client->dice) % (READERS * GETS * 4) == 0) hold(client, key, 1000 + model_rolls(&client->dice) % 2000);
  }
  ends_reading(client->place);
  return NULL;
}

/* THE DATAFLOW */

/* A call that puts rows: whether it has. What comes back is dropped. */
static bool has_put(uint32_t answer, const nr_row *rows, uint32_t count, const nr_rows *had) {
  if (answer == NR_GIVEN) drop_rows(had->row, had->count);
  if (answer == NR_GIVEN || answer == NR_DONE) return true;
  if (answer == NR_NO_SLOT) model_counts("no slot, for readers", 1);
  if (answer == NR_ALL_FILLED) model_counts("no slot, for keys", 1);
  drop_rows(rows, count);
  return false;
}

static load *load_of(uint32_t key) {
  for (uint32_t i = 0; i < load_count; i++)
    if (loads[i].key == key && !loads[i].is_void) return &loads[i];
  return NULL;
}

/* Takes a key's request back, so that who waits asks anew. The last ticket number's stays, and its load reads anew. */
static void cancel(uint32_t key) {
  uint32_t answer = nr_cancel(&writer, key);
  if (answer == NR_WORN) model_counts("last ticket number", 1);
  if (answer != NR_CANCELLED) return;
  load *load = load_of(key);
  if (load) load->is_void = true, model_has_loaded(key);
  nr_number(&writer, key, &valid[key]);
  tell(&filled);
}

static void change(uint32_t key, uint32_t roll) {
  nr_row rows[ROWS];
  nr_rows had, old;
  nr_delta deltas[2 * ROWS];
  uint64_t version = model_writes(key);
  bool is_put = false;
  uint32_t count, n = 0;
  if (roll % 3 == 0) {
    count = make_rows(key, version, rows);
    is_put = has_put(nr_replace_reclaiming(&writer, key, rows, count, &had), rows, count, &had);
  } else if (roll % 3 == 1 && nr_look(&writer, key, &old) == NR_ROWS) {
    count = make_rows(key, version, rows);
    for (uint64_t i = 0; i < old.count; i++) deltas[n++] = (nr_delta){old.row[i], false};
    for (uint32_t i = 0; i < count; i++) deltas[n++] = (nr_delta){rows[i], true};
    is_put = has_put(nr_update_reclaiming(&writer, key, deltas, n, &had), rows, count, &had);
  }
  if (!is_put) {
    cancel(key);
    nr_evict(&writer, key);
  }
  model_has_written(key, version);
}

/* Begins a load, where there is room and one was posted: whether more may be posted. */
static bool take(void) {
  uint32_t key;
  uint64_t number;
  if (load_count == MOST_LOADS) return true;
  if (!take_posted(&key, &number)) return false;
  bool is_void = number < valid[key];
  if (!is_void) model_loads(key);
  loads[load_count++] = (load){key, (uint32_t)(model_rolls(&dice) % 40), number, model_newest(key), is_void};
  return true;
}

/* Ends a load whose time has come: whether it has ended. */
static bool finish(load *load) {
  nr_row rows[ROWS];
  nr_rows had;
  if (load->delay-- > 0) return false;
  if (!load->is_void && model_rolls(&dice) % 16 == 0) {
    cancel(load->key);
    if (load->is_void) return model_counts("load failed", 1), true;
  }
  uint64_t version = load->number == LAST ? model_newest(load->key) : load->version;
  uint32_t count = make_rows(load->key, version, rows);
  if (!load->is_void) model_has_loaded(load->key);
  uint32_t answer = nr_fill_reclaiming(&writer, load->key, load->number, rows, count, &had);
  if (has_put(answer, rows, count, &had)) {
    if (load->is_void) model_fails("stale fill", "of key %u by number %lu", load->key, load->number);
    tell(&filled);
    return true;
  }
  if (load->is_void) return model_counts("late load refused", 1), true;
  if (answer != NR_NO_SLOT && answer != NR_ALL_FILLED) model_fails("answer", "%u of a fill of key %u", answer, load->key);
  model_loads(load->key);
  load->delay = 1;
  nr_evict(&writer, (uint32_t)(model_rolls(&dice) % KEYS));
  return false;
}

static void reap(uint32_t wanted, const char *what) {
  nr_rows had;
  uint32_t answer;
  while ((answer = nr_reap(&writer, &had)) == NR_GIVEN) drop_rows(had.row, had.count);
  if (answer != NR_NOTHING && answer != wanted) model_fails("slot leaked", "%s", what);
}

static void *write_all(void *place) {
  (void)place;
  model_begins(READERS);
  for (unsigned turn = 0; reading || load_count;) {
    uint64_t seen = count_of(&posted);
    bool may_be_more = take();
    for (uint32_t i = 0; i < load_count;)
      if (finish(&loads[i])) loads[i] = loads[--load_count]; else i++;
    if (turn++ < WRITES) {
      uint32_t key = model_key(&dice, KEYS), roll = (uint32_t)model_rolls(&dice);
      if (roll % 8 == 0) nr_evict(&writer, key);
      else if (roll % 8 < 4) change(key, roll / 8);
      reap(NR_HELD, "an answer of nr_reap");
      if (turn % 32 == 0) model_sleeps(READERS, 1);
    } else if (!may_be_more && !load_count && count_of(&posted) == seen && reading) {
      sleep_while(&posted, seen);
    }
  }
  model_ends(READERS);
  return NULL;
}

/* ROUNDS */

static nr_poster *poster_of(uint32_t place) { return &clients[place].poster; }

static void open_all(unsigned number) {
  uint32_t few = KEYS / 2 + (uint32_t)(model_rolls(&dice) % (KEYS / 2));
  nr_shape shape = {KEYS, (number + 1) & 2 ? few : KEYS + READERS + 1, READERS, ROWS, 0, 0};
  if (number & 1) {
    shape.first_count = ARRIVALS - model_rolls(&dice) % 200 - 1;
    model_counts("arrivals next to 2^40", 1);
  }
  if (number & 2) {
    shape.first_number = LAST - model_rolls(&dice) % 8;
    model_counts("ticket numbers next to 2^22", 1);
  }
  for (uint32_t key = 0; key < KEYS; key++) valid[key] = shape.first_number;
  DONE_AT_LAST(nr_open(&shape, &writer));
  for (uint32_t place = 0; place < READERS; place++)
    clients[place] = (client){.dice = model_rolls(&dice) + 1, .place = place};
  open_ring(&dice, poster_of);
}

/* Readers that went before come again. */
static void run_threads(void) {
  for (uint32_t place = 0; place < READERS; place++) DONE_AT_LAST(nr_open_reader(&writer, &clients[place].reader));
  run_round(read_all, write_all);
  for (uint32_t place = 0; place < READERS; place++) DONE_AT_LAST(nr_return_reader(&writer, &clients[place].reader));
}

/* At rest each set that no key has comes back, and at the end all do. */
static void close_all(void) {
  nr_rows rows;
  nr_remains remains = {0};
  uint64_t live = 0;
  reap(NR_NOTHING, "a set is held at rest");
  for (uint32_t key = 0; key < KEYS; key++)
    if (nr_look(&writer, key, &rows) == NR_ROWS) live += rows.count;
  model_lives(live);
  close_ring(poster_of);
  model_wants(nr_take_apart(&writer, &remains) == NR_DONE, "slot leaked", "a reader was not returned");
  while (nr_next(&remains, &rows) == NR_GIVEN) drop_rows(rows.row, rows.count);
  nr_close_remains(&remains);
  model_lives(0);
}

static void end(int number) { is_over = number; }

int main(int count, char **words) {
  model_wants(count == 3, "setup", "map KEYS SEED");
  model_opens_keys(words[1]);
  dice = strtoull(words[2], NULL, 10) * 2 + 1;
  signal(SIGTERM, end);
  /* The later maps live longer. */
  for (unsigned maps = 1; !is_over; maps++) {
    open_all(maps);
    for (unsigned turn = 0; turn < maps && !is_over; turn++) run_threads();
    close_all();
  }
  model_tells_counts();
  return 0;
}
