/* The map over ids through C under load: rounds, each with a map and threads of its own, until SIGTERM.
     ids KEYS SEED
   As map.c, with more ids than ways, in one group or two. Who has a group's claim posts its id to the dataflow. */
#include "sets.h"
#include <signal.h>
#include <stdlib.h>

enum { GETS = 2000, WRITES = 4000, MOST_LOADS = 4, WAYS = 8 };

typedef struct client {
  nr_id_reader reader;
  nr_poster poster;
  uint64_t dice;
  uint32_t place;
} client;

typedef struct load {
  uint32_t key, delay;
  nr_upquery upquery;
  uint64_t version;
  bool is_void;
} load;

static nr_id_writer writer;
static nr_id_shape shape;
static uint64_t dice;
static load loads[MOST_LOADS];
static uint32_t load_count;
static client clients[READERS];
static volatile sig_atomic_t is_over;

static uint64_t id_of(uint32_t key) { return (key + 1) * 0x9e3779b97f4a7c15; }

/* READERS */

static void request(client *client, uint32_t key) {
  uint32_t answer = nr_request_id(&client->reader, id_of(key));
  if (answer != NR_SEND) {
    model_wants(answer == NR_WAITING || answer == NR_NAMED, "answer", "of nr_request_id");
    return;
  }
  model_counts(shape.groups == 1 ? "claims of one group" : "claims of two groups", 1);
  post(&client->poster, client->place, key, 0);
}

static void get(client *client, uint32_t key) {
  nr_rows rows;
  uint64_t floor = model_floor(key);
  for (uint32_t answer;;) {
    uint64_t seen = count_of(&filled);
    if ((answer = nr_find_id(&client->reader, id_of(key), &rows)) == NR_ROWS) break;
    if (answer != NR_ASKED) request(client, key);
    sleep_while(&filled, seen);
  }
  look(key, floor, rows.row, rows.count, false);
}

static void hold(client *client, uint32_t key, unsigned milliseconds) {
  nr_rows rows;
  uint64_t floor = model_floor(key);
  uint32_t count;
  if (nr_pin_id(&client->reader, id_of(key), &count) != NR_ROWS) return;
  if (milliseconds) model_sleeps(client->place, milliseconds), model_counts("holder stopped", 1);
  model_wants(nr_copy_id(&client->reader, &rows) == NR_ROWS && rows.count == count, "answer", "of nr_copy_id");
  look(key, floor, rows.row, rows.count, true);
  floor = model_floor(key);
  if (nr_again_id(&client->reader, id_of(key)) == NR_ROWS) look(key, floor, rows.row, rows.count, true);
  nr_release_id(&client->reader);
}

static void keep(client *client, uint32_t key) {
  nr_rows rows;
  for (int turn = 0; turn < 3; turn++) {
    uint64_t floor = model_floor(key);
    if (nr_find_kept_id(&client->reader, id_of(key), &rows) != NR_ROWS) return;
    look(key, floor, rows.row, rows.count, true);
  }
  nr_release_id(&client->reader);
}

static void find_each(client *client) {
  static _Thread_local nr_wanted_id wanted[4];
  uint32_t keys[4];
  uint64_t floors[4];
  for (int i = 0; i < 4; i++) {
    keys[i] = model_key(&client->dice, KEYS);
    wanted[i].id = id_of(keys[i]);
    floors[i] = model_floor(keys[i]);
  }
  model_wants(nr_find_each_id(&client->reader, wanted, 4) == NR_DONE, "answer", "of nr_find_each_id");
  for (int i = 0; i < 4; i++)
    if (wanted[i].answer == NR_ROWS) look(keys[i], floors[i], wanted[i].rows.row, wanted[i].rows.count, false);
}

static void *read_all(void *place) {
  client *client = &clients[(uintptr_t)place];
  model_begins(client->place);
  for (unsigned turn = 0; turn < GETS; turn++) {
    uint32_t key = model_key(&client->dice, KEYS);
    switch (model_rolls(&client->dice) % 16) {
      case 0: case 1: hold(client, key, 0); break;
      case 2: case 3: keep(client, key); break;
      case 4: find_each(client); break;
      default: get(client, key);
    }
    if (turn % 64 == 0) model_sleeps(client->place, 2);
    if (turn % 128 == 0) hold(client, key, 2);
    if (model_rolls(&client->dice) % (READERS * GETS * 4) == 0) hold(client, key, 1000 + model_rolls(&client->dice) % 2000);
  }
  ends_reading(client->place);
  return NULL;
}

/* THE DATAFLOW */

/* A set that came back begins with its id. */
static void drop_set(const nr_rows *had) {
  for (uint64_t i = 1; i < had->count; i++)
    model_wants(id_of((uint32_t)(had->row[i].b >> 32)) == had->row[0].b, "another key", "a set came back by another id");
  drop_rows(had->row + 1, had->count - 1);
}

/* A call that puts rows: whether it has. What comes back is dropped. */
static bool has_put(uint32_t answer, const nr_row *rows, uint32_t count, const nr_rows *had) {
  if (answer == NR_GIVEN) drop_set(had);
  if (answer == NR_GIVEN || answer == NR_DONE) return true;
  if (answer == NR_NO_SLOT) model_counts("no slot, for readers", 1);
  if (answer == NR_ALL_FILLED) model_counts("no slot, for ids", 1);
  drop_rows(rows, count);
  return false;
}

static bool evict(uint64_t id) {
  if (nr_evict_id(&writer, id) != NR_EVICTED) return false;
  tell(&filled);
  return true;
}

/* Evicts an id of that one's group. */
static void make_room(uint64_t id) {
  uint64_t chosen;
  for (unsigned tries = 0; tries < 2 * WAYS; tries++)
    if (nr_choose_id(&writer, id, &chosen) == NR_DONE && evict(chosen)) return;
}

/* Those who wait for a key whose upquery was withdrawn request it anew. */
static void has_withdrawn(uint32_t key) {
  for (uint32_t i = 0; i < load_count; i++)
    if (loads[i].key == key && !loads[i].is_void) loads[i].is_void = true, model_has_loaded(key);
  tell(&filled);
}

/* The upquery with the last ticket number stays, and its load reads anew. */
static void invalidate(uint32_t key) {
  uint32_t answer = nr_invalidate_id(&writer, id_of(key));
  if (answer == NR_WORN) model_counts("last ticket number", 1);
  if (answer == NR_CANCELLED) has_withdrawn(key);
  if (answer == NR_EVICTED) tell(&filled);
}

static void change(uint32_t key, uint32_t roll) {
  nr_row rows[ROWS];
  nr_rows had, old;
  nr_delta deltas[2 * ROWS];
  uint64_t version = model_writes(key), id = id_of(key);
  bool is_put = false;
  uint32_t count, n = 0;
  if (roll % 3 == 0) {
    count = make_rows(key, version, rows);
    is_put = has_put(nr_replace_id_reclaiming(&writer, id, rows, count, &had), rows, count, &had);
  } else if (roll % 3 == 1 && nr_look_id(&writer, id, &old) == NR_ROWS) {
    count = make_rows(key, version, rows);
    for (uint64_t i = 0; i < old.count; i++) deltas[n++] = (nr_delta){old.row[i], false};
    for (uint32_t i = 0; i < count; i++) deltas[n++] = (nr_delta){rows[i], true};
    is_put = has_put(nr_update_id_reclaiming(&writer, id, deltas, n, &had), rows, count, &had);
  }
  if (!is_put) invalidate(key);
  model_has_written(key, version);
}

/* Begins a load, where there is room and one was posted: whether more may be posted. */
static bool take(void) {
  uint32_t key, answer;
  uint64_t number;
  nr_upquery upquery;
  if (load_count == MOST_LOADS) return true;
  if (!take_posted(&key, &number)) return false;
  while ((answer = nr_admit(&writer, id_of(key), &upquery)) == NR_FULL) {
    model_counts("group full", 1);
    make_room(id_of(key));
  }
  if (answer != NR_SEND) model_fails("answer", "%u of nr_admit for key %u", answer, key);
  model_loads(key);
  loads[load_count++] = (load){key, (uint32_t)(model_rolls(&dice) % 40), upquery, model_newest(key), false};
  return true;
}

/* An answer that comes once more. */
static void fill_twice(const load *load) {
  nr_row rows[ROWS];
  nr_rows had;
  uint32_t count = make_rows(load->key, load->version, rows);
  if (has_put(nr_fill_id_reclaiming(&writer, &load->upquery, rows, count, &had), rows, count, &had))
    model_fails("filled twice", "key %u by one answer", load->key);
  model_counts("answer came twice", 1);
}

/* Ends a load whose time has come: whether it has ended. */
static bool finish(load *load) {
  nr_row rows[ROWS];
  nr_rows had;
  if (load->delay-- > 0) return false;
  if (!load->is_void && model_rolls(&dice) % 16 == 0 && nr_withdraw_id(&writer, &load->upquery) == NR_CANCELLED) {
    has_withdrawn(load->key);
    return model_counts("load failed", 1), true;
  }
  uint64_t version = load->upquery.number == LAST ? model_newest(load->key) : load->version;
  uint32_t count = make_rows(load->key, version, rows);
  if (!load->is_void) model_has_loaded(load->key);
  uint32_t answer = nr_fill_id_reclaiming(&writer, &load->upquery, rows, count, &had);
  if (has_put(answer, rows, count, &had)) {
    if (load->is_void) model_fails("stale fill", "of key %u by number %lu", load->key, load->upquery.number);
    tell(&filled);
    if (model_rolls(&dice) % 8 == 0) fill_twice(load);
    return true;
  }
  if (load->is_void && answer == NR_STALE) return model_counts("late load refused", 1), true;
  if (answer != NR_NO_SLOT && answer != NR_ALL_FILLED) model_fails("answer", "%u of a fill of key %u", answer, load->key);
  model_loads(load->key);
  load->delay = 1;
  make_room(load->upquery.id);
  /* What was filled is found before the next has its slot. */
  model_sleeps(READERS, 1);
  return false;
}

static void reap(uint32_t wanted, const char *what) {
  nr_rows had;
  uint32_t answer;
  while ((answer = nr_reap_id(&writer, &had)) == NR_GIVEN) drop_set(&had);
  if (answer != NR_NOTHING && answer != wanted) model_fails("slot leaked", "%s", what);
}

static void *write_all(void *place) {
  (void)place;
  model_begins(READERS);
  for (unsigned turn = 0; reading || load_count;) {
    uint64_t seen = count_of(&posted);
    bool may_be_more = take();
    for (uint32_t i = 0; i < load_count;)
      if (finish(&loads[i])) loads[i] = loads[--load_count]; else i++;
    if (turn++ < WRITES) {
      uint32_t key = model_key(&dice, KEYS), roll = (uint32_t)model_rolls(&dice);
      if (roll % 8 == 0) evict(id_of(key));
      else if (roll % 8 < 4) change(key, roll / 8);
      reap(NR_HELD, "an answer of nr_reap_id");
      if (turn % 32 == 0) model_sleeps(READERS, 1);
    } else if (!may_be_more && !load_count && count_of(&posted) == seen && reading) {
      sleep_while(&posted, seen);
    }
  }
  model_ends(READERS);
  return NULL;
}

/* ROUNDS */

static nr_poster *poster_of(uint32_t place) { return &clients[place].poster; }

static void open_all(unsigned number) {
  uint32_t groups = 1 + number % 3 / 2, few = WAYS - 1 + (uint32_t)(model_rolls(&dice) % 5);
  shape = (nr_id_shape){groups, number & 1 ? few : WAYS * groups + READERS + 2, READERS, ROWS, model_rolls(&dice), 0};
  if (number & 2) {
    shape.first_number = LAST - model_rolls(&dice) % 8;
    model_counts("ticket numbers next to 2^22", 1);
  }
  DONE_AT_LAST(nr_open_ids(&shape, &writer));
  for (uint32_t place = 0; place < READERS; place++) {
    clients[place] = (client){.dice = model_rolls(&dice) + 1, .place = place};
    DONE_AT_LAST(nr_open_id_reader(&writer, &clients[place].reader));
  }
  open_ring(&dice, poster_of);
}

/* At rest each set that no id has comes back, and at the end all do. */
static void close_all(void) {
  nr_rows rows;
  uint64_t live = 0;
  reap(NR_NOTHING, "a set is held at rest");
  for (uint32_t key = 0; key < KEYS; key++)
    if (nr_look_id(&writer, id_of(key), &rows) == NR_ROWS) live += rows.count;
  model_lives(live);
  for (uint32_t key = 0; key < KEYS; key++) evict(id_of(key));
  reap(NR_NOTHING, "a set is held at the end");
  model_lives(0);
  close_ring(poster_of);
  for (uint32_t place = 0; place < READERS; place++) nr_close_id_reader(&clients[place].reader);
  nr_close_id_writer(&writer);
}

static void end(int number) { is_over = number; }

int main(int count, char **words) {
  model_wants(count == 3, "setup", "ids KEYS SEED");
  model_opens_keys(words[1]);
  dice = strtoull(words[2], NULL, 10) * 2 + 1;
  signal(SIGTERM, end);
  /* The later maps live longer. */
  for (unsigned maps = 1; !is_over; maps++) {
    open_all(maps);
    for (unsigned turn = 0; turn < maps && !is_over; turn++) run_round(read_all, write_all);
    close_all();
  }
  model_tells_counts();
  return 0;
}
