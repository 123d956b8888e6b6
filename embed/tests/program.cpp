// A map as a C++ program uses it: handles that close themselves, a reader in a thread of its own, a ticket by a queue.
#include <nr.h>

#include <cstdio>
#include <stdexcept>
#include <thread>

namespace {

constexpr uint32_t keys = 100;

void want(bool is_so, const char *what) {
  if (!is_so) throw std::runtime_error(what);
}

template <typename Handle, void (*close)(Handle *)>
struct owned {
  Handle handle{};
  owned() = default;
  owned(const owned &) = delete;
  owned &operator=(const owned &) = delete;
  ~owned() { close(&handle); }
};

using writer = owned<nr_writer, nr_close_writer>;
using reader = owned<nr_reader, nr_close_reader>;
using taker = owned<nr_taker, nr_close_taker>;
using poster = owned<nr_poster, nr_close_poster>;

void read(nr_reader *reader, nr_poster *poster) {
  static nr_rows rows;
  for (uint32_t key = 0; key < keys; key++) {
    while (nr_find(reader, key, &rows) == NR_HOLE) {
      uint64_t number = 0;
      if (nr_ask(reader, key, &number) == NR_SEND)
        while (nr_post(poster, key, number) != NR_DONE) std::this_thread::yield();
      std::this_thread::yield();
    }
    want(rows.count == 1 && rows.row[0].a == key && rows.row[0].b == 2 * key, "the rows of a key");
  }
}

void fill(nr_writer *writer, nr_taker *taker) {
  for (uint32_t filled = 0; filled < keys;) {
    uint32_t key = 0;
    uint64_t number = 0;
    if (nr_take(taker, &key, &number) != NR_DONE) {
      std::this_thread::yield();
      continue;
    }
    const nr_row row = {key, uint64_t{2} * key};
    want(nr_fill(writer, key, number, &row, 1) == NR_DONE, "a fill");
    filled++;
  }
}

}  // namespace

int main() {
  const nr_shape shape = {keys, keys + 2, 1, 15, 0, 0};
  writer w;
  want(nr_open(&shape, &w.handle) == NR_DONE, "a map");
  taker t;
  want(nr_open_queue(keys, keys, 1, &t.handle) == NR_DONE, "a queue");
  reader r;
  want(nr_open_reader(&w.handle, &r.handle) == NR_DONE, "a reader");
  poster p;
  want(nr_open_poster(&t.handle, &p.handle) == NR_DONE, "a poster");
  std::thread thread(read, &r.handle, &p.handle);
  fill(&w.handle, &t.handle);
  thread.join();
  std::puts("each key was sent and filled once");
}
