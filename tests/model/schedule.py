"""The replies of a schedule, by a machine whose every step is one operation on one word."""

from .lines import LAST_ASK_NUMBER, Refused, applied, fields, lines_of, sizes, spelled, words_of

ASK = 1
FILLED = 2
SLOT = 4
ARRIVE = 2**24
COUNTS = 2**40
WORDS = 2**64

SHAPES = {
    b"arrive": ("reader", "key"),
    b"read": ("reader", "index"),
    b"depart": ("reader",),
    b"again": ("reader", "key"),
    b"ask": ("reader", "key"),
    b"go": (),
}

WRITER_SHAPES = {
    b"find": ("key",),
    b"fill": ("key", "rows"),
    b"update": ("key", "batch"),
    b"replace": ("key", "rows"),
    b"evict": ("key",),
}

CANCEL_SHAPES = {b"cancel": ("key",), b"fill-as": ("key", "number", "rows")}


def replies(text, features):
    schedule = Schedule(features)
    return "".join(schedule.reply(line) + "\n" for line in lines_of(text)).encode()


def slot_of(word):
    return word % ARRIVE // SLOT


class Schedule:
    def __init__(self, features):
        self.features = features
        self.writer_shapes = {**WRITER_SHAPES, **(CANCEL_SHAPES if features.cancel else {})}
        self.machine = None

    def reply(self, line):
        try:
            command, *words = words_of(line)
            if command == b"open":
                return self.open(words)
            if command == b"writer":
                return self.writer(words)
            if command not in SHAPES:
                raise Refused("bad")
            told = fields(SHAPES[command], words)
            self.refuse(told)
            return getattr(self.machine, command.decode())(**told)
        except Refused as refused:
            return refused.word

    def open(self, words):
        read = sizes(words, self.features)
        if self.machine:
            raise Refused("bad")
        self.machine = Machine(read)
        return "ok"

    def writer(self, words):
        if not words or words[0] not in self.writer_shapes:
            raise Refused("bad")
        told = fields(self.writer_shapes[words[0]], words[1:])
        self.refuse(told)
        return self.machine.start("write_" + words[0].decode().replace("-", "_"), told)

    def refuse(self, told):
        if not self.machine:
            raise Refused("closed")
        sizes = self.machine.sizes
        if len(told.get("rows", ())) > sizes.rows:
            raise Refused("too-many")
        if not 1 <= told.get("reader", 1) <= sizes.readers or told.get("key", 0) >= sizes.keys:
            raise Refused("out-of-range")


class Machine:
    """The words, who holds what, and the writer's lists and its call.

    A call of the writer is a generator that yields where a step ends and the call goes on.
    """

    def __init__(self, sizes):
        self.sizes = sizes
        self.words = {}  # key: its word, where it was ever changed
        self.departures = {}  # slot: its departures, where there were any
        self.content = {}  # slot and index: its word
        self.holds = {}  # reader: the slot, and the number of its rows once that was read
        self.numbers = {}  # key: its ask number, where that isn't the first
        self.fresh = 0  # the first slot that was never taken
        self.retired = []  # slots that no key names any more, and their arrivals, oldest first
        self.call = None

    # The readers' steps.

    def arrive(self, reader, key):
        self.refuse_holder(reader)
        word = self.word(key)
        self.words[key] = (word + ARRIVE) % WORDS
        if not word & FILLED:
            return "hole"
        self.holds[reader] = slot_of(word), None
        return "held"

    def read(self, reader, index):
        slot, size = self.hold(reader)
        if index > 2 * (size or 0):
            raise Refused("out-of-range")
        if index == 0:
            self.holds[reader] = slot, self.content[slot, 0]
        return str(self.content[slot, index])

    def depart(self, reader):
        slot, _ = self.hold(reader)
        self.departures[slot] = (self.departed(slot) + 1) % WORDS
        del self.holds[reader]
        return "ok"

    def again(self, reader, key):
        slot, _ = self.hold(reader)
        word = self.word(key)
        return "same" if word & FILLED and slot_of(word) == slot else "other"

    def ask(self, reader, key):
        self.refuse_holder(reader)
        word = self.word(key)
        self.words[key] = word | ASK
        return "filled" if word & FILLED else "waiting" if word & ASK else "send"

    def refuse_holder(self, reader):
        if reader in self.holds:
            raise Refused("holding")

    def hold(self, reader):
        if reader not in self.holds:
            raise Refused("not-holding")
        return self.holds[reader]

    # The writer's steps.

    def start(self, name, told):
        if self.call:
            raise Refused("busy")
        self.call = getattr(self, name)(**told)
        return self.step()

    def go(self):
        if not self.call:
            raise Refused("not-busy")
        return self.step()

    def step(self):
        try:
            next(self.call)
            return "-"
        except StopIteration as ended:
            reply = ended.value
        except Refused as refused:
            reply = refused.word
        self.call = None
        return reply

    def write_find(self, key):
        word = self.word(key)
        if not word & FILLED:
            return "hole"
        rows = yield from self.read_rows(slot_of(word))
        return spelled(rows)

    def write_fill(self, key, rows):
        return (yield from self.write_fill_as(key, self.number(key), rows))

    def write_fill_as(self, key, number, rows):
        word = self.word(key)
        if word & FILLED:
            return "already"
        if not word & ASK:
            return "not-asked"
        if number != self.number(key):
            return "stale"
        slot = yield from self.search()
        yield from self.publish(key, slot, rows)
        return "done"

    def write_update(self, key, batch):
        word = self.word(key)
        if not word & FILLED:
            return "dropped"
        rows = yield from self.read_rows(slot_of(word))
        rows = applied(rows, batch, self.sizes.rows)
        slot = yield from self.search()
        self.retire((yield from self.publish(key, slot, rows)))
        return "done"

    def write_replace(self, key, rows):
        if not self.word(key) & FILLED:
            return "dropped"
        slot = yield from self.search()
        self.retire((yield from self.publish(key, slot, rows)))
        return "done"

    def write_evict(self, key):
        if not self.word(key) & FILLED:
            return "nothing"
        yield
        self.retire(self.word(key))
        self.words[key] = SLOT * self.number(key)
        return "evicted"

    def write_cancel(self, key):
        word = self.word(key)
        if word & FILLED or not word & ASK:
            return "nothing"
        if self.number(key) == LAST_ASK_NUMBER:
            return "worn"
        yield
        self.numbers[key] = self.number(key) + 1
        self.words[key] = SLOT * self.number(key)
        return "cancelled"

    def read_rows(self, slot):
        yield
        words = []
        for index in range(1, 2 * self.content[slot, 0] + 1):
            yield
            words.append(self.content[slot, index])
        return list(zip(words[::2], words[1::2]))

    def search(self):
        if self.fresh < self.sizes.slots:
            self.fresh += 1
            return self.fresh - 1
        for place, (slot, arrivals) in enumerate(self.retired):
            yield
            if self.departed(slot) % COUNTS == arrivals:
                del self.retired[place]
                return slot
        live = sum(1 for word in self.words.values() if word & FILLED)
        raise Refused("no-slot %d %d" % (live, len(self.retired)))

    def publish(self, key, slot, rows):
        """Writes the rows into the slot, then names it; gives the word that named the old one."""
        rows = sorted(rows)
        for index, word in enumerate([len(rows)] + [part for row in rows for part in row]):
            yield
            self.content[slot, index] = word
        yield
        old = self.word(key)
        self.words[key] = FILLED + SLOT * slot + ARRIVE * (self.departed(slot) % COUNTS)
        return old

    def retire(self, word):
        self.retired.append((slot_of(word), word // ARRIVE))

    # The words as they stand.

    def word(self, key):
        return self.words.get(key, SLOT * self.sizes.first_number)

    def departed(self, slot):
        return self.departures.get(slot, self.sizes.first_count)

    def number(self, key):
        return self.numbers.get(key, self.sizes.first_number)
