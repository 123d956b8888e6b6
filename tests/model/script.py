"""The replies of a script, by a map that knows no words, slots or threads."""

from .lines import LAST_ASK_NUMBER, Refused, applied, fields, lines_of, number, sizes, spelled, words_of

LONGEST_NAME = 255

SHAPES = {
    b"find": ("reader", "key"),
    b"ask": ("reader", "key"),
    b"fill": ("key", "rows"),
    b"update": ("key", "batch"),
    b"replace": ("key", "rows"),
    b"evict": ("key",),
    b"look": ("key",),
    b"pin": ("reader", "key"),
    b"show": ("reader",),
    b"again": ("reader", "key"),
    b"unpin": ("reader",),
}

CANCEL_SHAPES = {b"cancel": ("key",), b"fill-as": ("key", "number", "rows")}


def replies(text, features):
    script = Script(features)
    return "".join(script.reply(line) + "\n" for line in lines_of(text)).encode()


class Script:
    def __init__(self, features):
        self.features = features
        self.shapes = {**SHAPES, **(CANCEL_SHAPES if features.cancel else {})}
        self.sizes = None  # of the opening line that was answered ok
        self.names = None  # after open-named: the names in the order of their numbers
        self.asked = set()
        self.filled = {}  # key: its rows and their put number
        self.numbers = {}  # key: its ask number, where that isn't the first
        self.pins = {}  # reader: the rows that it found and their put number
        self.puts = 0

    def reply(self, line):
        try:
            command, *words = words_of(line)
            if command in (b"open", b"open-named"):
                return self.open(command, words)
            return self.answer(command, words)
        except Refused as refused:
            return refused.word

    def open(self, command, words):
        read = sizes(words, self.features)
        if self.sizes:
            raise Refused("bad")
        self.sizes = read
        self.names = [] if command == b"open-named" else None
        return "ok"

    def answer(self, command, words):
        if command not in self.shapes:
            raise Refused("bad")
        numbered = self.sizes and self.names is None
        told = fields(self.shapes[command], words, number if numbered else bytes)
        if not self.sizes:
            raise Refused("closed")
        if not 1 <= told.get("reader", 1) <= self.sizes.readers:
            raise Refused("no-reader")
        if "key" in told:
            told["key"] = self.key(told["key"])
        if len(told.get("rows", ())) > self.sizes.rows:
            raise Refused("too-many")
        if command in (b"find", b"ask", b"pin") and told["reader"] in self.pins:
            raise Refused("holding")
        if command in (b"show", b"again", b"unpin") and told["reader"] not in self.pins:
            raise Refused("not-holding")
        return getattr(self, command.decode().replace("-", "_"))(**told)

    def key(self, key):
        if self.names is None:
            if key >= self.sizes.keys:
                raise Refused("no-key")
            return key
        if len(key) > LONGEST_NAME:
            raise Refused("too-long")
        if key not in self.names:
            if len(self.names) == self.sizes.keys:
                raise Refused("full")
            self.names.append(key)
        return self.names.index(key)

    def find(self, reader, key):
        return self.look(key)

    def look(self, key):
        return spelled(self.filled[key][0]) if key in self.filled else "hole"

    def ask(self, reader, key):
        if key in self.filled:
            return "filled"
        if key in self.asked:
            return "waiting"
        self.asked.add(key)
        return "send"

    def fill(self, key, rows):
        return self.fill_as(key, self.number(key), rows)

    def fill_as(self, key, number, rows):
        if key in self.filled:
            return "already"
        if key not in self.asked:
            return "not-asked"
        if number != self.number(key):
            return "stale"
        self.put(key, rows)
        self.asked.remove(key)
        return "done"

    def update(self, key, batch):
        if key not in self.filled:
            return "dropped"
        self.put(key, applied(self.filled[key][0], batch, self.sizes.rows))
        return "done"

    def replace(self, key, rows):
        if key not in self.filled:
            return "dropped"
        self.put(key, rows)
        return "done"

    def put(self, key, rows):
        named = {put for _, put in self.filled.values()}
        strays = {put for _, put in self.pins.values()} - named
        if len(self.filled) + len(strays) == self.sizes.slots:
            raise Refused("no-slot")
        self.filled[key] = rows, self.puts
        self.puts += 1

    def evict(self, key):
        return "evicted" if self.filled.pop(key, None) else "nothing"

    def cancel(self, key):
        if key not in self.asked:
            return "nothing"
        if self.number(key) == LAST_ASK_NUMBER:
            return "worn"
        self.asked.remove(key)
        self.numbers[key] = self.number(key) + 1
        return "cancelled"

    def number(self, key):
        return self.numbers.get(key, self.sizes.first_number)

    def pin(self, reader, key):
        if key not in self.filled:
            return "hole"
        self.pins[reader] = self.filled[key]
        return "ok"

    def show(self, reader):
        return spelled(self.pins[reader][0])

    def again(self, reader, key):
        rows, put = self.pins[reader]
        return spelled(rows) if key in self.filled and self.filled[key][1] == put else "other"

    def unpin(self, reader):
        del self.pins[reader]
        return "ok"
