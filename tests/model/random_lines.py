"""Scripts and schedules by chance: lines that fit the grammar, lines that nearly do, and raw bytes."""

COUNTS = [0, 0, 1, 2**40 - 2, 2**40 - 1, 2**63, 2**64 - 1]
NAMES = ["a", "b", "apple", "0", "7", "1:1", "open", "~!", "n" * 255, "n" * 256]
SCRAPS = [b"", b" ", b"\r", b"\0", b"\x7f", b"\xff", b"\xc3\xa9", b":", b"+", b"0" * 21, b"18446744073709551616"]
ALPHABETS = [
    bytes(range(256)) + b"\n" * 30,
    b"\n\n 0123:+-abcdefghijklmnopqrstuvwxyz",
    b"\n\n\r\t ",
]


class Maker:
    """Makes inputs of the size and the kind that the random numbers say."""

    def __init__(self, random, features):
        self.random = random
        self.features = features

    def raw(self):
        alphabet = self.random.choice(ALPHABETS)
        return bytes(self.random.choices(alphabet, k=self.random.randrange(5000)))

    def script(self):
        named = self.random.random() < 0.3
        self.sizes()
        self.names = self.random.sample(NAMES, min(self.keys + 1, len(NAMES)))
        lines = [self.opening("open-named" if named else "open")]
        if self.random.random() < 0.1:
            lines.insert(0, self.command(named))
        lines += [self.command(named) for _ in range(self.length())]
        return self.joined(lines)

    def schedule(self):
        self.sizes()
        self.goes = self.random.choice([10, 30, 60])
        lines = [self.opening("open")]
        if self.random.random() < 0.1:
            lines.insert(0, self.step())
        lines += [self.step() for _ in range(self.length())]
        return self.joined(lines)

    def length(self):
        return self.random.choice([10, 50, 300, 1500])

    def sizes(self):
        if self.random.random() < 0.05:
            self.keys = self.random.choice([0, 65536, 65537])
            self.slots = self.random.choice([0, 131072, 131073])
            self.readers = self.random.choice([0, 1024, 1025])
        else:
            self.keys = self.random.randint(1, 4)
            self.slots = self.random.randint(1, self.keys + 3)
            self.readers = self.random.randint(1, 4)

    def opening(self, word):
        numbers = [self.keys, self.slots, self.readers]
        numbers.append(self.random.choice(COUNTS + [self.random.randrange(2**64)]))
        if self.features.cancel:
            numbers.append(self.random.choice([0, 0, 0, 1, 2**22 - 2, 2**22 - 2, 2**22 - 1, 2**22]))
        if self.features.bound:
            numbers.append(self.random.choice([0, 1, 2, 3, 14, 15, 16, 255, 256]))
        return "%s %s" % (word, " ".join(map(str, numbers[: self.random.randint(3, len(numbers))])))

    def command(self, named):
        key = self.random.choice(self.names) if named else self.key()
        kinds = [
            (6, "find %s %s" % (self.reader(), key)),
            (6, "ask %s %s" % (self.reader(), key)),
            (6, "fill %s%s" % (key, self.rows())),
            (8, "update %s%s" % (key, self.deltas())),
            (5, "replace %s%s" % (key, self.rows())),
            (4, "evict %s" % key),
            (2, "look %s" % key),
            (5, "pin %s %s" % (self.reader(), key)),
            (2, "show %s" % self.reader()),
            (5, "again %s %s" % (self.reader(), key)),
            (3, "unpin %s" % self.reader()),
            (0.2, self.opening("open")),
        ]
        if self.features.cancel:
            kinds += [(4, "cancel %s" % key), (4, "fill-as %s %s%s" % (key, self.number(), self.rows()))]
        return self.one_of(kinds)

    def step(self):
        kinds = [
            (8, "arrive %s %s" % (self.reader(), self.key())),
            (6, "read %s %s" % (self.reader(), self.random.randrange(6))),
            (6, "depart %s" % self.reader()),
            (6, "ask %s %s" % (self.reader(), self.key())),
            (4, "again %s %s" % (self.reader(), self.key())),
            (self.goes, "go"),
            (1, "writer find %s" % self.key()),
            (6, "writer fill %s%s" % (self.key(), self.rows())),
            (8, "writer update %s%s" % (self.key(), self.deltas())),
            (5, "writer replace %s%s" % (self.key(), self.rows())),
            (4, "writer evict %s" % self.key()),
            (0.2, self.opening("open")),
        ]
        if self.features.cancel:
            kinds += [
                (4, "writer cancel %s" % self.key()),
                (4, "writer fill-as %s %s%s" % (self.key(), self.number(), self.rows())),
            ]
        return self.one_of(kinds)

    def one_of(self, kinds):
        weights, lines = zip(*kinds)
        return self.random.choices(lines, weights)[0]

    def reader(self):
        return self.written(self.random.randint(1, min(self.readers, 4) or 1), self.readers + 1)

    def key(self):
        return self.written(self.random.randrange(min(self.keys, 4) or 1), self.keys)

    def number(self):
        return self.written(self.random.randrange(4), 2**22 - self.random.randint(1, 3))

    def written(self, usual, edge):
        """A number as a line spells it: mostly a usual one, and now and then an odd one."""
        odd = self.random.random()
        if odd < 0.02:
            return self.random.choice([edge, 0, 2**32, 2**32 + 1, 2**64 - 1, 2**64])
        return "%0*d" % (self.random.choice([2, 3, 20, 21]), usual) if odd < 0.03 else usual

    def rows(self):
        return "".join(" " + self.row() for _ in range(self.many([0, 1, 2, 4], [14, 15, 16, 17, 255, 256])))

    def deltas(self):
        many = self.many([1, 2, 3, 5], [0, 13, 15, 64, 65])
        return "".join(" " + self.random.choice("++-") + self.row() for _ in range(many))

    def many(self, usual, odd):
        return self.random.choice(usual if self.random.random() < 0.9 else odd)

    def row(self):
        return "%s:%s" % (self.written(self.random.randrange(3), 9), self.written(self.random.randrange(2), 9))

    def joined(self, lines):
        text = b"\n".join(self.damaged(str(line).encode()) for line in lines)
        return text + b"\n" * (self.random.random() < 0.7)

    def damaged(self, line):
        """The line, or now and then one that is nearly it."""
        if self.random.random() > 0.03:
            return line
        at = self.random.randrange(len(line) + 1)
        kind = self.random.randrange(4)
        if kind == 0:
            return line[:at] + line[at + 1 :]
        if kind == 1:
            return line[:at] + self.random.choice(SCRAPS) + line[at:]
        if kind == 2:
            return line[:at]
        return line + b" " * (at % 2) + b"a" * (4096 + self.random.randrange(-1, 3) - len(line) - at % 2)
