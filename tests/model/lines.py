"""Lines, words and numbers, which scripts and schedules share."""

import re
from collections import Counter
from dataclasses import dataclass

LONGEST_LINE = 4096
LARGEST_NUMBER = 2**64 - 1
MOST_DELTAS = 64
LAST_ASK_NUMBER = 2**22 - 1


class Refused(Exception):
    """A line or a call is answered by this word, and nothing changes."""

    def __init__(self, word):
        super().__init__(word)
        self.word = word


@dataclass(frozen=True)
class Features:
    """What the program knows beside the lines that it has always known."""

    cancel: bool = False  # ask numbers: cancel, fill-as, and the fifth number of an opening
    bound: bool = False  # the sixth number of an opening: the most rows of a key

    def most_opening_numbers(self):
        return 6 if self.bound else 5 if self.cancel else 4


@dataclass(frozen=True)
class Sizes:
    """The numbers of an opening line, in their order."""

    keys: int
    slots: int
    readers: int
    first_count: int = 0
    first_number: int = 0
    rows: int = 15

    def are_within_limits(self):
        return (
            1 <= self.keys <= 65536
            and 1 <= self.slots <= 131072
            and 1 <= self.readers <= 1024
            and self.first_number <= LAST_ASK_NUMBER
            and 1 <= self.rows <= 255
        )


def lines_of(text):
    """The lines of an input. What follows its last line feed is a line if it isn't empty."""
    lines = text.split(b"\n")
    return lines if lines[-1] else lines[:-1]


def words_of(line):
    if len(line) > LONGEST_LINE or any(byte < 32 or byte > 126 for byte in line):
        raise Refused("bad")
    words = line.split(b" ")
    if b"" in words:
        raise Refused("bad")
    return words


def number(word):
    if not re.fullmatch(rb"[0-9]{1,20}", word) or int(word) > LARGEST_NUMBER:
        raise Refused("bad")
    return int(word)


def row(word):
    parts = word.split(b":")
    if len(parts) != 2:
        raise Refused("bad")
    return number(parts[0]), number(parts[1])


def delta(word):
    if word[:1] not in (b"+", b"-"):
        raise Refused("bad")
    return word[:1], row(word[1:])


def batch(words):
    if not 1 <= len(words) <= MOST_DELTAS:
        raise Refused("bad")
    return [delta(word) for word in words]


def sizes(words, features):
    if not 3 <= len(words) <= features.most_opening_numbers():
        raise Refused("bad")
    read = Sizes(*[number(word) for word in words])
    if not read.are_within_limits():
        raise Refused("bad")
    return read


def fields(shape, words, key=number):
    """What the words say, in the order of the shape, whose last may take all that are left."""
    told = {}
    for name in shape:
        if name in ("rows", "batch"):
            told[name] = batch(words) if name == "batch" else [row(word) for word in words]
            return told
        if not words:
            raise Refused("bad")
        told[name] = (key if name == "key" else number)(words[0])
        words = words[1:]
    if words:
        raise Refused("bad")
    return told


def applied(rows, deltas, bound):
    """The rows after a batch, in ascending order."""
    added = Counter(rows) + Counter(row for sign, row in deltas if sign == b"+")
    taken = Counter(row for sign, row in deltas if sign == b"-")
    if taken - added:
        raise Refused("no-row")
    left = sorted((added - taken).elements())
    if len(left) > bound:
        raise Refused("too-many")
    return left


def spelled(rows):
    return " ".join(["rows"] + ["%d:%d" % row for row in sorted(rows)])
