"""The sentences of docs/PERFORMANCE.md that say which library to take, with the figures that a run gives them. Where a run
doesn't bear one of them out, nothing is written: the sentence is to be changed here."""
import sys
from statistics import median

LOCKS = ("a lock a key", "TBB", "libcuckoo", "dashmap")
DRAWS = ("even", "zipf")
ARRAYS = ("liburcu QSBR, array", "liburcu memb, array")
TABLES = ("liburcu QSBR, rculfhash", "liburcu memb, rculfhash")
EACH, EACH_ROWS = "this map, 16 at once", "this map, 16 at once, rows of the caller's"
SMALL, LARGE = (8192, 65536), (1000000,)
HITS, LOADS = "readers load, load 0 ns", "readers load, load 2000 ns"


def digits(share):
    return f"{share:.2f}" if share < 0.995 else f"{share:.1f}" if share < 10 else f"{share:.0f}"


def between(shares):
    low, high = digits(min(shares)), digits(max(shares))
    return low if low == high else f"{low} to {high}"


class Run:
    """What bench/libraries measured, as shares of what one contestant took."""

    def __init__(self, cells):
        self.cells = cells

    def told(self, key, name):
        told = self.cells.get(key, {})
        return told[name][0] if name in told else sys.exit(f"the run of libraries has no {name} at {key}")

    def finds(self, names, kind, sizes, threads, drawn, of="this map"):
        """Of each name, size and number of threads the time of a find, as a share of that contestant's."""
        keys = [("ns", 4, kind, size, drawn, count, 0) for size in sizes for count in threads]
        return [self.told(key, name) / self.told(key, of) for key in keys for name in names]

    def updates(self, names, drawn, kinds=("numbers", "ids")):
        """The same of a writer's updates beside three readers of 8,192 keys."""
        keys = [("updates", 4, kind, 8192, drawn, 3, -1) for kind in kinds]
        return [self.told(key, name) / self.told(key, "this map") for key in keys for name in names if name in self.cells.get(key, {})]

    def all_finds(self, names, kind, sizes, threads=(1, 3), of="this map"):
        """The shares with keys drawn evenly, and by Zipf's law."""
        return [it for drawn in DRAWS for it in self.finds(names, kind, sizes, threads, drawn, of)]

    def all_updates(self, names, kinds=("numbers", "ids")):
        return [it for drawn in DRAWS for it in self.updates(names, drawn, kinds)]

    def wants(self, is_so, what):
        if not is_so:
            sys.exit(f"bench/which.py: the run doesn't bear out that {what}")

    def gets(self, name, of, drawn="zipf", kind="a thread loads, load 2000 ns", keys=16384, threads=3, resident=4096):
        """How often it gets, as a share of that cache's gets."""
        key = ("gets", 4, kind, keys, drawn, threads, resident)
        return self.told(key, name) / self.told(key, of)


def never_missing(run):
    arrays = run.all_finds(ARRAYS, "numbers", SMALL)
    hot = run.finds(ARRAYS, "numbers", (8192,), (1, 3), "hot")
    tables, larger = (run.all_finds(TABLES, "ids", sizes) for sizes in (SMALL, LARGE))
    run.wants(max(arrays + hot) < 1, "liburcu's array is ahead")
    run.wants(min(larger) > 1, "rculfhash takes longer for a million ids")
    return (
        f"- **Where no key is ever missing** and only single finds count, take **liburcu**. Its array finds up to 65,536 numbers in "
        f"{between(arrays)} of this map's time, and one hot key in {between(hot)}. Its rculfhash finds up to 65,536 ids in "
        f"{between(tables)} of it, and a million in {between(larger)}.\n"
    )


def swapped(run):
    finds, updates = run.all_finds(("arc-swap",), "numbers", SMALL), run.all_updates(("arc-swap",))
    run.wants(max(finds) < 1, "arc-swap finds numbers faster")
    return (
        f"- **arc-swap** finds up to 65,536 numbers in {between(finds)} of this map's time too, but beside three readers it updates "
        f"them at most {digits(max(updates))} as often.\n"
    )


def locks(run):
    sizes = SMALL + LARGE
    one, others = (run.all_finds(names, "ids", sizes, (1,)) for names in (("dashmap",), LOCKS[:3]))
    three, hot = run.all_finds(LOCKS, "ids", sizes, (3,)), run.updates(LOCKS, "hot")
    run.wants(min(three) > 1, "by three threads locks take longer")
    cuckoo, rest = (run.all_updates(names, ("ids",)) for names in (("libcuckoo",), ("a lock a key", "TBB", "dashmap")))
    return (
        f"- **Locks** suit one thread: **dashmap** then finds ids in {between(one)} of this map's time, and libcuckoo, TBB and a lock a "
        f"key in {between(others)}. By three threads all four take longer, {between(three)} of it. Beside three readers libcuckoo "
        f"updates 8,192 ids {between(cuckoo)} times as often as this map, and the others {between(rest)} times. They hardly update a "
        f"hot key that three readers find, at most {digits(max(hot))} as often.\n"
    )


def this_map(run):
    updates = [1 / it for it in run.all_updates(ARRAYS + TABLES)]
    queue = run.gets("this map", "liburcu memb, array, TBB's queue")
    locked = run.gets("this map", "64 locked parts")
    run.wants(min(updates) > 1, "this map updates more often than liburcu")
    return (
        f"- **This map** asks for a missing key once. Beside three readers it updates {between(updates)} times as often as liburcu. "
        f"With a thread that loads what three readers get by Zipf's law, it makes {digits(queue)} of the gets of liburcu's array with "
        f"TBB's queue, and {digits(locked)} times those of locked tables.\n"
    )


def many(run):
    def shares(sizes):
        return [it for kind in ("numbers", "ids") for name in (EACH_ROWS, EACH) for it in run.all_finds((name,), kind, sizes)]

    small, larger = shares(SMALL[:1]), shares(SMALL[1:] + LARGE)
    run.wants(median(larger) < 1 < median(small), "finds of many mostly gain from 65,536 keys on, and not before")
    return (
        f"- **For many keys at once**, of 65,536 or more, sixteen finds by one call take {between(larger)} of single finds' time. Of "
        f"8,192 keys they take {between(small)} of it, so single finds are mostly faster there. Take `nr_find_each_rows` and "
        f"`nr_find_each_rows_id`, whose rows go to an array of the caller's: beside its rows a number takes 12 bytes there and an id "
        f"16, where `nr_find_each` and `nr_find_each_id` take 4 kB for each.\n"
    )


def caches(run):
    def times(other, drawn, threads):
        return digits(1 / run.gets("this cache", other, drawn, HITS, 8192, threads))

    lrus, cells = "64 locked LRUs", "dashmap, a lock a key"
    return (
        f"- **The Rust cache** suits queries that take much longer than a hit. By three threads a hit takes {times(lrus, 'there', 3)} "
        f"of locked LRUs' time, and by one {times(lrus, 'there', 1)}. A miss whose load takes no time at all takes "
        f"{times(lrus, 'new', 3)} times as long as theirs by three threads, and {times(lrus, 'new', 1)} times by one. Of dashmap with "
        f"a lock a key these are {times(cells, 'new', 3)} and {times(cells, 'new', 1)}. With loads of 2 µs and three readers that get "
        f"by Zipf's law, this cache makes {digits(run.gets('this cache', lrus, kind=LOADS))} of the LRUs' gets and "
        f"{digits(run.gets('this cache', cells, kind=LOADS))} of dashmap's.\n"
    )


def sentences(cells):
    run = Run(cells)
    return "".join(of(run) for of in (never_missing, swapped, locks, this_map, many, caches))
