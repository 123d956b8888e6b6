"""What the scripts of this folder print at first, and what bench/libraries printed, for those that show it."""
import os
import re
from datetime import date


def begun():
    """A run's first line: its day and the machine."""
    with open("/proc/cpuinfo") as file:
        model = re.search(r"^model name\s*: (.*)$", file.read(), re.M)
    processor = re.sub(r"\((R|TM)\)| Processor| CPU", "", model.group(1) if model else "unknown processor")
    return f"Run of {date.today()}, {processor}, {os.cpu_count()} processors"


def head(run):
    """The day and the machine of a run."""
    return re.search(r"^Run of (.*)$", run, re.M).group(1)


def number(text):
    return int(text) if text.lstrip("-").isdigit() else float(text)


def over_processes(told):
    """Of one process the median and the quartiles that it printed; of several those of their medians."""
    if len(told) == 1:
        return told[0]
    medians, last = sorted(middle for middle, _, _ in told), len(told) - 1
    return tuple(medians[int(part * last + 0.5)] for part in (0.5, 0.25, 0.75))


def cells_of(run):
    """By what was measured, rows, kind, keys, draw, threads and writer: of each map the median and the quartiles."""
    cells = {}
    for line in run.splitlines():
        fields = line.split("\t")
        if len(fields) == 11:
            what, rows, kind, keys, drawn, threads, writer, name, *values = fields
            key = (what, int(rows), kind, int(keys), drawn, int(threads), number(writer))
            cells.setdefault(key, {}).setdefault(name, []).append(tuple(float(it) for it in values))
    return {key: {name: over_processes(told) for name, told in maps.items()} for key, maps in cells.items()}


MODES = {"counts": "updates of a count", "rows": "inserts of rows"}


def votes_of(run):
    """The lines of a run of bench/vote: how votes are kept, the server, and numbers."""
    lines = [line.split("\t") for line in run.splitlines()]
    return [line for line in lines if line[0] in MODES and len(line) == 8]


def spread(cells):
    """How far the quartiles lie from their medians: half of them, and nine of ten, at most."""
    far = sorted(max(high - middle, middle - low) / middle for it in cells.values() for middle, low, high in it.values() if middle)
    return far[len(far) // 2], far[9 * len(far) // 10]
