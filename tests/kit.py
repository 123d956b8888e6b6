"""What the tests share, and embed/archive with them: the kit's command rt as a module, with its checks of wrong bodies
and its builds, and how many provers may run side by side."""
import functools
import importlib.machinery
import importlib.util
import os
import pathlib
import re
import shutil
import sys
import threading

TOP = pathlib.Path(__file__).resolve().parent.parent
ONE_PROVER = 9 << 18  # of memory, in KiB: a fourth of what the four take together that take most
saying = threading.Lock()


def module(name, path):
    """A script as a module."""
    sys.dont_write_bytecode = True
    loader = importlib.machinery.SourceFileLoader(name, str(path))
    made = importlib.util.module_from_spec(importlib.util.spec_from_loader(name, loader))
    loader.exec_module(made)
    return made


@functools.cache
def rt():
    place = shutil.which("rt") or sys.exit("there is no rt on the path, the command of Rattle's kit")
    made = module("rt", os.path.realpath(place))
    made.rtlib.guarded()
    return made


def processors():
    return len(os.sched_getaffinity(0))


def lanes(others=0):
    """How many provers may run side by side, each by one process, where so many others begin too."""
    free = int(re.search(r"MemAvailable: *(\d+)", pathlib.Path("/proc/meminfo").read_text())[1])
    return max(1, min(processors(), free // ONE_PROVER - others))


def say(line):
    """Prints a line whole, whatever other threads print."""
    with saying:
        print(line, flush=True)
