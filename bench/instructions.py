#!/usr/bin/env python3
"""Counts the machine instructions that a step of `run` and an access of a trace take.

usage: bench/instructions.py [PROGRAM]

Each figure is the difference of two calls of unlike length, so neither the start of the program nor a busy
machine counts. Reading alone is a call of `place` for an object that the trace hasn't: it goes over all records
and notes none. tools/growth.py counts, by perf or valgrind. A benchmark, no test."""

import argparse
import os
import subprocess
import sys
import tempfile
from collections.abc import Iterator

import aims
import pcs

sys.path.insert(0, os.path.join(aims.TOP, "tools"))

from growth import Call, Way, choose_way, measure_once  # noqa: E402

# Accesses, or steps, of the two calls.
FEW, MANY = 20_000, 220_000
# What reading alone ends with.
NO_OBJECT, BUDGET_SPENT = 13, 10
# A guest whose harts jump to themselves: their number, and the turns in a row of each.
GUESTS = (
    ("one hart of 8", aims.ALL[-1:], 8, 100),
    ("one hart of 256", aims.ALL[-1:], 256, 100),
    ("8 harts in turn", aims.ALL, 8, 1),
    ("256 harts in turn", aims.ALL, 256, 1),
    ("8 harts, 100 turns each", aims.ALL, 8, 100),
)
# Lines, harts and settings of a trace.
TRACES = (
    ("64 lines, 8 harts", 64, 8, "tracking=1"),
    ("64 lines, 256 harts", 64, 256, "tracking=1"),
    ("64 lines, 8 harts, a search at each second write", 64, 8, "tracking=1,prediction=2"),
    ("65,536 lines at random, 8 harts", 1 << 16, 8, "tracking=1"),
)


class Counter:
    """Counts calls of the program, in a folder."""

    def __init__(self, program: str, folder: str) -> None:
        self.program, self.folder = program, folder
        self.way: Way = choose_way(None, program, folder)

    def count(self, words: list[str], status: int) -> float:
        found = measure_once(self.way, self.program, Call(words, [], status), f"{self.folder}/out")
        if found.cost is None:
            sys.exit(f"bench: {' '.join(words)}: {found.fault or 'it takes too long'}")
        return found.cost

    def unit(self, few: list[str], many: list[str], status: int) -> float:
        """Instructions of one step or access."""
        return (self.count(many, status) - self.count(few, status)) / (MANY - FEW)


def list_touches(count: int, lines: int, harts: int) -> Iterator[pcs.Touch]:
    """A write of each line, so that all are tracked, and then accesses at random, three writes to a read."""
    for line in range(lines):
        yield pcs.Touch(True, line % harts, pcs.DATA + 64 * line, pcs.CODE)
    state = 1
    for _ in range(count):
        state = (state * 6364136223846793005 + 1442695040888963407) & 0xFFFFFFFFFFFFFFFF
        r = state >> 32
        hart, line = r % harts, (r >> 8) * lines >> 24
        yield pcs.Touch(
            r >> 6 & 3 != 0,
            hart,
            pcs.DATA + 64 * line + 4 * (hart % 16),
            pcs.CODE + 4 * (r >> 16 & 63),
        )


def write_traces(counter: Counter, count: int, lines: int, harts: int) -> list[str]:
    """The same accesses in versions 1, 2 and 3."""
    names = [f"{counter.folder}/{count}.{version}" for version in (1, 2, 3)]
    pcs.write_trace(names[2], list_touches(count, lines, harts), harts)
    for old, new in ((names[2], names[1]), (names[1], names[0])):
        words = [counter.program, "convert", old, new]
        subprocess.run(words, check=True, stdout=subprocess.DEVNULL)
    return names


def count_accesses(counter: Counter) -> None:
    for name, lines, harts, settings in TRACES:
        few, many = (write_traces(counter, it, lines, harts) for it in (FEW, MANY))
        for version, pair in enumerate(zip(few, many), 1):
            reading = counter.unit(*(["place", it, "none"] for it in pair), NO_OBJECT)
            replay = counter.unit(*(["replay", it, "--set", settings] for it in pair), 0)
            print(
                f"{name}, version {version}: reading {reading:.1f}, replay {replay:.1f}", flush=True
            )


def count_steps(counter: Counter) -> None:
    for name, code, harts, quantum in GUESTS:
        guest = aims.write_file(f"{counter.folder}/guest", aims.program_file(code))
        common = f"harts={harts},quantum={quantum},stack=4096,memory=4194304"
        few, many = (["run", guest, "--set", f"{common},budget={it}"] for it in (FEW, MANY))
        print(f"{name}: {counter.unit(few, many, BUDGET_SPENT):.1f} a step", flush=True)


def main(program: str) -> None:
    with tempfile.TemporaryDirectory() as folder:
        counter = Counter(program, folder)
        print(counter.way.name)
        count_steps(counter)
        count_accesses(counter)


if __name__ == "__main__":
    parser = argparse.ArgumentParser(
        description=__doc__, formatter_class=argparse.RawDescriptionHelpFormatter
    )
    parser.add_argument("program", nargs="?", default=aims.BUILT, metavar="PROGRAM")
    main(os.path.abspath(parser.parse_args().program))
