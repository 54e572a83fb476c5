#!/usr/bin/env python3
"""Counts again, from a trace alone, what `predator allocators` says of the placement of blocks.

usage: tools/judge_allocators.py TRACE [--noted-by PREFIX] [--against FILE.json RUN]
       tools/judge_allocators.py --try                             the worked lists below, and what they are to give

Written from docs/ALLOCATORS.md and the trace of docs/FORMATS.md, with another parser and another method than
the table's: it keeps an owner for each byte. It prints the lines with blocks of two threads at once (active),
those where a place changed hands beside a live block (passive), the lines and pages that held blocks, the most
bytes of blocks that lived at once, and the number of blocks that were used. --against compares with a run of a
JSON file of `predator allocators`, by its name, and ends with 1 where they differ. --noted-by counts the blocks
whose first call site is in a function whose name begins so."""

import argparse
import json
import sys
from typing import Iterable, Iterator, NamedTuple

from traces import FUNCTION, Access, Alloc, Free, Record, Symbol, located_records

LINE, PAGE = 64, 4096
# Records as words, and the active and passive lines, lines, most bytes, and used blocks that they come to:
# `+A N` makes a block of N bytes, `-A` frees it, `0A` is an access by thread 0.
WORKED = [
    ("0f000 +1000 8 01000 +1010 8 11010", ([0x1000], [], 1, 16, 2)),
    ("0f000 +1000 8 01000 +1040 8 11040", ([], [], 2, 16, 2)),
    ("0f000 +1000 8 01000 -1000 +1000 8 11000", ([], [], 1, 8, 2)),
    # (the first thread's two blocks are each freed by another thread, which is given the place again)
    (
        "0f000 +1000 8 01000 +1010 8 01010 11000 -1000 +1000 8 11000 21010 -1010 +1010 8 21010",
        ([0x1000], [0x1000], 1, 16, 4),
    ),
    # (each is given its own place again, beside the other's)
    (
        "0f000 +1000 8 01000 +1010 8 11010 -1000 +1000 8 01000",
        ([0x1000], [], 1, 16, 3),
    ),
    # (freed by another thread, and given to the first one again, beside a block of a third)
    (
        "0f000 +1000 8 01000 +1010 8 21010 11000 -1000 +1000 8 01000",
        ([0x1000], [0x1000], 1, 16, 3),
    ),
    # (made before the recording, or used by nobody)
    ("+1000 8 01000 +1010 8 +1020 8 11020", ([], [], 1, 8, 1)),
]


class Life(NamedTuple):
    """A used block: its bytes, its first and last thread, and its life as numbers of records."""

    addr: int
    size: int
    owner: int
    last: int
    born: int
    died: int


class Count(NamedTuple):
    active: list[int]
    passive: list[int]
    lines: int
    pages: int
    live_bytes: int
    calls: int


def function_at(functions: Iterable[Symbol], addr: int, prefix: bytes) -> bool:
    return any(
        function.name.startswith(prefix) and function.addr <= addr < function.addr + function.size
        for function in functions
    )


class LifeReader:
    """The used blocks of some records. Of each byte the blocks that live on it are known, so an access finds its
    blocks by its bytes."""

    def __init__(self, prefix: bytes | None) -> None:
        self.prefix = prefix
        self.functions: list[Symbol] = []
        self.known_sites: dict[int, bool] = {}
        self.on_byte: dict[int, set[int]] = {}
        self.alive: dict[int, int] = {}
        # (address, size, first and last thread, and the records of birth and death)
        self.blocks: list[list[int]] = []
        self.has_begun = False

    def note_access(self, hart: int, addr: int, size: int) -> None:
        self.has_begun = True
        for block in set[int]().union(
            *(self.on_byte.get(it, ()) for it in range(addr, addr + size))
        ):
            own = self.blocks[block]
            own[2], own[3] = (hart if own[2] < 0 else own[2]), hart

    def end_life(self, addr: int, number: int) -> None:
        if addr in self.alive:
            block = self.alive.pop(addr)
            self.blocks[block][5] = number
            for byte in range(addr, addr + self.blocks[block][1]):
                self.on_byte[byte].remove(block)

    def is_noted(self, site: int) -> bool:
        """Whether a first call site is that of a block that counts."""
        if self.prefix is not None and site not in self.known_sites:
            self.known_sites[site] = function_at(self.functions, site, self.prefix)
        return self.prefix is None or self.known_sites[site]

    def begin_life(self, block: Alloc, number: int) -> None:
        if self.has_begun and block.size > 0 and self.is_noted(block.sites[0]):
            self.alive[block.addr] = len(self.blocks)
            for byte in range(block.addr, block.addr + block.size):
                self.on_byte.setdefault(byte, set()).add(len(self.blocks))
            self.blocks.append([block.addr, block.size, -1, -1, number, 1 << 62])


def read_lives(records: Iterable[tuple[Record, int]], prefix: bytes | None = None) -> list[Life]:
    """The used blocks, of records with the sizes of their accesses."""
    reader = LifeReader(prefix)
    for number, (record, size) in enumerate(records):
        if isinstance(record, Symbol):
            if record.kind == FUNCTION:
                reader.functions.append(record)
        elif isinstance(record, Access):
            reader.note_access(record.hart, record.addr, size)
        else:
            reader.end_life(record.addr, number)
            if isinstance(record, Alloc):
                reader.begin_life(record, number)
    return [Life(*it) for it in reader.blocks if it[2] >= 0]


def count_line(line: int, lives: list[Life]) -> tuple[bool, bool]:
    """Whether a line is active, and whether it is passive: each birth on it beside every other life."""
    is_active = is_passive = False
    for own in lives:
        live = [it for it in lives if it.born < own.born < it.died and it.owner != own.owner]
        if not live:
            continue
        is_active = True
        for byte in range(max(own.addr, line), min(own.addr + own.size, line + LINE)):
            before = [
                life
                for life in lives
                if life.born < own.born and life.addr <= byte < life.addr + life.size
            ]
            if before:
                last = max(before, key=lambda it: it.born)
                is_freed = last.died <= own.born
                is_passive |= is_freed and (last.owner != own.owner or last.last != own.owner)
    return is_active, is_passive


def count_placement(lives: list[Life]) -> Count:
    by_line: dict[int, list[Life]] = {}
    pages: set[int] = set()
    for life in lives:
        for line in range(life.addr // LINE * LINE, life.addr + life.size, LINE):
            by_line.setdefault(line, []).append(life)
        pages.update(range(life.addr // PAGE, (life.addr + life.size - 1) // PAGE + 1))
    judged = {line: count_line(line, own) for line, own in by_line.items()}
    changes = sorted(
        [(it.born, 1, it.size) for it in lives] + [(it.died, 0, -it.size) for it in lives]
    )
    live = most = 0
    for _, _, size in changes:
        live += size
        most = max(most, live)
    return Count(
        sorted(line for line, (active, _) in judged.items() if active),
        sorted(line for line, (_, passive) in judged.items() if passive),
        len(by_line),
        len(pages),
        most,
        len(lives),
    )


def worked_records(text: str) -> list[tuple[Record, int]]:
    """The records that a worked list spells, whose accesses have 4 bytes."""
    words, found, at = text.split(), list[Record](), 0
    while at < len(words):
        kind, addr = words[at][0], int(words[at][1:], 16)
        if kind == "+":
            found.append(Alloc(addr, int(words[at + 1]), (0, 0, 0, 0)))
            at += 1
        else:
            found.append(Free(addr) if kind == "-" else Access(int(kind), addr, True, None))
        at += 1
    return [(it, 4) for it in found]


def try_worked() -> int:
    """How many of the worked lists give something else."""
    wrong = 0
    for text, wanted in WORKED:
        own = count_placement(read_lives(worked_records(text)))
        found = own.active, own.passive, own.lines, own.live_bytes, own.calls
        if found != wanted:
            wrong += 1
            print(f"{text}: {found}, and {wanted} is wanted")
    print(f"{len(WORKED)} lists, {wrong} wrong")
    return wrong


def sized_records(trace: bytes) -> Iterator[tuple[Record, int]]:
    """The records of a trace, each with the size that an access has: in its tag, or in version 1 at its end."""
    for start, end, record in located_records(trace):
        yield record, trace[end - 1] if trace[start] in (1, 2) else trace[start] & 15


def read_trace(path: str, prefix: str | None) -> Count:
    with open(path, "rb") as file:
        records = sized_records(file.read())
    return count_placement(read_lives(records, prefix.encode() if prefix is not None else None))


def compare(own: Count, path: str, run: str) -> int:
    """How many numbers of a run in a file of JSON are others."""
    with open(path, encoding="utf-8") as file:
        runs = json.load(file)["runs"]
    rows = {it["run"]: it for own in runs for it in (own, *own.get("by_seed", ()))}
    if run not in rows:
        print(f"{path} has no run {run}")
        return 1
    found = {
        "active": len(own.active),
        "passive": len(own.passive),
        "lines": own.lines,
        "pages": own.pages,
        "live_bytes": own.live_bytes,
        "calls": own.calls,
    }
    wrong = [name for name, count in found.items() if rows[run][name] != count]
    for name in wrong:
        print(f"{run}: {name} {rows[run][name]}, and the trace has {found[name]}")
    return len(wrong)


def main() -> int:
    parser = argparse.ArgumentParser(description="counts the placement of a trace's blocks again")
    parser.add_argument("trace", nargs="?")
    parser.add_argument("--noted-by", metavar="PREFIX")
    parser.add_argument("--against", nargs=2, metavar=("FILE", "RUN"))
    parser.add_argument("--try", action="store_true", dest="is_try")
    options = parser.parse_args()
    if options.is_try:
        return 1 if try_worked() else 0
    if options.trace is None:
        parser.error("a trace is required")
    own = read_trace(options.trace, options.noted_by)
    if options.against:
        return 1 if compare(own, *options.against) else 0
    for name, value in own._asdict().items():
        print(f"{name} {len(value) if isinstance(value, list) else value}")
    return 0


if __name__ == "__main__":
    sys.exit(main())
