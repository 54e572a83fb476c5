#!/usr/bin/env python3
"""Counts the misses of a trace anew, those that bring something new and those that don't.

Written from docs/RULES.md and the trace of docs/FORMATS.md alone, over whole lists: of each line the harts
whose caches hold it, and beside them, for each hart's copy of a line, the position at which it was loaded. It
prints what `predator misses` prints."""

import argparse
import sys
from bisect import bisect_left, bisect_right
from typing import Iterable, Iterator, TypeVar

from judge_report import Line, address_text, object_rows, site_names, object_table
from traces import Alloc, Free, Symbol, Touch, read_records

# A record that is no access, after so many accesses.
Placed = tuple[int, Alloc | Free | Symbol]
Own = TypeVar("Own")
# Accesses, words of the call, and for each line its base with its cold, useful and useless misses, by what
# docs/RULES.md says.
WORKED = [
    ("W0 1000, W1 1004, W0 1000, W1 1004", 64, {0x1000: (2, 0, 2)}),
    ("W0 1000, R1 1000, W0 1000, R1 1000", 64, {0x1000: (2, 1, 0)}),
    (
        "W0 1000, R1 1000, R2 1004, R3 1008, W0 1000, R1 1000, R2 1004, R3 1008",
        64,
        {0x1000: (4, 1, 2)},
    ),
    ("W0 1000, W1 1004, W0 1000, W1 1004", 4, {0x1000: (1, 0, 0), 0x1004: (1, 0, 0)}),
    ("W0 1000, R1 1004, W0 1000, R1 1004, R1 1000", 64, {0x1000: (2, 1, 0)}),
]


def count_misses(
    accesses: Iterable[Touch], size: int = 64, shift: int = 0
) -> dict[int, tuple[int, ...]]:
    """Of each line its cold, useful and useless misses, in the order of the first accesses."""
    holders: dict[int, set[int]] = {}
    came: set[tuple[int, int]] = set()
    loaded: dict[tuple[int, int], int] = {}
    written: dict[int, dict[int, int]] = {}
    counts: dict[int, list[int]] = {}
    for position, (hart, addr, is_write) in enumerate(accesses):
        line, word = (addr - shift) // size, addr // 4
        own = (hart, line)
        held = holders.setdefault(line, set())
        is_cold, is_miss = own not in came, hart not in held
        is_needed = own not in loaded
        if not is_needed and word in written:
            since = loaded[own]
            is_needed = any([it != hart and at > since for it, at in written[word].items()])
        if is_needed:
            loaded[own] = position
        if is_write:
            written.setdefault(word, {})[hart] = position
            held.clear()
        held.add(hart)
        if is_miss or is_needed:
            came.add(own)
            row = counts.setdefault(line * size + shift, [0, 0, 0])
            for at, more in enumerate((is_cold, is_needed - is_cold, is_miss - is_needed)):
                row[at] += more
    return {base: tuple(row) for base, row in counts.items()}


def split_accesses(trace: bytes, others: list[Placed]) -> Iterator[Touch]:
    """The accesses of a trace, while the other records are put to the others, each behind so many
    accesses."""
    count = 0
    for record in read_records(trace):
        if isinstance(record, (Symbol, Alloc, Free)):
            others.append((count, record))
        else:
            count += 1
            yield record
    others.append((count, Free(0)))


def objects_by_line(
    objects: Iterable[tuple[Symbol | Alloc, Own]], bases: list[int], size: int
) -> dict[int, list[Own]]:
    """Of each line those objects that meet it, each given with its record, in their order; the bases rise."""
    found: dict[int, list[Own]] = {base: [] for base in bases}
    for record, own in objects:
        for at in range(
            bisect_right(bases, record.addr - size), bisect_left(bases, record.addr + record.size)
        ):
            found[bases[at]].append(own)
    return found


def misses_text(trace: bytes, size: int, shift: int) -> Iterator[str]:
    """The whole text."""
    others: list[Placed] = []
    counts = count_misses(split_accesses(trace, others), size, shift)
    end, _ = others.pop()
    rows = sorted(((-row[2], -row[1], base) for base, row in counts.items() if row[1] or row[2]))
    bases = sorted(base for _, _, base in rows)
    symbols, blocks = object_table(others)
    name_of = site_names(symbols)
    symbols_of = objects_by_line([(it, it) for it in symbols], bases, size)
    blocks_of = objects_by_line([(it[0], it) for it in blocks], bases, size)
    yield f"misses {size} {shift}"
    yield f"accesses {end}"
    yield f"lines {len(rows)}"
    for useless, useful, base in rows:
        yield f"line {address_text(base)} cold {counts[base][0]} useful {-useful} useless {-useless}"
        yield from object_rows(
            Line(0, base, size, 0), symbols_of[base], blocks_of[base], end, name_of
        )
    yield "total cold {} useful {} useless {}".format(
        *(sum(row[at] for row in counts.values()) for at in range(3))
    )
    yield "end"


def try_worked() -> int:
    """How many of the worked lists give something else."""
    wrong = 0
    for text, size, wanted in WORKED:
        accesses = [(int(it[1]), int(it.split()[1], 16), it[0] == "W") for it in text.split(", ")]
        if count_misses(accesses, size) != wanted:
            wrong += 1
            print(
                f"{text} in lines of {size}: {count_misses(accesses, size)}, and {wanted} is wanted"
            )
    print(f"{len(WORKED)} lists, {wrong} wrong")
    return wrong


def main() -> int:
    parser = argparse.ArgumentParser(
        description=__doc__, formatter_class=argparse.RawDescriptionHelpFormatter
    )
    choice = parser.add_mutually_exclusive_group(required=True)
    choice.add_argument("trace", nargs="?", metavar="TRACE")
    choice.add_argument("--try", action="store_true", dest="tries", help="try the worked lists")
    parser.add_argument("--size", type=int, default=64, metavar="N", help="(64)")
    parser.add_argument("--shift", type=int, default=0, metavar="N", help="(0)")
    call = parser.parse_args()
    if call.tries:
        return 1 if try_worked() else 0
    with open(call.trace, "rb") as file:
        sys.stdout.writelines(f"{it}\n" for it in misses_text(file.read(), call.size, call.shift))
    return 0


if __name__ == "__main__":
    sys.exit(main())
