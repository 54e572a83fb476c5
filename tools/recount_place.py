#!/usr/bin/env python3
"""Places the words of an object of a trace anew, and counts what that comes to.

Written from docs/RULES.md and the trace of docs/FORMATS.md alone, over whole lists: the harts that touch each
word, the groups one behind the other, and the list with its accesses moved, counted by plain caches. It
prints what `predator place` prints, also where it refuses."""

import argparse
import re
import sys
from typing import Iterable, Mapping, Sequence

from judge_report import address_text, printable_name
from traces import OBJECT, Alloc, Free, Symbol, Touch, read_records

# The address and size of an object, accesses, the size of a line, and by docs/RULES.md the places of its
# words, the area and the three sums.
WORKED = [
    ((0x1000, 8), "W0 1000, W1 1004, W0 1000", 64, [0x1040, 0x1080], (0x1040, 128), (2, 0, 0)),
    ((0x1000, 4), "W0 1000, W1 1000", 64, [0x1040], (0x1040, 64), (1, 1, 1)),
    (
        (0x1000, 12),
        "W0 1000, W1 1004, W0 1000, W1 1008, W0 1008",
        8,
        [0x1010, 0x1018, 0x1020],
        (0x1010, 24),
        (3, 1, 1),
    ),
    (
        (0x1004, 8),
        "R1 1004, R0 1008, W0 1004, W1 1008, W0 1004, W1 1008",
        8,
        [0x1010, 0x1014],
        (0x1010, 8),
        (0, 3, 3),
    ),
]


def find_object(name: bytes, items: Iterable[object]) -> tuple[int, int] | None:
    """The address and the size of the object that a name means."""
    for item in items:
        if isinstance(item, Symbol) and item.kind == OBJECT and item.name == name:
            return item.addr, item.size
    blocks = []
    if re.fullmatch(rb"0x[0-9a-fA-F]{1,8}", name):
        blocks = [it[:2] for it in items if isinstance(it, Alloc) and it.addr == int(name, 16)]
    return blocks[0] if len(blocks) == 1 and blocks[0][1] else None


def count_lines(accesses: Iterable[Touch], size: int) -> dict[int, int]:
    """Of each line that is written its count since its first write, by where the line begins."""
    holders: dict[int, set[int]] = {}
    found: dict[int, int] = {}
    for hart, addr, is_write in accesses:
        base = addr // size * size
        held = holders.setdefault(base, set())
        if is_write:
            found[base] = found[base] + bool(held - {hart}) if base in found else 0
            held.clear()
        held.add(hart)
    return found


def place_words(
    accesses: Iterable[Touch], begin: int, length: int, size: int
) -> tuple[dict[int, set[int]], dict[int, int], tuple[int, int], range]:
    """Who touches each word of the object, and the place of each; with them the area and the lines of the
    words of many harts."""
    words = range(begin // 4 * 4, min(begin + length, 2**32), 4)
    touched: dict[int, set[int]] = {}
    for hart, addr, _ in accesses:
        touched.setdefault(addr // 4 * 4, set()).add(hart)
    start = at = -(-max((word + 4 for word in touched), default=0) // size) * size
    many = range(0)
    places: dict[int, int] = {}
    groups: dict[int, list[int]] = {}
    for word in words:
        harts = touched.get(word, set())
        group = 257 if not harts else 256 if len(harts) > 1 else min(harts)
        groups.setdefault(group, []).append(word)
    for group in sorted(groups):
        places.update((word, at + 4 * i) for i, word in enumerate(groups[group]))
        end = at + -(-4 * len(groups[group]) // size) * size
        many, at = range(at, end) if group == 256 else many, end
    return touched, dict(sorted(places.items())), (start, at - start), many


def sum_counts(
    accesses: Sequence[Touch], places: Mapping[int, int], many: range, size: int
) -> tuple[int, int, int]:
    """What the list counts, what the moved one does, and the part of that on the lines of the words of many
    harts."""
    moved = [
        (hart, places.get(addr // 4 * 4, addr // 4 * 4) + addr % 4, is_write)
        for hart, addr, is_write in accesses
    ]
    after = count_lines(moved, size)
    return (
        sum(count_lines(accesses, size).values()),
        sum(after.values()),
        sum(it for base, it in after.items() if base in many),
    )


def place_text(trace: bytes, name: bytes, size: int) -> list[str]:
    """The whole text, or why there is none."""
    items = list(read_records(trace))
    accesses = [it for it in items if not isinstance(it, (Symbol, Alloc, Free))]
    found = find_object(name, items)
    if not found or found[1] > 2**24:
        return [f"predator: place {'TooLarge' if found else 'NoObject'}"]
    touched, places, area, many = place_words(accesses, *found, size)
    if sum(area) > 2**32:
        return ["predator: place NoRoom"]
    owners = {
        word: "many" if len(harts) > 1 else f"hart {min(harts)}" for word, harts in touched.items()
    }
    before, after, rest = sum_counts(accesses, places, many, size)
    return [
        f"place {printable_name(name)} {address_text(found[0])} {found[1]} line {size}",
        f"words {len(places)}",
        *(
            f"word {address_text(word)} to {address_text(to)} {owners[word]}"
            for word, to in places.items()
            if word in owners
        ),
        f"area {address_text(area[0])} {area[1]}",
        *(f"before {before}", f"after {after}", f"many {rest}", "end"),
    ]


def try_worked() -> int:
    """How many of the worked lists give something else."""
    wrong = 0
    for (begin, length), text, size, *wanted in WORKED:
        accesses = [(int(it[1]), int(it.split()[1], 16), it[0] == "W") for it in text.split(", ")]
        _, places, area, many = place_words(accesses, begin, length, size)
        given = [list(places.values()), area, sum_counts(accesses, places, many, size)]
        if given != wanted:
            wrong += 1
            print(f"{text} in lines of {size}: {given}, and {wanted} is wanted")
    print(f"{len(WORKED)} lists, {wrong} wrong")
    return wrong


def main() -> int:
    parser = argparse.ArgumentParser(
        description=__doc__, formatter_class=argparse.RawDescriptionHelpFormatter
    )
    parser.add_argument("--try", action="store_true", dest="tries", help="try the worked lists")
    parser.add_argument("trace", nargs="?", metavar="TRACE")
    parser.add_argument("name", nargs="?", metavar="NAME", help="the object's")
    parser.add_argument("--size", type=int, default=64, metavar="N", help="(64)")
    call = parser.parse_args()
    if call.tries:
        return 1 if try_worked() else 0
    if call.name is None:
        parser.error("TRACE and NAME, or --try")
    with open(call.trace, "rb") as file:
        sys.stdout.writelines(
            f"{line}\n" for line in place_text(file.read(), call.name.encode(), call.size)
        )
    return 0


if __name__ == "__main__":
    sys.exit(main())
