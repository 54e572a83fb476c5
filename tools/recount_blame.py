#!/usr/bin/env python3
"""Counts anew by which instructions the lines of a trace with pcs are taken.

Written from docs/RULES.md and the trace of docs/FORMATS.md alone: of each line the harts whose caches hold
it, and the latest access of each hart that came. It prints what `predator blame` prints, also where the trace
has no pcs."""

import argparse
import sys
from collections import Counter
from typing import Iterable, Iterator, NamedTuple

from judge_report import address_text
from traces import Access, read_accesses_with_pcs

# Accesses, each with its pc. Hart 0 writes a word, and then three harts add three times to a byte each, two
# of which lie in one word: when each hart makes one step at a time, and when it makes three.
BY_ONE = (
    "W0 11008 10004, R1 11004 1003c, W1 11004 10044, R2 11005 1003c, R1 11004 1003c, R0 11000 1003c, W2 11005 10044, "
    "W1 11004 10044, W0 11000 10044, R2 11005 1003c, R1 11004 1003c, R0 11000 1003c, W2 11005 10044, W1 11004 10044, "
    "W0 11000 10044, R2 11005 1003c, R0 11000 1003c, W2 11005 10044, W0 11000 10044"
)
BY_THREE = (
    "W0 11008 10004, R1 11004 1003c, W1 11004 10044, R1 11004 1003c, R0 11000 1003c, W1 11004 10044, R2 11005 1003c, "
    "W2 11005 10044, W0 11000 10044, R1 11004 1003c, R2 11005 1003c, R0 11000 1003c, W1 11004 10044, W2 11005 10044, "
    "W0 11000 10044, R2 11005 1003c, R0 11000 1003c, W0 11000 10044, W2 11005 10044"
)
# The rows of pairs and of harts, each a tuple of its numbers.
PAIRS = [(0x10044, 0x10044, 5, 2), (0x1003C, 0x10044, 3, 0), (0x10004, 0x10044, 1, 0)]
WORD = [(0x10044, 0x10044, 3, 3), (0x1003C, 0x10044, 2, 2)]
HARTS = [(0, 1, 1), (0, 2, 3), (1, 0, 2), (2, 0, 1), (2, 1, 2)]
# Accesses, size and shift, and by docs/RULES.md each line that is taken, with its pairs and harts.
WORKED = [
    (BY_ONE, (64, 0), [(0x11000, 9, PAIRS, HARTS)]),
    (BY_THREE, (64, 0), [(0x11000, 9, PAIRS, [(0, 1, 3), (0, 2, 1), (1, 2, 2), (2, 0, 3)])]),
    (BY_ONE, (4, 0), [(0x11004, 5, WORD, [(1, 2, 3), (2, 1, 2)])]),
    (BY_ONE, (128, 32), [(0x10FA0, 9, PAIRS, HARTS)]),
    ("", (64, 0), []),
    ("R1 1000 4, W0 1000 8", (64, 0), [(0x1000, 1, [(4, 8, 1, 1)], [(1, 0, 1)])]),
    # Of the two readers that lose the line the later one is the victim; the earlier one's last access is of
    # another line.
    (
        "R1 1000 4, R2 1004 8, R1 2000 c, W0 1000 10",
        (64, 0),
        [(0x1000, 1, [(8, 16, 1, 0)], [(2, 0, 1)])],
    ),
    # What the taker read itself since is no victim's; a line that is taken oftener comes first.
    (
        "W0 1000 4, R1 1000 8, W1 1004 c, W0 2000 4, W1 2000 c, W0 2004 4",
        (64, 0),
        [
            (0x2000, 2, [(4, 12, 1, 1), (12, 4, 1, 0)], [(0, 1, 1), (1, 0, 1)]),
            (0x1000, 1, [(4, 12, 1, 0)], [(0, 1, 1)]),
        ],
    ),
]


# Two instructions, how often the second takes a line from the first, and how often for the same word.
Pair = tuple[int, int, int, int]
# Two harts, and how often the second takes a line from the first.
Handover = tuple[int, int, int]
# A line that is taken: its address, how often, its pairs and its harts.
LineRow = tuple[int, int, list[Pair], list[Handover]]


class Line(NamedTuple):
    """A line: the harts whose caches hold it; the pc and the word of each hart's latest access, in the order
    of these; and its takings, by the pcs of victim and taker, those of one word among them, and by their
    harts."""

    holders: set[int]
    latest: dict[int, tuple[int, int]]
    pairs: Counter[tuple[int, int]]
    same: Counter[tuple[int, int]]
    harts: Counter[tuple[int, int]]

    def note(self, access: Access) -> None:
        assert access.pc is not None, "the trace has pcs"
        if access.writes:
            if self.holders - {access.hart}:
                victim = next(hart for hart in reversed(self.latest) if hart != access.hart)
                assert victim in self.holders, f"hart {victim} is taken from, and held nothing"
                pc, word = self.latest[victim]
                self.pairs[pc, access.pc] += 1
                self.same[pc, access.pc] += word == access.addr // 4
                self.harts[victim, access.hart] += 1
            self.holders.clear()
        self.holders.add(access.hart)
        self.latest.pop(access.hart, None)
        self.latest[access.hart] = access.pc, access.addr // 4

    def rows(self) -> tuple[int, list[Pair], list[Handover]]:
        """How many takings there are, and the pairs and the harts in the order of the text."""
        pairs = ((*both, count, self.same[both]) for both, count in self.pairs.items())
        harts = ((*both, count) for both, count in self.harts.items())
        return (
            sum(self.pairs.values()),
            sorted(pairs, key=lambda row: (-row[2], row[:2])),
            sorted(harts),
        )


def count_invalidations(
    accesses: Iterable[Access], size: int = 64, shift: int = 0
) -> tuple[int, list[LineRow]]:
    """How many accesses there are, and each line that is taken as (base, takings, pairs, harts), in the order
    of the text."""
    lines: dict[int, Line] = {}
    count = 0
    for access in accesses:
        count += 1
        base = (access.addr - shift) // size * size + shift
        line = lines.get(base)
        if line is None:
            line = lines[base] = Line(set(), {}, Counter(), Counter(), Counter())
        line.note(access)
    found = [(base, *it.rows()) for base, it in lines.items() if it.pairs]
    return count, sorted(found, key=lambda row: (-row[1], row[0]))


def blame_text(trace: bytes, size: int = 64, shift: int = 0) -> Iterator[str]:
    """The whole text, or what is said of a trace without pcs."""
    if trace[:8] in (b"PRDTRC01", b"PRDTRC02"):
        yield "predator: trace NoPcs"
        return
    count, lines = count_invalidations(read_accesses_with_pcs(trace), size, shift)
    yield "predator blame 1"
    yield f"accesses {count}"
    yield f"layout {size} {shift}"
    yield f"lines {len(lines)}"
    for base, taken, pairs, harts in lines:
        yield f"line {address_text(base)} takings {taken} pairs {len(pairs)} harts {len(harts)}"
        for victim, taker, number, same in pairs:
            yield f"pair {address_text(victim)} {address_text(taker)} taken {number} same {same}"
        for victim, taker, number in harts:
            yield f"from {victim} to {taker} taken {number}"
    yield f"total takings {sum(it[1] for it in lines)}"
    yield "end"


def parse_accesses(text: str) -> Iterator[Access]:
    """A worked list."""
    for touch in text.split(", ") if text else ():
        hart, addr, pc = touch.split()
        yield Access(int(hart[1:]), int(addr, 16), hart[0] == "W", int(pc, 16))


def try_worked() -> int:
    """How many of the worked lists give something else."""
    wrong = 0
    for text, layout, wanted in WORKED:
        _, found = count_invalidations(parse_accesses(text), *layout)
        if found != wanted:
            wrong += 1
            print(f"{text} in lines of {layout}: {found}, and {wanted} is wanted")
    print(f"{len(WORKED)} lists, {wrong} wrong")
    return wrong


def main() -> int:
    parser = argparse.ArgumentParser(
        description=__doc__, formatter_class=argparse.RawDescriptionHelpFormatter
    )
    choice = parser.add_mutually_exclusive_group(required=True)
    choice.add_argument("trace", nargs="?", metavar="TRACE")
    choice.add_argument("--try", action="store_true", dest="tries", help="try the worked lists")
    parser.add_argument("--size", type=int, default=64, metavar="N", help="(64)")
    parser.add_argument("--shift", type=int, default=0, metavar="N", help="(0)")
    call = parser.parse_args()
    if call.tries:
        return 1 if try_worked() else 0
    with open(call.trace, "rb") as file:
        sys.stdout.writelines(f"{it}\n" for it in blame_text(file.read(), call.size, call.shift))
    return 0


if __name__ == "__main__":
    sys.exit(main())
