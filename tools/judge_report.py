#!/usr/bin/env python3
"""Says what the report of a replay is by its rules alone, as docs/RULES.md and docs/FORMATS.md define them, and
stands on nothing of the program. It goes over whole lists: caches are sets of harts, starts and openings
least positions, and nothing is kept of a line.

It makes COUNT small traces, each with its settings and words, by the random numbers that follow from SEED
(1); replays each by PROGRAM, and reports where it prints another report. It ends with 1 where it found one.
"""
import argparse
import random
import struct
import subprocess
import sys
import tempfile
from functools import cache
from typing import Any, Callable, Iterable, Iterator, Mapping, NamedTuple, Sequence

from traces import FUNCTION, OBJECT, Alloc, Free, Symbol

KINDS = ("observed", "shifted", "doubled")
CAUSES = (
    "illegal",
    "breakpoint",
    "fetch-misaligned",
    "fetch-outside",
    "load-misaligned",
    "load-outside",
    "store-misaligned",
    "store-outside",
)


class Access(NamedTuple):
    hart: int
    writes: bool
    addr: int
    size: int


class Line(NamedTuple):
    """A tracked line: the rank of its kind, its range and its start."""

    kind: int
    base: int
    size: int
    start: int


class Ending(NamedTuple):
    """What the report says of the end, the steps, and the end record's outcome, cause, hart and value."""

    text: str
    steps: int
    fields: tuple[int, int, int, int]


class Case(NamedTuple):
    accesses: list[Access]
    # (pairs of a number of accesses and the record that comes after so many)
    records: list[tuple[int, Alloc | Free | Symbol]]
    ending: Ending
    harts: int
    tracking: int
    prediction: int
    report: int
    native: int
    # (size and offset, or none where no layout is named)
    layout: tuple[int, int] | None


def count_invalidations(accesses: Sequence[Access], base: int, size: int, start: int) -> int:
    """The writes after the start that found another hart holding the line."""
    holders: set[int] = set()
    count = 0
    for position, access in enumerate(accesses):
        if base <= access.addr < base + size:
            if access.writes:
                count += position > start and bool(holders - {access.hart})
                holders = set()
            holders.add(access.hart)
    return count


# A block, when it was allocated, and when it was freed or replaced, each as a number of accesses.
BlockLife = list[Any]


class Word:
    def __init__(self) -> None:
        self.reads = self.writes = 0
        self.harts: set[int] = set()

    def total(self) -> int:
        return self.reads + self.writes


def word_uses(accesses: Sequence[Access], base: int, size: int, start: int) -> dict[int, Word]:
    """The words of a range with an access from the start on, by address."""
    words: dict[int, Word] = {}
    for touch in accesses[start:]:
        if base <= touch.addr < base + size:
            word = words.setdefault(touch.addr // 4 * 4, Word())
            word.reads += not touch.writes
            word.writes += touch.writes
            word.harts.add(touch.hart)
    return dict(sorted(words.items()))


def hot_pairs(
    accesses: Sequence[Access], line: int, size: int, starts: Mapping[int, int]
) -> list[tuple[int, int]]:
    """The hot pairs of a line and the next, the best one first."""
    hot = []
    for base in (line, line + size):
        words = word_uses(accesses, base, size, starts[base])
        total = sum(it.total() for it in words.values())
        hot.append({at: it for at, it in words.items() if size // 4 * it.total() >= total})
    found = []
    for x, low in hot[0].items():
        for y, high in hot[1].items():
            if low.writes + high.writes > 0 and len(low.harts | high.harts) > 1:
                found.append((-min(low.total(), high.total()), x, y))
    return [(x, y) for _, x, y in sorted(found)]


def openings(
    accesses: Sequence[Access],
    line: int,
    size: int,
    starts: Mapping[int, int],
    writes: Mapping[int, list[int]],
    prediction: int,
) -> list[tuple[int, int, int, int]]:
    """What a line and the next open: kind, base and size of each line, and the position of its opening."""
    at = [
        own[k - 1]
        for own in (writes[line], writes[line + size])
        for k in range(prediction, len(own) + 1, prediction)
    ]
    shifted = doubled = None
    for position in sorted(it for it in at if it >= max(starts[line], starts[line + size])):
        pairs = hot_pairs(accesses[: position + 1], line, size, starts)
        near = [(x, y) for x, y in pairs if y + 4 - x <= size]
        if near and shifted is None:
            x, y = near[0]
            shifted = 1, x - 4 * ((size - (y + 4 - x)) // 8), size, position
        if pairs and doubled is None and line % (2 * size) == 0:
            doubled = 2, line, 2 * size, position
    return [it for it in (shifted, doubled) if it]


def tracked_lines(case: Case, size: int, offset: int) -> list[Line]:
    """The observed lines, and the predicted ones that have a start."""
    writes: dict[int, list[int]] = {}
    for position, access in enumerate(case.accesses):
        if access.writes:
            writes.setdefault((access.addr - offset) // size * size + offset, []).append(position)
    starts = {
        base: own[case.tracking - 1] for base, own in writes.items() if len(own) >= case.tracking
    }
    found = [Line(0, base, size, start) for base, start in starts.items()]
    for line in starts if case.layout is None else ():
        if line + size in starts:
            for kind, base, wide, opening in openings(
                case.accesses, line, size, starts, writes, case.prediction
            ):
                for position, access in enumerate(case.accesses):
                    if position > opening and access.writes and base <= access.addr < base + wide:
                        found.append(Line(kind, base, wide, position))
                        break
    return found


def address_text(number: int) -> str:
    return f"{'-' if number < 0 else ''}0x{abs(number):08x}"


def printable_name(name: bytes) -> str:
    return (
        "".join(chr(it) if 0x21 <= it <= 0x7E and it != 0x5C else f"\\x{it:02x}" for it in name)
        or "?"
    )


def object_table(
    records: Iterable[tuple[int, Alloc | Free | Symbol]]
) -> tuple[list[Symbol], list[BlockLife]]:
    """The symbols, without those whose kind, address and size an earlier one has, and the blocks, each with
    its life."""
    symbols: dict[tuple[int, int, int], Symbol] = {}
    blocks: list[BlockLife] = []
    live: dict[int, BlockLife] = {}
    for position, record in records:
        if isinstance(record, Symbol):
            symbols.setdefault(record[:3], record)
            continue
        if record.addr in live:
            live.pop(record.addr)[2] = position
        if isinstance(record, Alloc):
            live[record.addr] = [record, position, None]
            blocks.append(live[record.addr])
    return list(symbols.values()), blocks


def site_names(symbols: Iterable[Symbol]) -> Callable[[int], str]:
    """Of an address the first function that holds it."""
    functions = [it for it in symbols if it.kind == FUNCTION]
    return cache(
        lambda site: next(
            (printable_name(it.name) for it in functions if it.addr <= site < it.addr + it.size),
            "-",
        )
    )


def object_rows(
    line: Line,
    symbols: Iterable[Symbol],
    blocks: Iterable[BlockLife],
    end: int,
    name_of: Callable[[int], str],
) -> Iterator[str]:
    """The objects that stand on a line, as a report lists them."""
    for entry in symbols:
        if (
            entry.kind == OBJECT
            and entry.addr < line.base + line.size
            and line.base < entry.addr + entry.size
        ):
            yield (
                "object symbol"
                f" {printable_name(entry.name)} {address_text(entry.addr)} {entry.size}"
            )
    for owner, born, died in blocks:
        meets = (
            owner.size > 0
            and owner.addr < line.base + line.size
            and line.base < owner.addr + owner.size
        )
        if meets and max(born, line.start) < (end if died is None else min(died, end)):
            yield (
                f"object block {address_text(owner.addr)} {owner.size} born"
                f" {born} {'live' if died is None else f'died {died}'}"
            )
            yield from (
                f"site {address_text(site)} {name_of(site)}" for site in owner.sites if site
            )


def verdict(words: Mapping[int, Word]) -> str:
    shared = [it.writes > 0 and len(it.harts) > 1 for it in words.values() if it.writes]
    return "false" if not any(shared) else "true" if all(shared) else "mixed"


def report_text(case: Case) -> Iterator[str]:
    """The whole text."""
    size, offset = case.layout or (case.native, 0)
    rows = sorted(
        (-count_invalidations(case.accesses, *own[1:]), own)
        for own in tracked_lines(case, size, offset)
    )
    rows = [(-count, it) for count, it in rows if -count >= case.report]
    yield "predator report 1"
    yield f"outcome {case.ending.text}"
    yield f"steps {case.ending.steps}"
    yield f"accesses {len(case.accesses)}"
    yield f"layout {size} {offset}"
    yield f"thresholds {case.tracking} {'none' if case.layout else case.prediction} {case.report}"
    yield f"lines {len(rows)}"
    symbols, blocks = object_table(case.records)
    name_of = site_names(symbols)
    for count, row in rows:
        words = word_uses(case.accesses, *row[1:])
        yield (
            f"line {KINDS[row.kind]} {address_text(row.base)} {row.size} start {row.start} count"
            f" {count} verdict {verdict(words)}"
        )
        yield from object_rows(row, symbols, blocks, len(case.accesses), name_of)
        for at, word in words.items():
            owner = "many" if len(word.harts) > 1 else f"hart {min(word.harts)}"
            yield f"word {address_text(at)} reads {word.reads} writes {word.writes} {owner}"
    yield "end"


def record_bytes(record: Alloc | Free | Symbol) -> bytes:
    if isinstance(record, Symbol):
        return struct.pack("<BBIIH", 5, *record[:3], len(record.name)) + record.name
    if isinstance(record, Alloc):
        return struct.pack("<BII4I", 3, record.addr, record.size, *record.sites)
    return struct.pack("<BI", 4, record.addr)


def trace_bytes(case: Case) -> bytes:
    parts, left = [struct.pack("<8sQHH", b"PRDTRC01", 0, case.harts, 0)], list(case.records)
    for position in range(len(case.accesses) + 1):
        while left and left[0][0] == position:
            parts.append(record_bytes(left.pop(0)[1]))
        for access in case.accesses[position : position + 1]:
            parts.append(
                struct.pack("<BHIB", 1 + access.writes, access.hart, access.addr, access.size)
            )
    parts.append(
        struct.pack("<BBBHIQQ", 6, *case.ending.fields, case.ending.steps, len(case.accesses))
    )
    return b"".join(parts)


def random_accesses(
    dice: random.Random, harts: int, base: int, span: int, native: int
) -> Iterator[Access]:
    """Accesses to a few words of a few lines, those at the lines' edges among them; most words may have a
    hart of their own."""
    hot = [4 * dice.randrange(span // 4) for _ in range(dice.choice((1, 2, 3, 4, 6, 12)))]
    hot += [
        at for edge in range(native, span, native) for at in (edge - 4, edge) if dice.random() < 0.7
    ]
    own, keeps, share = (
        {at: dice.randrange(harts) for at in hot},
        dice.random() < 0.5,
        dice.choice((0.2, 0.5, 0.8, 1)),
    )
    for _ in range(dice.choice((0, 1, 5, 20, 60, 120, 250))):
        at, size = (
            dice.choice(hot) if dice.random() < 0.9 else 4 * dice.randrange(span // 4)
        ), dice.choice((1, 2, 4, 4))
        hart = own[at] if at in own and keeps and dice.random() < 0.9 else dice.randrange(harts)
        yield Access(hart, dice.random() < share, base + at + dice.randrange(0, 4, size), size)


def random_record(dice: random.Random, base: int, span: int) -> Alloc | Free | Symbol:
    block = (base + 16 * dice.randrange(max(1, span // 16))) % 2**32
    which = dice.random()
    if which < 0.4:
        at = (
            dice.choice(
                (block, base, base + dice.randrange(-8, span + 8), 0x100 + 4 * dice.randrange(8))
            )
            % 2**32
        )
        name = dice.choice(
            (
                b"",
                b"worker",
                b"two words\\",
                bytes(dice.randrange(1, 256) for _ in range(dice.randrange(6))),
            )
        )
        return Symbol(
            dice.choice((OBJECT, OBJECT, FUNCTION)),
            at,
            dice.choice((1, 4, 16, 64, 200, 2**32 - 1)),
            name,
        )
    if which < 0.75:
        sites = tuple(dice.choice((0, 0, 0x100, 0x104, 0x110, 0x9000)) for _ in range(4))
        return Alloc(block, dice.choice((0, 1, 8, 24, 64, 100, 2**32 - 1)), sites)
    return Free(block)


def random_ending(dice: random.Random, harts: int) -> Ending:
    steps, code, hart = dice.randrange(2**40), dice.randrange(2**32), dice.randrange(harts)
    pc, cause = 4 * dice.randrange(2**30), dice.randrange(8)
    trap = Ending(
        f"trap hart {hart} pc {address_text(pc)} {CAUSES[cause]}", steps, (3, cause + 1, hart, pc)
    )
    exits = Ending(f"exit {code}", steps, (0, 0, 0, code))
    return dice.choice(
        (
            exits,
            Ending("budget", steps, (1, 0, 0, 0)),
            Ending("deadlock", steps, (2, 0, 0, 0)),
            trap,
            Ending("part", 0, (4, 0, 0, 0)),
        )
    )


def random_case(dice: random.Random) -> Case:
    harts, native, lines = (
        dice.choice((1, 2, 2, 3, 4, 8, 256)),
        dice.choice((64, 64, 64, 32, 128, 256)),
        dice.choice((2, 2, 3, 4, 6)),
    )
    last = 2**32 - native * lines
    base = dice.choice((0, 0x1000, 0x1000, 0x1000 + native, 0x7FFFFF80, last, last + native // 2))
    span = min(native * lines, 2**32 - base)
    accesses = list(random_accesses(dice, harts, base, span, native))
    places = sorted(dice.randrange(len(accesses) + 1) for _ in range(dice.choice((0, 0, 2, 6, 15))))
    records = [(place, random_record(dice, base, span)) for place in places]
    tracking = dice.choice((1, 1, 2, 3, 5, 16))
    prediction = tracking + dice.choice((0, 0, 0, 1, 3, tracking, 48))
    size = dice.choice((4, 8, 16, 32, 64, 128, 256, 512, 1024))
    layout = (size, dice.randrange(0, size, 4)) if dice.random() < 0.3 else None
    return Case(
        accesses,
        records,
        random_ending(dice, harts),
        harts,
        tracking,
        prediction,
        dice.choice((1, 1, 2, 3, 10)),
        native,
        layout,
    )


def main() -> bool:
    parser = argparse.ArgumentParser(
        description=__doc__, formatter_class=argparse.RawDescriptionHelpFormatter
    )
    parser.add_argument("program", metavar="PROGRAM")
    parser.add_argument(
        "count", nargs="?", type=int, default=1000, metavar="COUNT", help="how many traces (1000)"
    )
    parser.add_argument("seed", nargs="?", type=int, default=1, metavar="SEED")
    call = parser.parse_args()
    program, count, seed = str(call.program), int(call.count), int(call.seed)
    dice, wrong = random.Random(seed), 0
    with tempfile.TemporaryDirectory() as folder:
        for number in range(count):
            case = random_case(dice)
            with open(f"{folder}/trace", "wb") as file:
                file.write(trace_bytes(case))
            with open(f"{folder}/settings", "w", encoding="utf-8") as file:
                file.write(
                    f"tracking = {case.tracking}\nprediction = {case.prediction}\nreport ="
                    f" {case.report}\nline = {case.native}\n"
                )
            words = (
                ["--size", str(case.layout[0]), "--shift", str(case.layout[1])]
                if case.layout
                else []
            )
            words = [
                program,
                "replay",
                f"{folder}/trace",
                "--settings",
                f"{folder}/settings",
                *words,
            ]
            said = subprocess.run(words, capture_output=True, encoding="latin-1").stdout
            if said != "".join(f"{it}\n" for it in report_text(case)):
                wrong += 1
                print(f"trace {number} of seed {seed}: the program prints another report")
    print(f"{count} tried, {wrong} wrong")
    return wrong > 0


if __name__ == "__main__":
    sys.exit(main())
