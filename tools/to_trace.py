#!/usr/bin/env python3
"""Makes a trace that `predator replay` reads of lines of text, as other tracers print them after a line of
awk.

Each line is `HART KIND ADDRESS SIZE`, in the order in which the accesses were made: HART is any word that
names a thread, KIND is `R` or `W`, ADDRESS is hexadecimal, with `0x` or without, and SIZE is in bytes. LINES
may be `-`, for standard input.

Threads become harts 0, 1, 2, .. in the order in which they come, at most 256. Pages of 4096 bytes of a 64-bit
address space become pages of 32 bits: those that lie side by side stay so, and at least one page is left out
between any others, so that no two lines become neighbours that weren't. --table FILE writes which page became
which, and to_trace.py --back FILE ADDRESS .. says what addresses of a report were.

An access of 1, 2 or 4 bytes that is a multiple of its size is taken as it is. Any other is refused with its
line, or, with --split, taken apart into such accesses from its lowest byte on."""

import argparse
import struct
import sys
from typing import Iterable, Iterator, NoReturn

PAGE = 4096
MOST = 2**40
# The hart, tag, address and size of an access.
TaggedAccess = tuple[int, int, int, int]


def fail(why: str) -> NoReturn:
    sys.exit(f"to_trace.py: {why}")


def split_access(addr: int, size: int) -> Iterator[tuple[int, int]]:
    """The aligned accesses of 4, 2 or 1 bytes that an access is made of."""
    while size > 0:
        piece = 4 if addr % 4 == 0 and size >= 4 else 2 if addr % 2 == 0 and size >= 2 else 1
        yield addr, piece
        addr, size = addr + piece, size - piece


def read_accesses(lines: Iterable[str], splits: bool) -> tuple[list[TaggedAccess], int]:
    """The hart, tag, address and size of each access, and how many harts there are."""
    found: list[TaggedAccess] = []
    harts: dict[str, int] = {}
    for number, line in enumerate(lines, 1):
        words = line.split()
        if not words:
            continue
        try:
            hart, kind, *numbers = words
            tag, addr, size = {"R": 1, "W": 2}[kind], int(numbers[0], 16), int(numbers[1])
            if len(words) != 4:
                raise ValueError
        except (ValueError, KeyError, IndexError):
            fail(f"line {number} is no `HART KIND ADDRESS SIZE`: {line.strip()}")
        if not 0 <= addr < addr + size <= 2**64:
            fail(f"line {number} lies outside 64 bits, or has no bytes: {line.strip()}")
        if not splits and (size not in (1, 2, 4) or addr % size != 0):
            fail(
                f"line {number} isn't 1, 2 or 4 bytes at a multiple of them (--split takes it apart): {line.strip()}"
            )
        number_of = harts.setdefault(hart, len(harts))
        found += [(number_of, tag, at, piece) for at, piece in split_access(addr, size)]
    if len(harts) > 256:
        fail(f"{len(harts)} threads, and a trace has at most 256 harts")
    return found, max(len(harts), 1)


def page_table(found: list[TaggedAccess]) -> dict[int, int]:
    """Which page of 32 bits each page becomes. The first is page 16, at 0x10000."""
    table: dict[int, int] = {}
    free, last = 15, None
    for page in sorted({addr // PAGE for _, _, addr, _ in found}):
        free += 1 if last == page - 1 else 2 if last is not None else 1
        table[page], last = free, page
    if free >= 2**20:
        fail("more pages than 32 bits have")
    return table


def write_trace(found: list[TaggedAccess], harts: int, table: dict[int, int], path: str) -> None:
    if len(found) > MOST:
        fail(f"{len(found)} accesses, and a trace has at most {MOST}")
    with open(path, "wb") as out:
        out.write(struct.pack("<8sQHH", b"PRDTRC01", 0, harts, 0))
        for hart, tag, addr, size in found:
            out.write(
                struct.pack("<BHIB", tag, hart, table[addr // PAGE] * PAGE + addr % PAGE, size)
            )
        # exit 0; nobody counted the steps
        out.write(struct.pack("<B8xQQ", 6, 0, len(found)))


def translate_back(path: str, words: list[str]) -> None:
    pages: dict[int, int] = {}
    code: dict[int, int] = {}
    with open(path, errors="surrogateescape") as file:
        # (of a program of this machine other lines say more, and some name instructions: docs/FORMATS.md)
        for line in file:
            if line.startswith("0x"):
                place, former = line.split()
                pages[int(place, 16)] = int(former, 16)
            elif line.startswith("site "):
                _, number, former, *_ = line.split()
                code[int(number, 16)] = int(former, 16)
    for word in words:
        addr = int(word, 16)
        page = pages.get(addr // PAGE * PAGE)
        was = code.get(addr) if page is None else page + addr % PAGE
        print(word, "is no address of the trace" if was is None else f"was {was:#x}")


def main() -> None:
    parser = argparse.ArgumentParser(
        description=__doc__, formatter_class=argparse.RawDescriptionHelpFormatter
    )
    parser.add_argument("lines", nargs="?", metavar="LINES")
    parser.add_argument("trace", nargs="?", metavar="OUT.trace")
    parser.add_argument("--split", action="store_true", help="take accesses apart")
    parser.add_argument("--table", metavar="FILE", help="write which page became which")
    parser.add_argument(
        "--back", nargs="+", metavar=("FILE", "ADDRESS"), help="print what addresses were"
    )
    call = parser.parse_args()
    if call.back and not call.lines:
        return translate_back(call.back[0], call.back[1:])
    if call.back or not call.trace:
        parser.error("LINES and OUT.trace, or --back FILE ADDRESS ..")
    with sys.stdin if call.lines == "-" else open(call.lines) as lines:
        found, harts = read_accesses(lines, call.split)
    table = page_table(found)
    write_trace(found, harts, table, call.trace)
    if call.table:
        with open(call.table, "w") as out:
            for page, new in table.items():
                print(f"{new * PAGE:#010x} {page * PAGE:#x}", file=out)
    print(f"{len(found)} accesses of {harts} harts, {len(table)} pages", file=sys.stderr)


main()
