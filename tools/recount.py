#!/usr/bin/env python3
"""Counts the observed lines of a trace anew.

Written from docs/RULES.md and the trace of docs/FORMATS.md alone, as slow and plain as they are: one cache
without bounds for each hart, and a write takes its line out of all others. It prints each observed line that
is listed as a report does, up to its count."""

import argparse
import sys

from traces import read_accesses


def recount_lines(
    trace: bytes, size: int = 64, shift: int = 0, tracking: int = 16, report: int = 100
) -> list[tuple[int, int, int]]:
    """The listed observed lines, as (base, start, count), by count falling and then by base rising."""
    holders: dict[int, set[int]] = {}
    writes: dict[int, int] = {}
    starts: dict[int, int] = {}
    counts: dict[int, int] = {}
    for position, (hart, addr, is_write) in enumerate(read_accesses(trace)):
        base = (addr - shift) // size * size + shift
        held = holders.setdefault(base, set())
        if is_write:
            if base in starts and held - {hart}:
                counts[base] += 1
            writes[base] = writes.get(base, 0) + 1
            if writes[base] == tracking:
                starts[base], counts[base] = position, 0
            held.clear()
        held.add(hart)
    return sorted(
        ((base, starts[base], counts[base]) for base in starts if counts[base] >= report),
        key=lambda row: (-row[2], row[0]),
    )


def main() -> int:
    parser = argparse.ArgumentParser(
        description=__doc__, formatter_class=argparse.RawDescriptionHelpFormatter
    )
    parser.add_argument("trace", metavar="TRACE")
    for name, usual in (("size", 64), ("shift", 0), ("tracking", 16), ("report", 100)):
        parser.add_argument(
            name, nargs="?", type=int, default=usual, metavar=name.upper(), help=f"({usual})"
        )
    call = parser.parse_args()
    numbers = call.size, call.shift, call.tracking, call.report
    with open(call.trace, "rb") as file:
        for base, start, count in recount_lines(file.read(), *numbers):
            print(
                "line observed"
                f" {'-' if base < 0 else ''}0x{abs(base):08x} {call.size} start"
                f" {start} count {count}"
            )
    return 0


if __name__ == "__main__":
    sys.exit(main())
