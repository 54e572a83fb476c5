#!/usr/bin/env python3
"""Moves the accesses of a trace by a table anew.

It writes FILE, and prints what `predator move` prints, also where it refuses.

Written from docs/RULES.md and docs/FORMATS.md alone: each access is looked for in all ranges, and in all
places. Of a file that is no trace it says nothing."""

import argparse
import re
import struct
import sys
from typing import NamedTuple

from traces import Access, encode_distance, located_records

NUMBER = re.compile(rb"0x[0-9a-fA-F]{1,8}|0|[1-9][0-9]*")
# A table, the addresses of accesses, where these are then, and how many are moved; or the refusal.
WORKED = [
    ("0x1004 4 0x1040", "1000 1004 1000", "1000 1040 1000", "move 3 1"),
    ("0x1000 4 0x1004\n\n0x1004 4 4096\n", "1000 1004", "1004 1000", "move 2 2"),
    ("0 4294967296 0", "0 fffffffc", "0 fffffffc", "move 2 2"),
    ("0x1000 8 0x2004", "1000 1007 1008", "2004 200b 1008", "move 3 2"),
    ("0x1000 4 0x1004", "1000 1006 1000", "1004", "predator: table Occupied 0x00001006"),
    ("8 4 8\n4 4 4", "8", None, "predator: table BadLine 2"),
    ("0 8 64\n8 4 68", "8", None, "predator: table Overlap 2"),
    ("0 4 6", "8", None, "predator: table BadLine 1"),
    ("0 4 4 ", "8", None, "predator: table BadLine 1"),
    ("00 4 4", "8", None, "predator: table BadLine 1"),
]


class Move(NamedTuple):
    begin: int
    size: int
    to: int

    def target(self, addr: int) -> int | None:
        return addr - self.begin + self.to if self.begin <= addr < self.begin + self.size else None

    def meets(self, other: "Move") -> bool:
        """Whether two places have a byte in common."""
        return self.to < other.to + other.size and other.to < self.to + self.size


class Refused(Exception):
    """What is printed."""


def parse_table(text: bytes) -> list[Move]:
    if len(text) > 1 << 20:
        raise Refused("predator: table TooLong")
    found: list[Move] = []
    for number, line in enumerate(text.split(b"\n"), 1):
        words = line.split(b" ")
        if not line:
            continue
        if len(words) != 3 or not all(map(NUMBER.fullmatch, words)):
            raise Refused(f"predator: table BadLine {number}")
        move = Move(*(int(it, 16 if it[:2] == b"0x" else 10) for it in words))
        is_placed = (
            move.size >= 4
            and max(move.begin, move.to) + move.size <= 2**32
            and not any(it % 4 for it in move)
        )
        if not is_placed or any(move.begin < it.begin + it.size for it in found):
            raise Refused(f"predator: table BadLine {number}")
        if any(map(move.meets, found)):
            raise Refused(f"predator: table Overlap {number}")
        found.append(move)
    return found


def target_address(table: list[Move], addr: int) -> int | None:
    """Where an access goes, None where it stays. It is refused where it stays and lies in a place."""
    places = [place for it in table if (place := it.target(addr)) is not None]
    if not places and any(it.to <= addr < it.to + it.size for it in table):
        raise Refused(f"predator: table Occupied {addr:#010x}")
    return places[0] if places else None


def access_bytes(
    version: int, tag: int, size: int, touch: Access, last: int, pcs: dict[int, int]
) -> bytes:
    """An access of a trace of a version behind one of another address, with the pcs of the harts' accesses
    before."""
    if version == 1:
        return struct.pack("<BHIB", tag, touch.hart, touch.addr, size)
    found = bytes((tag, touch.hart)) + encode_distance(touch.addr - last)
    if touch.pc is not None:
        found += encode_distance(touch.pc - pcs.get(touch.hart, 0))
        pcs[touch.hart] = touch.pc
    return found


def move_trace(trace: bytes, text: bytes) -> tuple[str, bytes | None]:
    """What is printed, and what the file has then: nothing where the table is refused."""
    try:
        table = parse_table(text)
    except Refused as refused:
        return str(refused), None
    made, version, last, pcs = bytearray(trace[:20]), int(trace[6:8]), 0, dict[int, int]()
    accesses, count, end = 0, 0, 20
    for start, end, record in located_records(trace):
        if not isinstance(record, Access):
            made += trace[start:end]
            continue
        try:
            place = target_address(table, record.addr)
        except Refused as refused:
            return str(refused), bytes(made)
        accesses, count = accesses + 1, count + (place is not None)
        record = record if place is None else record._replace(addr=place)
        made += access_bytes(version, trace[start], trace[end - 1], record, last, pcs)
        last = record.addr
    return f"move {accesses} {count}", bytes(made + trace[end:])


def try_worked() -> int:
    wrong = 0
    for text, addrs, wanted, line in WORKED:
        records = [struct.pack("<BHIB", 2, 0, int(it, 16), 1) for it in addrs.split()]
        printed, made = move_trace(
            b"PRDTRC01" + bytes(8) + b"\1\0\0\0" + b"".join(records) + b"\6" + bytes(24),
            text.encode(),
        )
        addrs_of = made and [
            struct.unpack_from("<I", made, at + 3)[0]
            for at in range(20, len(made) - 7, 8)
            if made[at] == 2
        ]
        if (printed, addrs_of) != (line, wanted and [int(it, 16) for it in wanted.split()]):
            wrong += 1
            print(f"{text!r} over {addrs}: {printed}, {addrs_of!r}")
    print(f"{len(WORKED)} worked lists, {wrong} wrong")
    return 1 if wrong else 0


def main() -> int:
    parser = argparse.ArgumentParser(
        description=__doc__, formatter_class=argparse.RawDescriptionHelpFormatter
    )
    parser.add_argument("--try", action="store_true", dest="tries", help="try the worked lists")
    parser.add_argument("files", nargs="*", metavar="TRACE TABLE FILE")
    call = parser.parse_args()
    if call.tries:
        return try_worked()
    if len(call.files) != 3:
        parser.error("TRACE, TABLE and FILE, or --try")
    with open(call.files[0], "rb") as trace, open(call.files[1], "rb") as table:
        line, made = move_trace(trace.read(), table.read())
    print(line)
    if made is not None:
        with open(call.files[2], "wb") as file:
            file.write(made)
    return 0 if line.startswith("move ") else 14


if __name__ == "__main__":
    sys.exit(main())
