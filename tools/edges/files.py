"""The files that the program reads for tools/edges/main.py, and the texts and files that it makes of each, by
docs/FORMATS.md and the cases of crates/worked_runs/data. None of it comes from the program."""

import os
import struct
import sys
from typing import Iterable, NamedTuple

sys.path.insert(0, os.path.join(os.path.dirname(os.path.abspath(__file__)), ".."))

from judge_filter import filter_trace  # noqa: E402
from traces import encode_distance  # noqa: E402

DATA = os.path.join(
    os.path.dirname(os.path.abspath(__file__)), "..", "..", "crates", "worked_runs", "data"
)
Touch = tuple[int, str, int]
Sited = tuple[int, str, int, int]
# Pieces in which a run's program puts out its bytes, and the bytes of the last one.
PIECES, REST = 16, 1
# How many words it writes, how many lines the traces have, and how many accesses one has that is made, and
# cut behind so many of them: what is printed or written has more than 64 KiB.
WRITES, LINES, MADE, CUT = 9000, 1500, 20000, 9000
# Where a trace of so many accesses is cut off, within a record.
CUT_AT = 20 + 8 * 15000 + 5
STATE = bytes.fromhex(
    "5052445354413031040000000000000001000000000000000000000000000000080000000000000002000000"
    "0000000001000000000000000100000000000000001000000000000001000000000000000002030005000000"
    "00100000000000000000000000000000000000000000000001000000000000000100000000000000feff0000"
    "00000000000000000000000000000000"
)


def join_lines(*texts: str) -> bytes:
    return "".join(f"{it}\n" for it in texts).encode()


def worked_text(name: str, words: str) -> bytes:
    """What a case says that a call prints."""
    with open(os.path.join(DATA, name), encoding="utf-8") as file:
        rows = file.read().split("\n")
    at = rows.index(f"$ {words}") + 1
    end = next(it for it in range(at, len(rows)) if not rows[it].startswith("|"))
    return join_lines(*(it[2:] for it in rows[at:end]))


def trace_header(harts: int = 8, first: int = 0, version: int = 1) -> bytes:
    return struct.pack("<8sQHH", f"PRDTRC0{version}".encode(), first, harts, 0)


def trace_end(accesses: int, steps: int | None = None, outcome: int = 0) -> bytes:
    return struct.pack(
        "<BBBHIQQ", 6, outcome, 0, 0, 0, accesses if steps is None else steps, accesses
    )


def access_records(touches: Iterable[Touch]) -> bytes:
    return b"".join(
        struct.pack("<BHIB", 1 if kind == "R" else 2, hart, addr, 4) for hart, kind, addr in touches
    )


def trace_bytes(touches: list[Touch], before: bytes = b"") -> bytes:
    return trace_header() + before + access_records(touches) + trace_end(len(touches))


def symbol_record(addr: int, size: int, name: bytes) -> bytes:
    return struct.pack("<BBIIH", 5, 1, addr, size, len(name)) + name


def trace_version_2(touches: list[Touch]) -> bytes:
    """The trace of these accesses in version 2."""
    made, last = bytearray(trace_header(version=2)), 0
    for hart, kind, addr in touches:
        made += bytes((0x14 if kind == "R" else 0x24, hart)) + encode_distance(addr - last)
        last = addr
    return bytes(made) + trace_end(len(touches))


def trace_version_3(touches: Iterable[Sited], end: bytes = b"") -> bytes:
    """The trace of these accesses in version 3, each with its pc."""
    made, last, pcs, count = bytearray(trace_header(version=3)), 0, dict[int, int](), 0
    for hart, kind, addr, pc in touches:
        made += (
            bytes((0x14 if kind == "R" else 0x24, hart))
            + encode_distance(addr - last)
            + encode_distance(pc - pcs.get(hart, 0))
        )
        last, pcs[hart], count = addr, pc, count + 1
    return bytes(made) + (end or trace_end(count))


# The pcs of two harts that write neighbouring words in turn, and how each two of these accesses are spelled
# behind others.
PCS = (0x10044, 0x20048)
TURN = b"\x24\0\7\0\x24\1\x08\0"


def alternate(count: int) -> list[Sited]:
    """So many of these accesses."""
    return [(at % 2, "W", 0x1040 + 4 * (at % 2), PCS[at % 2]) for at in range(count)]


def by_line(touches: list[Touch]) -> list[Sited]:
    """Accesses with pcs that each line has for itself, one for each hart."""
    return [(hart, kind, addr, addr // 64 * 64 + 4 * hart) for hart, kind, addr in touches]


# The accesses of the made trace with pcs, and for how many bytes of a region they are filtered.
NEAR = 64


def sited_trace(count: int) -> bytes:
    return trace_version_3(by_line(generated_accesses(count)))


def filtered_front(count: int) -> bytes:
    """What stands in the filtered trace of the first of these accesses, without its end."""
    return filter_trace(sited_trace(count), NEAR.bit_length() - 1)[2][:-33]


# A table of moves, and the accesses with it.
TABLE = b"0x10000 4 0x20000\n"


def move_accesses(touches: list[Touch]) -> list[Touch]:
    return [(hart, kind, 0x20000 if addr == 0x10000 else addr) for hart, kind, addr in touches]


# A word that is no place of that table, and one of this, and accesses of which only the last but some is at
# it.
WAY = 0x10004
OVER = TABLE + b"0x1f000 4 0x10004\n"


def with_late_access(count: int) -> list[Touch]:
    return (
        [it for it in generated_accesses(count) if it[2] != WAY]
        + [(0, "W", WAY)]
        + generated_accesses(9)
    )


def split_trace(touches: list[Touch], at: int) -> tuple[bytes, bytes]:
    """What is written of these accesses where they are cut."""
    first = trace_header() + access_records(touches[:at]) + trace_end(at, 0, 4)
    return first, trace_header(first=at) + access_records(touches[at:]) + trace_end(
        len(touches) - at, len(touches)
    )


def generated_accesses(count: int) -> list[Touch]:
    """The accesses of the made trace."""
    found, state = [], 1
    for _ in range(count):
        state = (state * 6364136223846793005 + 1442695040888963407) % 2**64
        bits = state >> 32
        addr = 0x10000 + 64 * (bits >> 3 & 63) + 32 * (bits >> 9 & 1) + 4 * (bits & 7)
        found.append((bits & 7, "W" if bits >> 10 & 3 else "R", addr))
    return found


def contended_accesses(count: int) -> list[Touch]:
    """Two harts write neighbouring words of a line in turn, twice; so they do with each of some lines that
    lie apart."""
    return [
        (hart, "W", 0x100000 + 128 * line + 4 * hart)
        for line in range(count)
        for hart in (0, 1, 0, 1)
    ]


def report_text(
    outcome: str,
    steps: int,
    accesses: int,
    layout: str,
    thresholds: str,
    rows: Iterable[str] = (),
    count: int = 0,
) -> bytes:
    return join_lines(
        "predator report 1",
        f"outcome {outcome}",
        f"steps {steps}",
        f"accesses {accesses}",
        f"layout {layout}",
        f"thresholds {thresholds}",
        f"lines {count}",
        *rows,
        "end",
    )


def contended_report(count: int) -> bytes:
    rows = []
    for line in range(count):
        base = 0x100000 + 128 * line
        rows.append(f"line observed {base:#010x} 64 start {4 * line} count 3 verdict false")
        rows += [f"word {base + 4 * hart:#010x} reads 0 writes 2 hart {hart}" for hart in (0, 1)]
    return report_text("exit 0", 4 * count, 4 * count, "64 0", "1 none 1", rows, count)


def contended_misses(count: int) -> bytes:
    rows = [
        f"line {0x100000 + 128 * line:#010x} cold 2 useful 0 useless 2" for line in range(count)
    ]
    total = f"total cold {2 * count} useful 0 useless {2 * count}"
    return join_lines("misses 64 0", f"accesses {4 * count}", f"lines {count}", *rows, total, "end")


def contended_blame(count: int) -> bytes:
    rows = []
    for base in range(0x100000, 0x100000 + 128 * count, 128):
        one, other = f"{base:#010x}", f"{base + 4:#010x}"
        rows += [
            f"line {one} takings 3 pairs 2 harts 2",
            f"pair {one} {other} taken 2 same 0",
            f"pair {other} {one} taken 1 same 0",
        ]
        rows += ["from 0 to 1 taken 2", "from 1 to 0 taken 1"]
    head = (
        f"accesses {4 * count}",
        "layout 64 0",
        f"lines {count}",
        *rows,
        f"total takings {3 * count}",
    )
    return join_lines("predator blame 1", *head, "end")


def contended_caches(count: int) -> bytes:
    rows = [
        f"line {0x100000 + 128 * line:#010x} bounded 3 unbounded 3 evicted 0"
        for line in range(count)
    ]
    total = f"total bounded {3 * count} unbounded {3 * count} evicted 0"
    return join_lines(
        "caches 64 64 64", f"accesses {4 * count}", f"lines {count}", *rows, total, "end"
    )


def state_bytes(count: int) -> bytes:
    """The state of a trace in which hart 0 writes so many words, each of which is a line, and whose tracking
    begins at the first write."""
    head = struct.pack("<8sIIQQH6xQQQ", b"PRDSTA01", 4, 0, 1, 0, 8, count, count, count)
    head += b"".join(struct.pack("<QQ", 0x100000 + 4 * it, 1) for it in range(count))
    tracks = (
        struct.pack(
            "<BBHHHqQQQQHH", 0, 1, 0, 0xFFFF, 0, 0x100000 + 4 * number, number, 0, 0, 1, 0, 0
        )
        for number in range(count)
    )
    return head + b"".join(tracks) + bytes(16)


# ---- A program for a run: it writes a word over and over, puts out bytes, and exits.


def _add(rd: int, rs: int, number: int) -> int:
    return (number & 0xFFF) << 20 | rs << 15 | rd << 7 | 0x13


def _upper(rd: int, number: int) -> int:
    return (number & 0xFFFFF) << 12 | rd << 7 | 0x37


def _back_unless_zero(rs: int, words: int) -> int:
    by = -4 * words
    return (
        (by >> 12 & 1) << 31
        | (by >> 5 & 0x3F) << 25
        | rs << 15
        | 1 << 12
        | (by >> 1 & 15) << 8
        | (by >> 11 & 1) << 7
        | 0x63
    )


def _number(rd: int, number: int) -> list[int]:
    low = (number + 0x800 & 0xFFF) - 0x800
    return [_upper(rd, number - low >> 12), _add(rd, rd, low)]


def _put_out(count: int) -> list[int]:
    return [_add(17, 0, 64), _add(10, 0, 1), _upper(11, 0x10), *_number(12, count), 0x73]


class Guest(NamedTuple):
    """A program, how many steps it makes, its trace, without pcs and with them, and what it puts out."""

    file: bytes
    steps: int
    trace: bytes
    sited: bytes
    output: bytes


def guest(writes: int, pieces: int, rest: int, code: int = 0) -> Guest:
    """A program that writes the word at 0x11000 so often, and puts out so many pieces of 4096 bytes and then
    the rest."""
    store = 5 << 20 | 6 << 15 | 2 << 12 | 0x23
    words = [_upper(6, 0x11), *_number(5, writes), store, _add(5, 5, -1), _back_unless_zero(5, 2)]
    steps = 3 + 3 * writes
    if pieces:
        words += [*_number(8, pieces), *_put_out(4096), _add(8, 8, -1), _back_unless_zero(8, 7)]
        steps += 2 + 8 * pieces
    if rest:
        words += _put_out(rest)
        steps += 6
    words += [_add(17, 0, 93), _add(10, 0, code), 0x73]
    steps += 3
    text = struct.pack(f"<{len(words)}I", *words)
    head = struct.pack(
        "<4sBBB9xHHIIIIIHHHHHH",
        b"\x7fELF",
        1,
        1,
        1,
        2,
        243,
        1,
        0x10000,
        52,
        0,
        0,
        52,
        32,
        1,
        40,
        0,
        0,
    )
    head += struct.pack("<8I", 1, 84, 0x10000, 0, len(text), 0x2000, 7, 4)
    piece = text.ljust(4096, b"\0")
    end = struct.pack("<BBBHIQQ", 6, 0, 0, 0, code, steps, writes)
    # (the store is the fourth instruction)
    first = trace_version_3([(0, "W", 0x11000, 0x1000C)], end)[20:-25]
    return Guest(
        head + text,
        steps,
        trace_header() + access_records([(0, "W", 0x11000)] * writes) + end,
        trace_header(version=3) + (first + b"\x24\0\0\0" * (writes - 1) if writes else b"") + end,
        piece * pieces + piece[:rest],
    )


LONG, SMALL = guest(WRITES, PIECES, REST), guest(3, 0, REST)


def read_data(name: str) -> bytes:
    with open(os.path.join(DATA, name), "rb") as file:
        return file.read()


def usage_text() -> bytes:
    return read_data("usage.txt")


def input_files() -> dict[str, bytes]:
    """The files that calls read."""
    pair, shared = [(0, "W", 0x1000), (1, "W", 0x1004), (0, "W", 0x1000)], contended_accesses(LINES)
    return {
        "long.elf": LONG.file,
        "small.elf": SMALL.file,
        "plain.elf": read_data("plain.elf"),
        "adds.elf": read_data("adds_bytes.elf"),
        "waits.elf": read_data("waits_for_ever.elf"),
        "traps.elf": read_data("traps.elf"),
        "settings": b"tracking = 1\nreport = 1\n",
        "schedule": b"0 5\n",
        "table": TABLE,
        "made": trace_bytes(generated_accesses(MADE)),
        "contended": trace_bytes(shared),
        "short": trace_bytes(generated_accesses(200)),
        "two": trace_bytes(pair, symbol_record(0x1000, 8, b"pair")),
        "taken": trace_bytes(
            [(0, "W", 0x1000), (1, "W", 0x1000), (1, "W", 0x2000), (0, "W", 0x1000)]
        ),
        "turns": trace_bytes(pair + [(1, "W", 0x1004)]),
        "written": trace_bytes([(0, "W", 0x100000 + 4 * it) for it in range(LINES)]),
        "sited": trace_version_3(by_line(shared)),
        "few": trace_version_3(alternate(3)),
        "pcs": sited_trace(MADE),
        "pcs.cut": sited_trace(15000)[:-23],
        "filtered": filter_trace(sited_trace(200), NEAR.bit_length() - 1)[2],
        "state": STATE,
        "rest": trace_header(first=2) + trace_end(0),
        "bad": b"harts = 0\n",
        "script": b"#!/bin/sh\n",
        "over": OVER,
        "late": trace_bytes(with_late_access(MADE)),
        "cut": trace_bytes(generated_accesses(MADE))[:CUT_AT],
    }
