#!/usr/bin/env python3
"""Measures the cost of blocks: of the calls `alloc` and `free` in guests that make 2^20 blocks, and of as many
births and deaths in replayed traces.

usage: bench/heap.py [PROGRAM]

Each command runs four times in turn with one that does the same but for the blocks: the guest without its
calls, or `sweep`, which reads a trace and notes no block. The least processor times count. A row has the
difference for each call, and that of the most memory. In a guest it covers the heap and the table of objects,
and in a replay the table alone. A benchmark, no test."""

import argparse
import os
import struct
import subprocess
import sys
import tempfile
from collections.abc import Iterable, Iterator
from typing import NamedTuple

import aims

sys.path.insert(0, os.path.join(aims.TOP, "tools"))

from made_guests import draw_holes, free_blocks, guest_of_code, make_blocks  # noqa: E402
from rv32 import Code  # noqa: E402

ROUNDS, COUNT, MIXED = 4, 1 << 20, 1 << 16
SETTINGS = "memory=67108864,stack=4096"
START, ECALL, NOTHING = 0x20000, 0x00000073, 0x00050513  # addi a0, a0, 0


class Row(NamedTuple):
    """A command, the same without blocks, and the number of calls that make the difference."""

    name: str
    words: list[str]
    plain: list[str]
    calls: int


class Guest(NamedTuple):
    """Code whose s0 ends with the place of the last block, so many calls of it, and that place, if it is known."""

    name: str
    code: Code
    calls: int
    last: int | None = None


def free_blocks_made(first: int, step: int) -> Code:
    code = Code()
    make_blocks(code, COUNT, 16)
    free_blocks(code, COUNT, first, step)
    return code


def free_every_second() -> Code:
    """No hole is large enough for the blocks that are made then."""
    code = Code()
    make_blocks(code, COUNT // 2, 16)
    free_blocks(code, COUNT // 4, 0, 32)
    make_blocks(code, COUNT // 2, 32)
    return code


def free_the_first() -> Code:
    """Its place is too small for all later blocks."""
    code = Code()
    make_blocks(code, 2, 16)
    free_blocks(code, 1, 0, 0)
    make_blocks(code, COUNT - 2, 32)
    return code


def list_guests() -> list[Guest]:
    last = 16 * (COUNT - 1)
    return [
        Guest("blocks freed in order", free_blocks_made(0, 16), 2 * COUNT, last),
        Guest("blocks freed in reverse", free_blocks_made(last, -16), 2 * COUNT, last),
        Guest(
            "every second block freed, larger ones made",
            free_every_second(),
            COUNT * 5 // 4,
            8 * COUNT + 32 * (COUNT // 2 - 1),
        ),
        Guest(
            "the first block freed, larger ones made",
            free_the_first(),
            COUNT + 1,
            32 * (COUNT - 2),
        ),
        Guest(
            "sizes of 16 to 512 bytes, half freed, as many made", draw_holes(MIXED), 5 * MIXED // 2
        ),
    ]


def guest_rows(program: str, work: str) -> Iterator[Row]:
    for number, guest in enumerate(list_guests()):
        plain = Code()
        plain.words = [NOTHING if it == ECALL else it for it in guest.code.words]
        words = []
        for kind, code in (("calls", guest.code), ("plain", plain)):
            code.call("exit_group", "s0")
            path = aims.write_file(f"{work}/{number}.{kind}", guest_of_code(code))
            words.append([program, "run", path, "--set", SETTINGS])
        if guest.last is not None:
            check_outcome(words[0], guest.last)
        yield Row(f"guest, {guest.name}", *words, guest.calls)


def write_trace(path: str, freed: Iterable[int]) -> str:
    """A trace without accesses, in which blocks of 16 bytes are born in order and die in another one."""
    with open(path, "wb") as out:
        out.write(struct.pack("<8sQHH", b"PRDTRC01", 0, 8, 0))
        for number in range(COUNT):
            out.write(struct.pack("<BII16x", 3, START + 16 * number, 16))
        for number in freed:
            out.write(struct.pack("<BI", 4, START + 16 * number))
        out.write(struct.pack("<B8xQQ", 6, 0, 0))
    return path


def table_rows(program: str, work: str) -> Iterator[Row]:
    for name, freed in (("in order", range(COUNT)), ("in reverse", range(COUNT)[::-1])):
        path = write_trace(f"{work}/{name}", freed)
        yield Row(
            f"table, deaths {name}",
            [program, "replay", path],
            [program, "sweep", path, "--size", "64"],
            2 * COUNT,
        )


def check_outcome(words: list[str], wanted: int) -> None:
    """Ends where a guest got other blocks than it should."""
    found = subprocess.run(words, capture_output=True, text=True)
    if found.returncode or f"outcome exit {wanted}\n" not in found.stdout:
        sys.exit(f"bench: no exit {wanted} of {' '.join(words)}")


def measure(words: list[str]) -> tuple[float, int]:
    """Processor seconds, and the most bytes of memory."""
    child = subprocess.Popen(words, stdout=subprocess.DEVNULL, stderr=subprocess.DEVNULL)
    _, status, usage = os.wait4(child.pid, 0)
    if status:
        sys.exit(f"bench: status {status} of {' '.join(words)}")
    return usage.ru_utime + usage.ru_stime, usage.ru_maxrss * 1024


def main(program: str) -> None:
    with tempfile.TemporaryDirectory() as work:
        rows = [*guest_rows(program, work), *table_rows(program, work)]
        found = [[(measure(it.words), measure(it.plain)) for it in rows] for _ in range(ROUNDS)]
    for number, row in enumerate(rows):
        runs = [it[number] for it in found]
        (took, peak), (less, room) = (
            (min(it[0] for it in of), max(it[1] for it in of)) for of in zip(*runs)
        )
        print(
            f"{row.name}: {(took - less) / row.calls * 1e6:.2f} microseconds a call,"
            f" {(peak - room) / 1e6:.0f} MB"
        )


if __name__ == "__main__":
    parser = argparse.ArgumentParser(
        description=__doc__, formatter_class=argparse.RawDescriptionHelpFormatter
    )
    parser.add_argument("program", nargs="?", default=aims.BUILT, metavar="PROGRAM")
    main(os.path.abspath(parser.parse_args().program))
