#!/usr/bin/env python3
"""Measures what pcs in a trace cost, what `blame` takes of time and memory, and what `move` takes beside
`convert`, and compares that with the aims.

20,000,000 accesses to 64 lines are written in version 3, with 64 pcs for each of 8 harts, and converted to
version 2: once each line has a pc of its own, and once any pc comes at any line. `move` moves each word to a
line of its own, by a table of 512 rows. The commands run five times in turn, and the least time of each
counts. Reading alone is a call of `place` for an object that isn't there. Then 1,000,000 pairs of instructions
take one line: `blame` of that shows its memory. A benchmark, no test."""

import argparse
import functools
import os
import struct
import subprocess
import sys
import tempfile
import time
from typing import Iterable, Iterator, NamedTuple

TOP = os.path.join(os.path.dirname(os.path.abspath(__file__)), "..")
sys.path.insert(0, os.path.join(TOP, "tools"))

from traces import encode_distance  # noqa: E402

BUILT = os.path.join(TOP, "crates/predator/out/predator")
# As the launcher has it.
os.environ.setdefault("GLIBC_TUNABLES", "glibc.malloc.hugetlb=1")
ROUNDS, MADE, HARTS, PCS = 5, 20_000_000, 8, 64
# So many instructions of one hart take a line from as many of another.
SIDE = 1000
CODE, DATA, PLACES = 0x10000, 0x20000, 0x100000
# What `place` ends with where no object has the name.
NO_OBJECT = 13
# At most so much of what each aim is beside, and so many bytes.
AIMS = {"blame": 2.5, "move": 1.5, "reading": 1.25}
ROOM = 1 << 30


class Touch(NamedTuple):
    """An access of a word."""

    writes: bool
    hart: int
    addr: int
    pc: int


def mixed_touches(are_apart: bool) -> Iterator[Touch]:
    """Accesses of 64 lines by 8 harts that run the same code, three writes to a read, from a fixed seed. Each
    line has a pc of its own, or any pc comes at any line."""
    state = 1
    for _ in range(MADE):
        state = (state * 6364136223846793005 + 1442695040888963407) & 0xFFFFFFFFFFFFFFFF
        r = state >> 32
        hart, line = r & 7, r >> 3 & 63
        pc = line if are_apart else r >> 13 & PCS - 1
        yield Touch(r >> 10 & 3 != 0, hart, DATA + 64 * line + 4 * hart, CODE + 4 * pc)


def paired_touches() -> Iterator[Touch]:
    """Each of some instructions of hart 1 takes a line from each of some of hart 0."""
    for victim in range(SIDE):
        for taker in range(SIDE):
            yield Touch(True, 0, DATA, CODE + 4 * victim)
            yield Touch(True, 1, DATA + 4, CODE + 4 * (SIDE + taker))


def write_trace(path: str, touches: Iterable[Touch], harts: int = HARTS) -> str:
    """The touches as a trace of version 3, in a file."""
    spelled = functools.lru_cache(1 << 16)(encode_distance)
    addr, pcs, count, piece = 0, [0] * harts, 0, bytearray()
    with open(path, "wb") as out:
        out.write(struct.pack("<8sQHH", b"PRDTRC03", 0, harts, 0))
        for touch in touches:
            piece += (
                bytes((0x24 if touch.writes else 0x14, touch.hart))
                + spelled(touch.addr - addr)
                + spelled(touch.pc - pcs[touch.hart])
            )
            addr, pcs[touch.hart], count = touch.addr, touch.pc, count + 1
            if len(piece) > 1 << 20:
                out.write(piece)
                piece.clear()
        out.write(piece + struct.pack("<B8xQQ", 6, count, count))
    return path


def write_table(path: str) -> str:
    """A table by which each word of the lines goes to a line of its own."""
    words = (64 * line + 4 * hart for line in range(64) for hart in range(HARTS))
    with open(path, "w", encoding="ascii") as out:
        out.writelines(f"{DATA + it:#x} 4 {PLACES + 16 * it:#x}\n" for it in words)
    return path


def measure_call(words: list[str]) -> tuple[float, int]:
    """Seconds, and the most bytes of memory."""
    begin = time.monotonic()
    with subprocess.Popen(words, stdout=subprocess.DEVNULL) as child:
        _, status, used = os.wait4(child.pid, 0)
        child.returncode = os.waitstatus_to_exitcode(status)
    if child.returncode not in (0, NO_OBJECT):
        sys.exit(f"bench: status {child.returncode} of {' '.join(words)}")
    return time.monotonic() - begin, used.ru_maxrss * 1024


def measure_least(commands: dict[str, list[str]]) -> dict[str, float]:
    """The least time of each command, over some rounds."""
    least = dict.fromkeys(commands, float("inf"))
    for _ in range(ROUNDS):
        for name, words in commands.items():
            least[name] = min(least[name], measure_call(words)[0])
    return least


def judge_time(what: str, took: float, aim: float) -> None:
    print(f"{what}: {took:.2f} times, at most {aim:g}{'' if took <= aim else ': missed'}")


def measure(program: str, work: str, are_apart: bool) -> None:
    """What each command takes."""
    three, two = write_trace(f"{work}/three", mixed_touches(are_apart)), f"{work}/two"
    subprocess.run([program, "convert", three, two], check=True, stdout=subprocess.DEVNULL)
    least = measure_least(
        {
            "reading of version 2": [program, "place", two, "none"],
            "reading": [program, "place", three, "none"],
            "replay of version 2": [program, "replay", two],
            "replay": [program, "replay", three],
            "blame": [program, "blame", three],
            "misses": [program, "misses", three],
            "convert": [program, "convert", three, f"{work}/again"],
            "move": [program, "move", three, write_table(f"{work}/table"), f"{work}/moved"],
        }
    )
    print("a pc of its own for each line:" if are_apart else "any pc at any line:")
    print(
        f"{os.path.getsize(three) / MADE:.2f} bytes an access in version 3,"
        f" {os.path.getsize(two) / MADE:.2f} in version 2"
    )
    for name, took in least.items():
        beside = took / least["replay"], took / least["replay of version 2"]
        print(
            f"{name}: {took:.2f} s, {beside[0]:.2f} of replay, {beside[1]:.2f} of that of version 2"
        )
    judge_time(
        "reading version 3 beside version 2",
        least["reading"] / least["reading of version 2"],
        AIMS["reading"],
    )
    judge_time("blame beside replay", least["blame"] / least["replay"], AIMS["blame"])
    judge_time("move beside convert", least["move"] / least["convert"], AIMS["move"])


def measure_pairs(program: str, work: str) -> None:
    """What many pairs take."""
    took, memory = measure_call([program, "blame", write_trace(f"{work}/pairs", paired_touches())])
    missed = "" if memory <= ROOM else ": missed"
    print(
        f"blame of {SIDE * SIDE} pairs: {took:.2f} s, {memory / 1e6:.0f} MB, at most"
        f" {ROOM / 1e6:.0f}{missed}"
    )


def main(program: str) -> None:
    with tempfile.TemporaryDirectory() as work:
        for are_apart in (True, False):
            measure(program, work, are_apart)
        measure_pairs(program, work)


if __name__ == "__main__":
    parser = argparse.ArgumentParser(
        description=__doc__, formatter_class=argparse.RawDescriptionHelpFormatter
    )
    parser.add_argument(
        "program", nargs="?", default=BUILT, metavar="PROGRAM", help="the program (the built one)"
    )
    main(os.path.abspath(parser.parse_args().program))
