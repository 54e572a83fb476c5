#!/usr/bin/python3 -IS
"""A stand-in for the program in the tests of the workflow: it prints made-up texts of the right form, by the
seed of its settings.

STAND_IN_LOG names a file to which each call adds a line; STAND_IN_FAILS has the seeds whose runs fail,
STAND_IN_KILLS those that take their job with them, and STAND_IN_SLEEP is what a run takes."""

import os
import struct
import sys
import time


def option(words, name, default=None):
    return words[words.index(name) + 1] if name in words else default


def trace_of(seed, has_pcs):
    """A trace of two blocks of one call site, four accesses, and the seed as the exit's number of steps."""
    head = (b"PRDTRC03" if has_pcs else b"PRDTRC01") + struct.pack("<IQ", 8, 0)
    block = b"\3" + struct.pack("<6I", 0x20000, 64, 0x10010, 0x10020, 0, 0)
    # (with pcs, those of the first access and then 0 and the pc of the one before)
    access = (
        b"\x24\1\x80\x80\x10\x88\x80\x08"
        if has_pcs
        else b"\2" + struct.pack("<HI", 1, 0x20000) + b"\4"
    )
    other = b"\3" + struct.pack("<6I", 0x20100 + 64 * (seed % 3), 64, 0x10010, 0x10020, 0, 0)
    return head + block + access * 2 + other + access * 2 + b"\6" + struct.pack("<Q", seed)


def report(seed, size=64, shift=0):
    """A variable that each seed lists, and the second block, which odd seeds list."""
    block = 0x20100 + 64 * (seed % 3)
    lines = [
        (
            100 + seed,
            f"line observed 0x00011000 {size} start 3 count {100 + seed} verdict false\n"
            "object symbol counters 0x00011000 64\nword 0x00011000 reads 0 writes 9 hart 0",
        ),
        (
            90,
            f"line observed {block:#010x} {size} start 4 count 90 verdict false\n"
            f"object block {block:#010x} 64 born 2 live\nsite 0x00010010 malloc\nsite 0x00010020 main",
        ),
    ][: 1 + seed % 2]
    head = [
        "predator report 1",
        "outcome exit 0",
        f"steps {1000 + seed}",
        "accesses 4",
        f"layout {size} {shift}",
        "thresholds 16 64 16",
        f"lines {len(lines)}",
    ]
    return "\n".join([*head, *(it for _, it in lines), "end"]) + "\n"


def misses(seed, size, shift):
    counts = f"cold 2 useful 1 useless {50 + seed % 10}"
    line = f"line 0x00011000 {counts}\nobject symbol counters 0x00011000 64\n"
    return f"misses {size} {shift}\naccesses 4\nlines 1\n{line}total {counts}\nend\n"


def blame(seed, size, shift):
    """A pair of instructions invalidates the variable's line in each seed, and another pair in odd seeds; a line
    that no other text has is invalidated once."""
    pairs = [f"pair 0x00010044 0x00010044 taken {40 + seed} same 0\n"]
    pairs += [f"pair 0x0001003c 0x00010044 taken {seed} same {seed}\n"] * (seed % 2)
    line = f"line 0x00011000 takings 99 pairs {len(pairs)} harts 1\n{''.join(pairs)}from 0 to 1 taken 99\n"
    line += "line 0x00012000 takings 1 pairs 1 harts 1\n"
    line += "pair 0x00010004 0x00010008 taken 1 same 1\nfrom 0 to 1 taken 1\n"
    return f"predator blame 1\naccesses 4\nlayout {size} {shift}\nlines 2\n{line}total takings 100\nend\n"


def seed_of(words):
    """The seed of a run's settings, or that of the trace that is counted."""
    if "--settings" in words:
        with open(option(words, "--settings"), encoding="utf-8") as file:
            return int(next((it.split()[-1] for it in file if it.startswith("seed ")), "0"))
    with open(words[-1], "rb") as file:
        return struct.unpack("<Q", file.read()[-8:])[0]


def main(words):
    if not words or words[0] not in (
        "run",
        "replay",
        "misses",
        "blame",
        "sweep",
        "caches",
        "check",
    ):
        print("usage: predator run PROGRAM")
        return 1
    if words[0] == "check":
        print("stacks 0x00f90000 0x01010000")
        return 0
    seed = seed_of(words)
    if "STAND_IN_LOG" in os.environ:
        with open(os.environ["STAND_IN_LOG"], "a", encoding="utf-8") as file:
            file.write(f"{words[0]} {seed}\n")
    size, shift = option(words, "--size", "64"), option(words, "--shift", "0")
    if words[0] == "run":
        time.sleep(float(os.environ.get("STAND_IN_SLEEP", "0")))
        if str(seed) in os.environ.get("STAND_IN_FAILS", "").split():
            print("predator: no memory")
            return 9
        if str(seed) in os.environ.get("STAND_IN_KILLS", "").split():
            os.kill(os.getppid(), 9)
        if "--trace" in words:
            with open(option(words, "--trace"), "wb") as file:
                file.write(trace_of(seed, "--pcs" in words))
        print(report(seed), end="")
    elif words[0] == "replay":
        print(report(seed, size, shift), end="")
    elif words[0] == "misses":
        print(misses(seed, size, shift), end="")
    elif words[0] == "blame":
        with open(words[-1], "rb") as file:
            if file.read(8) != b"PRDTRC03":
                print("predator: trace NoPcs")
                return 5
        print(blame(seed, size, shift), end="")
    elif words[0] == "sweep":
        print(
            f"sweep {size}\naccesses 4\nshift 0 total {seed} lines 1\nshift 4 total 5 lines 1\n"
            f"least {0 if seed <= 5 else 4} total {min(seed, 5)}\nend"
        )
    else:
        print(
            f"caches {size} 1 1\naccesses 4\nlines 0\ntotal bounded {seed} unbounded {seed + 1} evicted 2\nend"
        )
    return 0


if __name__ == "__main__":
    sys.exit(main(sys.argv[1:]))
