#!/usr/bin/env python3
"""Measures saved states with the built program, and prints a table for docs/BENCHMARKS.md.

First a made trace of 4,000,000 accesses is replayed whole, and then in ten parts with nine saved states
between them: the report is to be the same, and the time of all ten is set beside that of the whole. Then a
state of 65,536 written lines, each with a track, is saved and taken up again, each beside sha256sum of the
state. The least of three times counts. A benchmark, no test."""

import os
import struct
import subprocess
import sys
import tempfile
import time

TOP = os.path.join(os.path.dirname(os.path.abspath(__file__)), "..")
PROGRAM = os.path.join(TOP, "crates/predator/out/predator")
MADE = 4_000_000
PARTS = 10
LINES = 65_536
ROUNDS = 3


def measure(words):
    begin = time.monotonic()
    done = subprocess.run(words, capture_output=True)
    if done.returncode != 0:
        sys.exit(f"{words}: status {done.returncode}: {done.stdout.decode()}{done.stderr.decode()}")
    return time.monotonic() - begin, done.stdout


def measure_least(words):
    return min(measure(words)[0] for _ in range(ROUNDS))


def measure_parts(work, trace):
    """The seconds of the parts together, and the last one's report."""
    step, rest, names = MADE // PARTS, trace, []
    for part in range(PARTS - 1):
        measure([PROGRAM, "split", rest, str(step), f"{work}/part{part}", f"{work}/rest{part}"])
        names.append(f"{work}/part{part}")
        rest = f"{work}/rest{part}"
    names.append(rest)
    seconds, report = 0, b""
    for part, name in enumerate(names):
        words = [PROGRAM, "replay", name]
        words += ["--resume", f"{work}/state{part - 1}"] if part > 0 else []
        words += ["--save", f"{work}/state{part}"] if part < PARTS - 1 else []
        took, report = measure(words)
        seconds += took
    return seconds, report


def write_lines(path, positions):
    """A trace that writes each of so many lines once, from a position on: as many as are asked for."""
    with open(path, "wb") as out:
        out.write(b"PRDTRC01" + struct.pack("<QHH", positions[0], 8, 0))
        for i in range(positions[1]):
            out.write(struct.pack("<BHIB", 2, i % 8, 0x100000 + 64 * i, 4))
        out.write(struct.pack("<BBBHIQQ", 6, 0, 0, 0, 0, positions[1], positions[1]))
    return path


def main():
    with tempfile.TemporaryDirectory() as work:
        trace = f"{work}/made"
        measure([PROGRAM, "gen", str(MADE), trace])
        whole = measure_least([PROGRAM, "replay", trace])
        report = measure([PROGRAM, "replay", trace])[1]
        runs = [measure_parts(work, trace) for _ in range(ROUNDS)]
        same = all(run[1] == report for run in runs)
        parts = min(run[0] for run in runs)
        print(
            f"| ten parts with nine states, beside the whole of {MADE:,} accesses |"
            f" {parts / whole:.2f} | 1.3 |"
        )
        print(f"the report is {'the same' if same else 'ANOTHER ONE'}")
        settings = f"{work}/settings"
        with open(settings, "w") as out:
            out.write("tracking = 1\nreport = 1000\n")
        first, none = write_lines(f"{work}/lines", (0, LINES)), write_lines(
            f"{work}/none", (LINES, 0)
        )
        state = f"{work}/state"
        plain = [PROGRAM, "replay", first, "--settings", settings]
        resumed = [PROGRAM, "replay", none, "--settings", settings, "--resume", state]
        saved = measure_least(plain + ["--save", state])
        print(f"the state has {os.path.getsize(state):,} bytes")
        sums = measure_least(["sha256sum", state])
        print(
            f"| a state of {LINES:,} lines saved, beside sha256sum of it |"
            f" {(saved - measure_least(plain)) / sums:.2f} | 4 |"
        )
        print(f"| and taken up again | {measure_least(resumed) / sums:.2f} | 4 |")


main()
