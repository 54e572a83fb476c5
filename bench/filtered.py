#!/usr/bin/env python3
"""Measures what it takes to record programs of this machine filtered, and to show a first screen of them,
beside valgrind's tools `none` and helgrind, and compares that with the aims.

usage: bench/filtered.py [--rounds N] [PROGRAM ..]

What counts is the time of the processors, of all processes of a call, in the middle of the rounds, and the
most memory that one of its processes had. The programs are Debian's (apt-get install minimap2 pigz zstd
xz-utils ripgrep). A benchmark, no test: it ends with 1 only where a program fails."""

import argparse
import functools
import glob
import os
import shutil
import statistics
import subprocess
import sys
import tempfile
from typing import NamedTuple, Sequence

TOP = os.path.abspath(os.path.join(os.path.dirname(os.path.abspath(__file__)), ".."))
sys.path[:0] = [TOP, os.path.join(TOP, "native", "others"), os.path.join(TOP, "guest", "studies")]
from reduction import MORE, REFERENCE, write_genomes  # noqa: E402
from report import markdown_table  # noqa: E402
from run import FOLDER, STUDIES, TEXT, Study, make_files  # noqa: E402
from view.reading.filtered_traces import read_filter  # noqa: E402

PREDATOR = os.path.join(TOP, "bin", "predator")
# Programs of the study, three of which compress so many bytes of this repository's pages and sources.
PROGRAMS = {
    "minimap2": MORE["minimap2"],
    "pigz": MORE["pigz"]._replace(text=1_030_000),
    "zstd": STUDIES["zstd"]._replace(text=2_300_000),
    "xz": STUDIES["xz"],
    "ripgrep": STUDIES["ripgrep"],
}
SOURCES = ("docs/*.md", "crates/*/src/*.rt")
MB = 1 << 20
# The aims: recording and a first screen, times helgrind; recording at the long quantum, times `none`; bytes of
# trace for each access of the program; the recorder's memory, times the program's, and so many bytes more.
RECORDING, SCREEN, LONG_RECORDING, BYTES, MEMORY, MEMORY_MORE = 1.0, 1.5, 4.0, 0.8, 2.5, 100 * MB
LONG_QUANTUM = 1000


class Cost(NamedTuple):
    """What a call takes: the seconds of processors, and the bytes of its largest process."""

    seconds: float
    memory: int


class Row(NamedTuple):
    """What the calls for a program take, how many accesses it made, and the bytes of its trace."""

    name: str
    alone: Cost
    none: Cost
    helgrind: Cost
    recorded: Cost
    recorded_long: Cost
    screen: Cost
    accesses: int
    trace_bytes: int

    def cells(self) -> list[str]:
        room = MEMORY * self.alone.memory + MEMORY_MORE
        return [
            self.name,
            f"{self.accesses / 1e6:.1f}",
            *(f"{it.seconds:.2f}" for it in (self.alone, self.none, self.helgrind)),
            ratio_text(self.recorded.seconds, self.helgrind.seconds, RECORDING),
            ratio_text(self.recorded_long.seconds, self.none.seconds, LONG_RECORDING),
            ratio_text(self.screen.seconds, self.helgrind.seconds, SCREEN),
            marked_text(
                f"{self.trace_bytes / self.accesses:.2f}", self.trace_bytes, BYTES * self.accesses
            ),
            marked_text(
                f"{self.recorded.memory / MB:.0f} of {room / MB:.0f} MB", self.recorded.memory, room
            ),
        ]


HEADS = [
    "Program",
    "Million accesses",
    "Alone, s",
    "`none`",
    "helgrind",
    "Recorded; times helgrind",
    "At 1000; times `none`",
    "First screen; times helgrind",
    "Bytes each",
    "Memory",
]


def marked_text(text: str, own: float, most: float) -> str:
    """A figure, with a mark where it is above its aim."""
    return text if own <= most else f"{text}, **missed**"


def ratio_text(seconds: float, beside: float, aim: float) -> str:
    return marked_text(f"{seconds:.2f}; {seconds / beside:.2f}", seconds, aim * beside)


def measure_call(words: Sequence[str], rounds: int) -> Cost:
    """What a call takes in the middle of some rounds."""
    found = []
    for _ in range(rounds):
        with tempfile.TemporaryFile() as said:
            child = subprocess.Popen(
                words, stdin=subprocess.DEVNULL, stdout=subprocess.DEVNULL, stderr=said
            )
            _, status, usage = os.wait4(child.pid, 0)
            child.returncode = os.waitstatus_to_exitcode(status)
            if child.returncode:
                said.seek(0)
                sys.exit(f"filtered.py: {words}: {child.returncode}\n{said.read().decode()}")
        found.append(Cost(usage.ru_utime + usage.ru_stime, 1024 * usage.ru_maxrss))
    return Cost(statistics.median(it.seconds for it in found), max(it.memory for it in found))


def read_sources() -> bytes:
    """The pages and sources of the program, one after the other."""
    paths = sorted(it for own in SOURCES for it in glob.glob(os.path.join(TOP, own)))
    found = []
    for path in paths:
        with open(path, "rb") as file:
            found.append(file.read())
    return b"".join(found)


def command_of(study: Study, folder: str) -> list[str]:
    """A program and its words, whose files are in a folder from then on."""
    program = shutil.which(study.builds[0])
    if program is None:
        sys.exit(f"filtered.py: {study.builds[0]} isn't installed")
    if REFERENCE in study.words:
        write_genomes(folder)
    files = make_files(study, folder)
    if TEXT in study.words:
        with open(files[TEXT], "wb") as file:
            file.write(read_sources()[: study.text])
    return [program, *(files.get(it, it.replace(FOLDER, folder)) for it in study.words)]


def measure_program(name: str, rounds: int) -> Row:
    with tempfile.TemporaryDirectory(prefix="predator-filtered-") as folder:
        command, trace = command_of(PROGRAMS[name], folder), os.path.join(folder, "trace")
        record = [PREDATOR, "native", "--filtered", "--trace", trace]
        measured = functools.partial(measure_call, rounds=rounds)
        alone, none, helgrind, recorded = map(
            measured,
            (
                command,
                ["valgrind", "-q", "--tool=none", *command],
                ["valgrind", "-q", "--tool=helgrind", *command],
                [*record, "--", *command],
            ),
        )
        found, size = read_filter(trace), os.path.getsize(trace)
        recorded_long = measured([*record, "--quantum", str(LONG_QUANTUM), "--", *command])
        screen = measured([PREDATOR, "view", "native", "--", *command])
    accesses = found.whole if found else 0
    return Row(name, alone, none, helgrind, recorded, recorded_long, screen, accesses, size)


def main() -> int:
    parser = argparse.ArgumentParser(description=__doc__.split("\n\n", 1)[0])
    parser.add_argument("--rounds", type=int, default=3)
    parser.add_argument("programs", nargs="*", help=f"of {', '.join(PROGRAMS)}; all without it")
    options = parser.parse_args()
    unknown = [it for it in options.programs if it not in PROGRAMS]
    if unknown:
        parser.error(f"{unknown[0]}: the programs are {', '.join(PROGRAMS)}")
    rows = []
    for name in options.programs or list(PROGRAMS):
        rows.append(measure_program(name, options.rounds).cells())
        loads = " ".join(f"{it:.1f}" for it in os.getloadavg())
        print(f"{' | '.join(rows[-1])} (load {loads})", flush=True)
    print(markdown_table(HEADS, rows))
    return 0


if __name__ == "__main__":
    sys.exit(main())
