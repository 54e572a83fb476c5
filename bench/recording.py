#!/usr/bin/env python3
"""Measures what recording a program of this machine costs, beside tools of valgrind: recording.py [--runs N]
[PROGRAM ..].

Prints a row for each program: its own processor time and that under `none`, `lackey` (with all accesses),
`helgrind`, and `predator native` at quanta of 1000, 100 and 10, whole and filtered, with the trace on disk. Each
is user and system time of all processes, the least of N runs (3); the last line says how busy the machine was.
(Debian: apt-get install gcc pigz valgrind zstd, and `predator native --build`)"""

import argparse
import os
import shutil
import subprocess
import sys
import tempfile
import time

TOP = os.path.dirname(os.path.dirname(os.path.abspath(__file__)))
sys.path.insert(0, os.path.join(TOP, "native", "others"))
from study import make_text  # noqa: E402

RECORDER = os.path.join(TOP, "native", "predator-native")
QUANTA = (1000, 100, 10)
# A program's words; TEXT is a file of so many bytes.
TEXT_BYTES = 2_000_000
PROGRAMS = {
    "counters": ["./counters", "4", "1500000"],
    "zstd -T4": ["zstd", "-1", "-T4", "-B131072", "-q", "-c", "TEXT"],
    "pigz -p4": ["pigz", "-p", "4", "-c", "TEXT"],
}


def commands(words: list[str]) -> dict[str, list[str]]:
    """The calls that are measured, by what the table calls them."""
    program = shutil.which(words[0]) or sys.exit(f"recording.py: {words[0]} isn't installed")
    own = [program, *words[1:]]
    valgrind = ["valgrind", "-q"]
    found = {
        "itself": own,
        "none": [*valgrind, "--tool=none", *own],
        "lackey": [*valgrind, "--tool=lackey", "--trace-mem=yes", "--log-file=/dev/null", *own],
        "helgrind": [*valgrind, "--tool=helgrind", "--log-file=/dev/null", *own],
    }
    for way in ("", " filtered"):
        for quantum in QUANTA:
            options = ["--quantum", str(quantum), *(["--filtered"] if way else [])]
            found[f"{quantum}{way}"] = [RECORDER, *options, "--trace", "trace", "--", *own]
    return found


def processor_seconds(words: list[str]) -> float:
    """The time of one call and of all that it started."""
    run = subprocess.Popen(words, stdout=subprocess.DEVNULL, stderr=subprocess.DEVNULL)
    _, status, used = os.wait4(run.pid, 0)
    run.returncode = os.waitstatus_to_exitcode(status)
    if run.returncode:
        sys.exit(f"recording.py: {' '.join(words)} ended with {run.returncode}")
    return used.ru_utime + used.ru_stime


def measure(words: list[str], count: int) -> dict[str, float]:
    calls = commands(words)
    runs = [{name: processor_seconds(call) for name, call in calls.items()} for _ in range(count)]
    return {name: min(it[name] for it in runs) for name in calls}


def main() -> None:
    words = argparse.ArgumentParser(usage=__doc__)
    words.add_argument("--runs", type=int, default=3)
    words.add_argument("names", nargs="*", metavar="PROGRAM")
    given = words.parse_args()
    with tempfile.TemporaryDirectory() as folder:
        os.chdir(folder)
        source = os.path.join(TOP, "native", "tries", "counters.c")
        subprocess.run(["gcc", "-O1", "-g", "-pthread", source, "-o", "counters"], check=True)
        with open("TEXT", "wb") as file:
            file.write(make_text(TEXT_BYTES))
        for at, name in enumerate(given.names or PROGRAMS):
            found = measure(PROGRAMS[name], given.runs)
            if at == 0:
                print(f"| Program | {' | '.join(found)} |\n|---{len(found) * '|---'}|")
            print(f"| {name} | {' | '.join(f'{it:.2f}' for it in found.values())} |", flush=True)
        os.chdir("/")
    load = ", ".join(f"{it:.0f}" for it in os.getloadavg())
    print(f"{time.strftime('%Y-%m-%d')}, {os.cpu_count()} processors, load {load}")


if __name__ == "__main__":
    main()
