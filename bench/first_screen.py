#!/usr/bin/env python3
"""Measures a first screen of `view` of a trace of 20,000,000 accesses beside `replay` of the same trace, and
compares that with the aim.

Two of the programs of view/tests make that many accesses, as guests: statistics of workers, and a deque of
work, whose struct has many fields. Each trace is in versions 1, 2 and 3. Both commands run in turn, and the
middle of what each takes counts: the time of the processors (of all processes that the command waits for) and
the time that passes. On a busy machine the first says more. It needs the packages of the guest kit and of
`view`. A benchmark, no test."""

import argparse
import os
import re
import resource
import statistics
import subprocess
import sys
import tempfile
import time

TOP = os.path.abspath(os.path.join(os.path.dirname(os.path.abspath(__file__)), ".."))
PREDATOR = os.path.join(TOP, "bin", "predator")
# What each program has a number of, how many make 20,000,000 accesses, and the steps of a turn.
PROGRAMS = {"workers": ("ROUNDS", 1_180_000, 100), "deque": ("TASKS", 722_000, 3)}
AIM = 6


def make_traces(name: str, folder: str) -> list[str]:
    """The traces of a program's run, in each version, and its own file behind them."""
    many, count, quantum = PROGRAMS[name]
    source, elf = (os.path.join(folder, f"{name}.{it}") for it in ("c", "elf"))
    with open(
        os.path.join(TOP, "view", "tests", "programs", "known", f"{name}.c"), encoding="utf-8"
    ) as file:
        text = re.sub(rf"(#define {many}) \d+", rf"\1 {count}", file.read())
    with open(source, "w", encoding="utf-8") as file:
        file.write(text)
    subprocess.run([os.path.join(TOP, "guest", "build.sh"), elf, source], check=True)
    first, second, third = (os.path.join(folder, f"{name}.{it}") for it in (1, 2, 3))
    for trace, pcs in ((first, []), (third, ["--pcs"])):
        words = [
            "run",
            elf,
            "--set",
            f"quantum={quantum},budget=200000000",
            *pcs,
            "--trace",
            trace,
            "--output",
            os.devnull,
        ]
        subprocess.run(
            [PREDATOR, *words], stdout=subprocess.DEVNULL, stderr=subprocess.DEVNULL, check=True
        )
    subprocess.run([PREDATOR, "convert", first, second], stdout=subprocess.DEVNULL, check=True)
    return [first, second, third, elf]


def measure(words: list[str]) -> tuple[float, float]:
    """The time of the processors that a call takes, and the time that passes."""
    before, began = resource.getrusage(resource.RUSAGE_CHILDREN), time.monotonic()
    subprocess.run([PREDATOR, *words], stdout=subprocess.DEVNULL, check=True)
    after, passed = resource.getrusage(resource.RUSAGE_CHILDREN), time.monotonic() - began
    return after.ru_utime + after.ru_stime - before.ru_utime - before.ru_stime, passed


def main() -> int:
    parser = argparse.ArgumentParser(
        description=__doc__, formatter_class=argparse.RawDescriptionHelpFormatter
    )
    parser.add_argument(
        "rounds", nargs="?", type=int, default=5, help="how often both commands run (5)"
    )
    rounds, worst = parser.parse_args().rounds, 0.0
    with tempfile.TemporaryDirectory() as folder:
        for name in PROGRAMS:
            *own, elf = make_traces(name, folder)
            for version, trace in enumerate(own, 1):
                calls = ["replay", trace], ["view", "replay", trace, "--program", elf]
                times = [[measure(it) for it in calls] for _ in range(rounds)]
                replay, view = (
                    [statistics.median(it[at][of] for it in times) for of in (0, 1)]
                    for at in (0, 1)
                )
                ratios = [it / other for it, other in zip(view, replay)]
                worst = max(worst, ratios[0])
                parts = (
                    f"{spent:.2f} s{of}, {ratio:.1f} times"
                    for spent, of, ratio in zip(view, (" of processors", ""), ratios)
                )
                print(f"{name}, version {version}: {'; '.join(parts)}")
                os.unlink(trace)
    print(
        f"at most {worst:.1f} times a replay's time of processors, the aim is {AIM}{'' if worst <= AIM else ': missed'}"
    )
    return 0


if __name__ == "__main__":
    sys.exit(main())
