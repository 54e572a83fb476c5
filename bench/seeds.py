#!/usr/bin/env python3
"""Measures what drawn turns cost: how much longer a step takes under the seed 1 than under the usual
schedule.

Three guests, each with 8 harts and turns of 1, 10 and 100 steps: harts that jump to themselves, so that a
step is little but its turn; harts in a loop of ten arithmetic instructions, a load, a store and the jump
back; and guest/built/counters.elf. Both seeds run by turns, ROUNDS times (9; 0 takes no times), and the least
user times count. Where valgrind is there, the machine instructions of a step of the first two are counted
too, which a busy machine doesn't change, as the difference of two runs. A benchmark, no test."""

import argparse
import os
import re
import shutil
import subprocess
import tempfile

from aims import ALL, BUILT, LOOP, TOP, program_file, write_file

PROGRAM = os.environ.get("PREDATOR_PROGRAM") or BUILT
STEPS, FEW = 20_000_000, (100_000, 300_000)
USUAL = "harts = 8\nstack = 4096\nmemory = 4194304\n"
COUNTERS = os.path.join(TOP, "guest/built/counters.elf")


def run_words(work, guest, quantum, seed, budget):
    settings = write_file(
        f"{work}/{quantum}-{seed}-{budget}.toml",
        f"{USUAL}budget = {budget}\nquantum = {quantum}\nseed = {seed}\n".encode(),
    )
    return [PROGRAM, "run", guest, "--settings", settings]


def measure_step(words):
    """Nanoseconds of a processor that a step took, in the program itself."""
    child = subprocess.Popen(
        words, stdout=subprocess.PIPE, stderr=subprocess.DEVNULL, encoding="utf-8"
    )
    with child.stdout:
        steps = int(re.search(r"^steps (\d+)", child.stdout.read(), re.MULTILINE).group(1))
    _, _, usage = os.wait4(child.pid, 0)
    return usage.ru_utime / steps * 1e9


def count_instructions(work, words):
    """Machine instructions of the whole run."""
    ran = subprocess.run(
        ["valgrind", "--tool=callgrind", f"--callgrind-out-file={work}/out", *words],
        capture_output=True,
        encoding="utf-8",
    )
    return int(re.search(r"Collected : (\d+)", ran.stderr).group(1))


def ratio_text(usual, drawn):
    return [f"{usual:.1f}", f"{drawn:.1f}", f"{drawn / usual:.2f}"]


def compare_times(work, guest, quantum, rounds):
    runs = [run_words(work, guest, quantum, seed, STEPS) for seed in (0, 1)]
    return ratio_text(
        *(min(it) for it in zip(*([measure_step(words) for words in runs] for _ in range(rounds))))
    )


def compare_instructions(work, guest, quantum):
    found = (
        [count_instructions(work, run_words(work, guest, quantum, seed, budget)) for budget in FEW]
        for seed in (0, 1)
    )
    return ratio_text(*((many - few) / (FEW[1] - FEW[0]) for few, many in found))


def main(rounds):
    with tempfile.TemporaryDirectory() as work:
        turns, loop = (
            write_file(f"{work}/{name}.elf", program_file(code))
            for name, code in (("turns", ALL), ("loop", ALL[:-1] + LOOP))
        )
        print(
            "| Guest | `quantum` | ns a step, seed 0 | seed 1 | Ratio | Instructions a step, seed 0 | seed 1 | Ratio |"
        )
        print("|---|---|---|---|---|---|---|---|", flush=True)
        for name, guest in (("turns alone", turns), ("a loop", loop), ("counters", COUNTERS)):
            for quantum in (1, 10, 100):
                row = compare_times(work, guest, quantum, rounds) if rounds else ["-"] * 3
                row += (
                    compare_instructions(work, guest, quantum)
                    if shutil.which("valgrind") and guest != COUNTERS
                    else ["-"] * 3
                )
                print("|", " | ".join([name, str(quantum), *row]), "|", flush=True)


if __name__ == "__main__":
    parser = argparse.ArgumentParser(
        description=__doc__, formatter_class=argparse.RawDescriptionHelpFormatter
    )
    parser.add_argument(
        "rounds",
        nargs="?",
        type=int,
        default=9,
        metavar="ROUNDS",
        help="how often both seeds run (9)",
    )
    main(parser.parse_args().rounds)
