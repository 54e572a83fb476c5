#!/usr/bin/env python3
"""Measures what the built program is to reach, each beside sha256sum in the same run, and prints a table for
docs/BENCHMARKS.md.

Each command runs eight times in turn with sha256sum of 200 MiB, and the least times count. A run's figure is
its steps a second for each MB/s of sha256sum; a replay's is its time beside that of sha256sum of the trace.
The sort is guest/examples/checksum.c over 100,000 numbers, which wants clang and lld. Where several programs
are named, such as one of before a change and one of after it, each command runs with each of them in turn,
and each has a column. A benchmark, no test."""

import argparse
import os
import struct
import subprocess
import sys
import tempfile
import time

TOP = os.path.join(os.path.dirname(os.path.abspath(__file__)), "..")
BUILT = os.path.join(TOP, "crates/predator/out/predator")
# As the launcher has it.
os.environ.setdefault("GLIBC_TUNABLES", "glibc.malloc.hugetlb=1")
ROUNDS = 8
MADE = 20_000_000

# lui t0, 0x10; ten additions; lw t1, 1024(t0); sw t1, 1028(t0); j -48
LOOP = [0x000102B7] + [0x00138393] * 10 + [0x4002A303, 0x4062A223, 0xFD1FF06F]
# j 0, and: li a7, 1026; lui t0, 0x10; addi a0, t0, 20; ecall; bgez a0, -8; j 0, so that harts are spawned
# until none is free
ALL = [0x40200893, 0x000102B7, 0x01428513, 0x00000073, 0xFE055CE3, 0x0000006F]
# li a7, 94 last, and eight additions before: ten steps with the call
TEN = [0x00138393] * 8 + [0x05E00893, 0x00000073]


def program_file(code):
    """A program file of one segment with these instructions."""
    words = b"".join(struct.pack("<I", word) for word in code)
    header = struct.pack(
        "<4sBBB9xHHIIIIIHHHHHH",
        b"\x7fELF",
        1,
        1,
        1,
        2,
        243,
        1,
        0x10000,
        52,
        0,
        0,
        52,
        32,
        1,
        40,
        0,
        0,
    )
    return (
        header + struct.pack("<IIIIIIII", 1, 84, 0x10000, 0, len(words), len(words), 7, 4) + words
    )


def measure(words):
    """Seconds, and the most bytes of memory: not less than those of this script, some 12 MB."""
    begin = time.monotonic()
    child = subprocess.Popen(words, stdout=subprocess.DEVNULL, stderr=subprocess.DEVNULL)
    _, _, usage = os.wait4(child.pid, 0)
    return time.monotonic() - begin, usage.ru_maxrss * 1024


def write_file(path, content, times=1):
    with open(path, "wb") as out:
        for _ in range(times):
            out.write(content)
    return path


def make_files(work, program):
    """What all programs are measured over: a sort, and traces over 64 lines and over 65,536 at random."""
    sort, made, random = f"{work}/sort.elf", f"{work}/made.trace", f"{work}/random.trace"
    with open(f"{TOP}/guest/examples/checksum.c") as source:
        longer = source.read().replace("#define COUNT 2000\n", "#define COUNT 100000\n")
    build = [f"{TOP}/guest/build.sh", sort, write_file(f"{work}/sort.c", longer.encode())]
    subprocess.run(build, check=True, stdout=subprocess.DEVNULL)
    subprocess.run([f"{TOP}/bench/make_trace.py", "8000000", random, "random"], check=True)
    subprocess.run([program, "gen", str(MADE), made], check=True, stdout=subprocess.DEVNULL)
    subprocess.run(
        [program, "convert", made, f"{work}/made2.trace"], check=True, stdout=subprocess.DEVNULL
    )
    return sort, made, random


def run_words(work, program, name, code, settings):
    guest = write_file(f"{work}/{name}.elf", program_file(code))
    chosen = write_file(f"{work}/{name}.toml", settings.encode())
    return [program, "run", guest, "--settings", chosen]


def list_commands(work, program, sort, made, random):
    """The commands to be timed, by their names."""
    budget = f"budget = {MADE}\n"
    in_turn = "quantum = 1\nstack = 4096\nmemory = 4194304\n"
    loop = run_words(work, program, "loop", LOOP, budget)
    return {
        "loop": loop,
        "lone": run_words(work, program, "lone", LOOP, budget + "harts = 256\nstack = 4096\n"),
        "eight": run_words(work, program, "eight", ALL, budget + in_turn + "harts = 8\n"),
        "many": run_words(work, program, "many", ALL, budget + in_turn + "harts = 256\n"),
        "traced": loop + ["--trace", f"{work}/loop.trace"],
        "ten": run_words(work, program, "ten", TEN, ""),
        "sort": [
            program,
            "run",
            sort,
            "--settings",
            write_file(f"{work}/sort.toml", b"budget = 2000000000\n"),
        ],
        "gen": [program, "gen", str(MADE), f"{work}/again.trace"],
        "replay": [program, "replay", made],
        "random": [program, "replay", random],
        "replay2": [program, "replay", f"{work}/made2.trace"],
        "convert": [program, "convert", made, f"{work}/again.trace"],
        "split": [
            program,
            "split",
            made,
            str(MADE // 2),
            f"{work}/again.trace",
            f"{work}/rest.trace",
        ],
        "nothing": ["true"],
    }


def count_steps(words):
    output = subprocess.run(words, capture_output=True, text=True).stdout
    return int(output.split("steps ")[1].split()[0])


def format_figures(least, peak, rate, sizes, steps):
    """What was measured of one program, row by row, as it stands in the table."""
    made, random = sizes
    per = {
        name: MADE / least[name] / 1e6 / rate
        for name in ("loop", "lone", "eight", "many", "traced")
    }
    per["sort"] = steps / least["sort"] / 1e6 / rate
    beside = {name: least[name] * rate * 1e6 / made for name in ("replay", "convert", "split")}
    beside["random"] = least["random"] * rate * 1e6 / random
    return [
        f"{per['loop']:.2f} M steps for each MB/s",
        f"{per['lone'] / per['loop']:.2f} of it",
        f"{per['eight']:.2f} M steps for each MB/s",
        f"{per['many']:.2f} M steps for each MB/s",
        f"{per['traced']:.2f} M steps for each MB/s",
        f"{least['ten'] * 1e3:.1f} ms (`true` takes {least['nothing'] * 1e3:.1f})",
        f"{per['sort']:.2f} M steps for each MB/s",
        f"{beside['replay']:.2f} times `sha256sum`, {peak['replay'] / 1e6:.1f} MB",
        f"{beside['random']:.2f} times `sha256sum`, {peak['random'] / 1e6:.1f} MB",
        f"{least['gen'] / least['replay']:.2f} times that replay, {peak['gen'] / 1e6:.1f} MB",
        f"{least['replay2'] / least['replay']:.2f} times that replay",
        f"{beside['convert'] / 2:.2f} times `sha256sum` for each of two readings",
        f"{beside['split'] / 2:.2f} times `sha256sum` for each of two readings",
    ]


def row_aims(steps):
    """What each row is, and its aim."""
    return [
        ("`run` with a report, a loop with one access in seven steps", "0.75"),
        ("the same with `harts = 256`", "0.9"),
        ("8 harts in turn with a quantum of 1", "0.50"),
        ("256 harts in turn with a quantum of 1", "0.20"),
        ("`run` with a report and a trace", "0.60"),
        ("a program of ten steps, usual settings", "3 ms"),
        (f"a sort of 100,000 numbers, {steps / 1e6:.0f} M steps, with a report", "0.50"),
        ("`replay` of 20,000,000 generated accesses", "1.0"),
        ("`replay` of 8,000,000 over 65,536 lines at random", "6"),
        ("`gen` of 20,000,000", "2"),
        ("the same accesses in version 2", "none"),
        ("`convert` of them", "1.2"),
        ("`split` of them in the middle", "1.2"),
    ]


def main(programs):
    with tempfile.TemporaryDirectory() as work:
        sort, made, random = make_files(work, programs[-1])
        found = {program: list_commands(work, program, sort, made, random) for program in programs}
        digest = ["sha256sum", write_file(f"{work}/bytes", os.urandom(1 << 20), 200)]
        least, peak, digests = {it: {} for it in programs}, {it: {} for it in programs}, []
        for _ in range(ROUNDS):
            digests.append(measure(digest)[0])
            for name in found[programs[0]]:
                for path in programs:
                    took, memory = measure(found[path][name])
                    least[path][name] = min(took, least[path].get(name, took))
                    peak[path][name] = max(memory, peak[path].get(name, 0))
        rate = (200 << 20) / min(digests) / 1e6
        steps = count_steps(found[programs[0]]["sort"])
        sizes = os.path.getsize(made), os.path.getsize(random)
    columns = [format_figures(least[it], peak[it], rate, sizes, steps) for it in programs]
    print(f"sha256sum: {rate:.0f} MB/s\n")
    for name, built in zip("ABCDEFGH", programs):
        print(f"{name}: {built}")
    names = list("ABCDEFGH"[: len(programs)]) if len(programs) > 1 else ["Measured"]
    print("\n| Work | " + " | ".join(names) + " | Aim |\n|" + "---|" * (len(names) + 2))
    for (work, aim), *cells in zip(row_aims(steps), *columns):
        print("| " + " | ".join([work, *cells, aim]) + " |")


if __name__ == "__main__":
    parser = argparse.ArgumentParser(
        description=__doc__, formatter_class=argparse.RawDescriptionHelpFormatter
    )
    parser.add_argument(
        "programs", nargs="*", metavar="PROGRAM", help="the programs (the built one)"
    )
    chosen = [os.path.abspath(it) for it in parser.parse_args().programs] or [BUILT]
    if not all(os.access(it, os.X_OK) for it in chosen):
        sys.exit("bench: build the program first: bin/predator replay examples/counters.trace")
    main(chosen)
