#!/usr/bin/env python3
"""Builds Debian's allocators, unchanged, into one workload, runs it, and prints where blocks of two threads
meet. fetch.sh has fetched the sources."""

import argparse
import os
import subprocess
import sys
import tempfile

HERE = os.path.dirname(os.path.abspath(__file__))
sys.path.insert(0, os.path.join(HERE, "..", "studies"))
from report import BUILT, PROGRAM, TOP, Run, renew_document, markdown_table  # noqa: E402

SETTINGS = "memory = 67108864\n"
KIT = "the kit's `malloc`"
SHIM = [os.path.join(HERE, "shim", "shim.c")]
FETCHED = os.path.join(HERE, "fetched")
# Each allocator's sources, and the flags that its own documents name for a release with locks.
ALLOCATORS = {
    KIT: ([], []),
    "dlmalloc 2.8.3": (
        [*SHIM, os.path.join(FETCHED, "dlmalloc", "src", "dlmalloc.c")],
        ["-DMALLOC=dlmalloc", "-DFREE=dlfree", "-DUSE_DL_PREFIX", "-DUSE_LOCKS"],
    ),
    "mimalloc 2.0.9": (
        [*SHIM, os.path.join(FETCHED, "mimalloc", "src", "static.c")],
        [
            "-DMALLOC=mi_malloc",
            "-DFREE=mi_free",
            "-DNDEBUG",
            "-I",
            os.path.join(FETCHED, "mimalloc", "include"),
        ]
        # (picolibc declares its clocks where these are defined)
        + ["-D_POSIX_TIMERS", "-D_POSIX_MONOTONIC_CLOCK", "-w"],
    ),
}
WORKLOADS = {"own": [], "handed over": ["-DPASSED"]}


def build(out, sources, flags):
    words = [
        os.path.join(TOP, "guest", "build.sh"),
        out,
        os.path.join(HERE, "workload.c"),
        *sources,
        "--",
    ]
    words += ["-g0", "-I", os.path.join(HERE, "shim"), "-I", os.path.join(TOP, "guest"), *flags]
    subprocess.run(words, check=True, env={**os.environ, "KIT": "c", "PLAIN": "yes"})


def heap_begin(path):
    """Where the heap begins."""
    ran = subprocess.run([PROGRAM, "check", path], stdout=subprocess.PIPE, text=True, check=True)
    return next(int(it.split()[1], 16) for it in ran.stdout.split("\n") if it.startswith("heap"))


def threads_by_line(output):
    """The threads whose blocks stand on each line of 64 bytes, at the end."""
    found = {}
    for words in (it.split() for it in output.split("\n") if it.startswith("block ")):
        first, size, thread = int(words[1], 16), int(words[2]), int(words[3])
        for base in range(first & -64, first + size, 64):
            found.setdefault(base, set()).add(thread)
    return found


def table_row(name, workload, run, heap):
    threads = threads_by_line(run.output)
    of_heap = [it for it in run.report.lines_of_kind("observed") if it.base >= heap]
    others = [it for it in run.report.lines_of_kind("observed") if it.base < heap]
    met = [it for it in threads if len(threads[it]) > 1]
    return [
        name,
        workload,
        len(threads),
        len(met),
        len(of_heap),
        sum(it.count for it in of_heap),
        len(others),
        sum(it.count for it in others),
        run.excerpt_title(),
    ]


def main():
    parser = argparse.ArgumentParser(
        description=__doc__, formatter_class=argparse.RawDescriptionHelpFormatter
    )
    choice = parser.add_mutually_exclusive_group()
    choice.add_argument("--renew", action="store_true", help="put the table into docs/STUDIES.md")
    choice.add_argument(
        "--build",
        action="store_true",
        help=(
            "only build the allocators' programs in which each thread asks for its first blocks itself:"
            " guest/built/studies/dlmalloc.elf and mimalloc.elf"
        ),
    )
    call = parser.parse_args()
    if not os.path.isdir(os.path.join(FETCHED, "mimalloc")):
        sys.exit("run.py: guest/allocators/fetch.sh fetches the allocators' sources first")
    if call.build:
        for name in (it for it in ALLOCATORS if it != KIT):
            build(os.path.join(BUILT, f"{name.split()[0]}.elf"), *ALLOCATORS[name])
        return 0
    rows, wrong = [], 0
    with tempfile.TemporaryDirectory() as work:
        for name, (sources, flags) in ALLOCATORS.items():
            for workload, more in WORKLOADS.items():
                path = os.path.join(work, "workload.elf")
                build(path, sources, flags + more)
                run = Run(path, SETTINGS)
                wrong += len(run.wrong)
                rows.append(table_row(name, workload, run, heap_begin(path)))
    heads = [
        "Allocator",
        "First blocks",
        "Lines with blocks",
        "of two threads",
        "Observed on the heap",
        "Invalidations",
    ]
    parts = {
        "allocators": markdown_table(
            [*heads, "Observed elsewhere", "Invalidations", "Recount"], rows
        ),
    }
    for name, text in parts.items():
        print(f"\n== {name}\n\n{text}")
    if call.renew:
        renew_document(parts)
    return 1 if wrong else 0


sys.exit(main())
