#!/usr/bin/env python3
"""Refuses memory to the built program, one allocation of a call after the other, and looks at how the call
ends.

Each call is made once with all memory, and then with its first allocation refused, with its second one, and
so on. It must end with status 9, print nothing but `predator: no memory` behind a front of what it prints
else, and leave a front of each file that it writes; or it goes on without that memory, and ends, prints and
writes as before. It needs a C compiler. bin/try calls it."""

import argparse
import os
import subprocess
import sys
import tempfile

TOP = os.path.join(os.path.dirname(os.path.abspath(__file__)), "..")
sys.path.insert(0, os.path.join(TOP, "tools"))

from commands import example_call as call_of, read_commands  # noqa: E402
from traces import add_pcs  # noqa: E402

PROGRAM = os.path.abspath(
    os.environ.get("PREDATOR_PROGRAM") or os.path.join(TOP, "crates/predator/out/predator")
)
DATA = os.path.join(TOP, "crates/worked_runs/data")
LINE = b"predator: no memory\n"

# What stands before the C library: the calls are counted, and one of them fails.
SHIM = r"""
#define _GNU_SOURCE
#include <dlfcn.h>
#include <stdio.h>
#include <stdlib.h>
#include <unistd.h>

static long made, refused;

static int is_refused(void)
{
    if (refused == 0) {
        const char *word = getenv("REFUSED");
        refused = word ? atol(word) : -1;
    }
    return ++made == refused;
}

void *malloc(size_t size)
{
    static void *(*real)(size_t);
    if (!real)
        real = (void *(*)(size_t))dlsym(RTLD_NEXT, "malloc");
    return is_refused() ? NULL : real(size);
}

void *realloc(void *old, size_t size)
{
    static void *(*real)(void *, size_t);
    if (!real)
        real = (void *(*)(void *, size_t))dlsym(RTLD_NEXT, "realloc");
    return is_refused() ? NULL : real(old, size);
}

__attribute__((destructor)) static void write_count(void)
{
    const char *name = getenv("COUNT_FILE");
    FILE *out = name ? fopen(name, "w") : NULL;
    if (out) {
        fprintf(out, "%ld", made);
        fclose(out);
    }
}
"""

# Calls with files of their own. Each other command has its call in commands.toml, with these in the place of
# its names.
OWN = [
    ("run", "allocates.elf", "--settings", "S", "--trace", "t", "--output", "o"),
    ("run", "queue.elf", "--trace", "t"),
    ("run", "queue.elf", "--trace", "t", "--pcs"),
    ("run", "words.elf", "--schedule", "C", "--output", "o"),
    ("replay", "given.trace", "--settings", "S"),
    ("gen", "2000", "f"),
    ("split", "given.trace", "40", "a", "b"),
    ("place", "objects.trace", "both"),
    ("blame", "sited.trace"),
    ("filter", "sited.trace", "f", "--near", "64"),
    ("explain", "queue.elf", "0x12000", "64", "73", "--set", "quantum=10"),
]
# What is refused, is so also where memory runs out later.
REFUSED = [
    (),
    ("replay", "given.trace", "--size", "3"),
    ("run", "table", "--trace", "t"),
    ("run", "words.elf", "--settings", "C", "--trace", "t"),
    ("run", "words.elf", "--schedule", "S", "--trace", "t"),
    ("replay", "table", "--settings", "S"),
    ("replay", "given.trace", "--resume", "table"),
    ("convert", "cut.trace", "c"),
    ("place", "objects.trace", "none"),
    ("move", "given.trace", "S", "m"),
    ("move", "given.trace", "taken", "m"),
    ("move", "cut.trace", "table", "m"),
    ("blame", "given.trace"),
    ("filter", "given.trace", "f"),
]
NAMES = {"PROGRAM": "symbols.elf", "TRACE": "given.trace", "TABLE": "table"}
OWN_NAMES = {words[0] for words in OWN}
CALLS = (
    OWN
    + REFUSED
    + [
        tuple(call_of(command, **NAMES))
        for command in read_commands()["command"]
        if command["name"] not in OWN_NAMES
    ]
)
WRITTEN = ("t", "o", "f", "a", "b")


def list_files():
    found = {}
    for name in WRITTEN:
        if os.path.exists(name):
            with open(name, "rb") as file:
                found[name] = file.read()
            os.remove(name)
    return found


def run_call(words, refused):
    """How the call ends, what it prints and writes, and how many allocations it made."""
    chosen = dict(
        os.environ,
        LD_PRELOAD=os.path.abspath("shim.so"),
        REFUSED=str(refused),
        COUNT_FILE=os.path.abspath("count"),
    )
    ran = subprocess.run([PROGRAM, *words], env=chosen, capture_output=True)
    with open("count") as made:
        return ran.returncode, ran.stdout, list_files(), int(made.read())


def is_front(part, whole):
    return all(name in whole and whole[name].startswith(content) for name, content in part.items())


def judge(status, text, written, good):
    """Whether a call to which memory was refused ended well: None, or what is wrong."""
    if status == 9:
        front = text.removesuffix(LINE)
        if front == text or not good[1].startswith(front):
            return f"it printed {text[-80:]!r}"
        return None if is_front(written, good[2]) else "a file is no front of what it would be"
    if (status, text, written) == good[:3]:
        return None
    return f"it ended with {status} and another text or file"


def try_call(words):
    good = run_call(words, -1)
    ended, went_on, wrong = 0, 0, 0
    for number in range(1, good[3] + 1):
        status, text, written, _ = run_call(words, number)
        fault = judge(status, text, written, good)
        if fault:
            wrong += 1
            print(f"{' '.join(words)}, allocation {number}: {fault}")
        elif status == 9:
            ended += 1
        else:
            went_on += 1
    print(
        f"{' '.join(words)}: status {good[0]}, {good[3]} allocations; refused, {ended} ended with 9"
        f" and {went_on} went on"
    )
    return wrong


def main():
    with tempfile.TemporaryDirectory() as work:
        os.chdir(work)
        for name in ("allocates.elf", "queue.elf", "words.elf", "symbols.elf"):
            os.symlink(os.path.join(DATA, name), name)
        with open("S", "w") as out:
            out.write("tracking = 1\nprediction = 1\nreport = 1\n")
        with open("C", "w") as out:
            out.write("0 50\n1 30\n")
        for name, line in (("table", "0 4 0xfffffffc\n"), ("taken", "0 4 0x1028c\n")):
            with open(name, "w") as out:
                out.write(line)
        with open("shim.c", "w") as out:
            out.write(SHIM)
        subprocess.run(
            ["cc", "-shared", "-fPIC", "-O1", "-o", "shim.so", "shim.c", "-ldl"], check=True
        )
        for words in (
            ("gen", "200", "given.trace"),
            ("run", "words.elf", "--trace", "objects.trace"),
        ):
            subprocess.run([PROGRAM, *words], check=True, stdout=subprocess.DEVNULL)
        with open("given.trace", "rb") as given, open("sited.trace", "wb") as out:
            # (so many instructions that lines of many pairs are there)
            trace = given.read()
            out.write(
                add_pcs(
                    trace, lambda access, before: 0x10000 + 4 * (access.hart + access.addr // 4 % 8)
                )
            )
        with open("cut.trace", "wb") as out:
            out.write(trace[:-30])
        sys.exit(1 if sum(try_call(words) for words in CALLS) else 0)


argparse.ArgumentParser(
    description=__doc__, formatter_class=argparse.RawDescriptionHelpFormatter
).parse_args()
if not os.access(PROGRAM, os.X_OK):
    sys.exit(
        "refuse_memory.py: build the program first: bin/predator replay examples/counters.trace"
    )
main()
