#!/usr/bin/env python3
"""Tries what a terminal is shown of long work: that each line has the right numbers in the right places.

It lets PROGRAM make a trace, replay it, and run a guest that never ends, each of a size that lasts some SECONDS
here, with a pseudo terminal as standard error. A line is wanted about once a second: its second number is
the whole, and its first one grows towards it as time goes by. Into a file nothing may be shown. It ends with
1 where a line is wrong, or none came."""

import argparse
import os
import pty
import re
import struct
import subprocess
import sys
import tempfile
import threading
import time
from typing import Callable, Iterator

# A name, the words of a call, its status, the form of its lines, what the work comes to, and whether a line has that.
Try = tuple[str, list[str], int, re.Pattern[str], Callable[[], int], bool]
READ = re.compile(r"predator: (\d+) of (\d+) MiB read")
WRITTEN = re.compile(r"predator: (\d+) MiB written")
STEPS = re.compile(r"predator: (\d+) of at most (\d+) million steps")
# `j 0`, in a segment of its own.
LOOP = struct.pack(
    "<4sBBB9xHHIIIIIHHHHHH", b"\x7fELF", 1, 1, 1, 2, 243, 1, 0x10000, 52, 0, 0, 52, 32, 1, 40, 0, 0
)
LOOP += struct.pack("<IIIIIIII", 1, 84, 0x10000, 0, 4, 4, 5, 4) + struct.pack("<I", 0x6F)


def record_terminal(words: list[str]) -> tuple[str, float, int]:
    """What the program shows on a terminal, the seconds that it took, and its status."""
    ours, theirs = pty.openpty()
    said = []

    def listen() -> None:
        try:
            while part := os.read(ours, 4096):
                said.append(part)
        except OSError:
            pass

    began = time.monotonic()
    ran = subprocess.Popen(
        words, stdin=subprocess.DEVNULL, stdout=subprocess.DEVNULL, stderr=theirs
    )
    os.close(theirs)
    listener = threading.Thread(target=listen)
    listener.start()
    status = ran.wait()
    took = time.monotonic() - began
    listener.join()
    os.close(ours)
    return b"".join(said).decode(errors="replace"), took, status


def find_faults(
    what: str, shown: str, took: float, form: re.Pattern[str], whole: int, has_total: bool
) -> list[str]:
    """What is wrong with the lines of a form. `whole` is what the work comes to, and `has_total` whether a line
    has that too."""
    lines = [list(map(int, it.groups())) for it in form.finditer(shown)]
    if not lines:
        return [f"{what}: no line in {took:.1f} s, but {shown[:200]!r}"]
    done = [it[0] for it in lines]
    found = []
    if has_total and any(it[1] != whole for it in lines):
        found.append(f"{what}: {lines} don't add up to the whole, {whole}")
    if done != sorted(set(done)) or done[-1] > whole:
        found.append(f"{what}: {done} don't grow towards {whole}")
    # The last line came at most a second and a piece of the work before the end.
    if done[-1] < whole * max(0, took - 1.5) / took / 2:
        found.append(
            f"{what}: {done[-1]} of {whole} is too little for the last line in {took:.1f} s"
        )
    return found


def scale_work(seconds: float, few: int, words: Callable[[int], list[str]]) -> int:
    """How much work lasts so many seconds here, by the time that little of it takes."""
    began = time.monotonic()
    subprocess.run(
        words(few),
        stdin=subprocess.DEVNULL,
        stdout=subprocess.DEVNULL,
        stderr=subprocess.DEVNULL,
        check=False,
    )
    return int(few * seconds / (time.monotonic() - began))


def list_tries(program: str, seconds: float, folder: str) -> Iterator[Try]:
    trace, guest = (os.path.join(folder, it) for it in ("trace", "guest"))
    with open(guest, "wb") as file:
        file.write(LOOP)
    accesses = scale_work(seconds, 4_000_000, lambda n: [program, "gen", str(n), trace])
    yield "gen", ["gen", str(accesses), trace], 0, WRITTEN, lambda: os.path.getsize(
        trace
    ) // 2**20, False
    yield "replay", ["replay", trace], 0, READ, lambda: os.path.getsize(trace) // 2**20, True
    steps = scale_work(
        seconds, 64_000_000, lambda n: [program, "run", guest, "--set", f"budget={n}"]
    )
    yield "run", [
        "run",
        guest,
        "--set",
        f"budget={steps}",
    ], 10, STEPS, lambda: steps // 1_000_000, True


def main() -> int:
    parser = argparse.ArgumentParser(
        description=__doc__, formatter_class=argparse.RawDescriptionHelpFormatter
    )
    parser.add_argument("program", metavar="PROGRAM")
    parser.add_argument(
        "seconds", nargs="?", type=float, default=3.0, metavar="SECONDS", help="(3)"
    )
    call = parser.parse_args()
    program, found = str(call.program), []
    with tempfile.TemporaryDirectory() as folder:
        for what, words, wanted, form, whole, has_total in list_tries(
            program, call.seconds, folder
        ):
            shown, took, status = record_terminal([program, *words])
            if status != wanted:
                found.append(f"{what}: it ended with {status}")
            faults = find_faults(what, shown, took, form, whole(), has_total)
            found += faults
            print(
                f"{what}: {len(form.findall(shown))} lines in {took:.1f} s{', wrong' if faults else ''}"
            )
            quiet = subprocess.run(
                [program, *words],
                stdin=subprocess.DEVNULL,
                stdout=subprocess.DEVNULL,
                stderr=subprocess.PIPE,
                check=False,
            )
            if form.search(quiet.stderr.decode(errors="replace")):
                found.append(f"{what}: a line is shown where no terminal is")
    print(*found, sep="\n", end="\n" if found else "")
    return 1 if found else 0


if __name__ == "__main__":
    sys.exit(main())
