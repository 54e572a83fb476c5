#!/usr/bin/env python3
"""What a hart accesses between its marks, as marked.c and cleared.c set them.

WHAT is `quiet`: nothing; `reads ADDRESS ..`: in some call the word at one of these ten times running, but for words
of stacks, and it doesn't write it. `cleared ADDRESS WORDS`: each of so many words from there on is read, and
every other one written. The status is 0 exactly if it is so, of one call at least."""

import argparse
import os
import subprocess
import sys

sys.path.insert(0, os.path.join(os.path.dirname(os.path.abspath(__file__)), "../../../tools"))
from traces import read_accesses  # noqa: E402

# Where the stacks of 128 harts begin, with the memory that claims.sh gives a program.
STACKS = 0x4010000 - 128 * 65536


def mark_addresses(program):
    """The addresses of the two words."""
    text = subprocess.run(["llvm-nm", program], capture_output=True, text=True, check=True).stdout
    symbols = {it[2]: int(it[0], 16) for it in map(str.split, text.splitlines()) if len(it) == 3}
    return symbols["call_begins"], symbols["call_ends"]


def marked_calls(program, trace):
    """The accesses of each call, each as (address, whether it writes)."""
    begins, ends = mark_addresses(program)
    inside = {}
    with open(trace, "rb") as file:
        for hart, addr, is_write in read_accesses(file.read()):
            if addr == ends:
                yield inside.pop(hart)
            elif addr == begins:
                inside[hart] = []
            elif hart in inside:
                inside[hart].append((addr, is_write))


def is_waiting(call, words):
    """Whether it reads one of these words again and again."""
    now, last = 0, None
    for addr, is_write in (it for it in call if it[0] < STACKS):
        now = 0 if is_write else now + 1 if addr == last else 1
        last = addr
        if now == 10:
            return addr in words and (addr, True) not in call
    return False


def check_claim(what, seen, numbers):
    if what == "quiet":
        return not any(seen)
    if what == "reads":
        return any(is_waiting(it, numbers) for it in seen)
    addr, words = numbers
    area = range(addr, addr + 4 * words, 4)
    read, written = (
        {it for it, is_write in seen[0] if is_write == kind and it in area}
        for kind in (False, True)
    )
    return read == {*area} and written == {*area[1::2]}


def main():
    parser = argparse.ArgumentParser(
        description=__doc__, formatter_class=argparse.RawDescriptionHelpFormatter
    )
    parser.add_argument("program", metavar="PROGRAM")
    parser.add_argument("trace", metavar="TRACE")
    parser.add_argument("what", metavar="WHAT")
    parser.add_argument("numbers", nargs="*", type=lambda text: int(text, 0), metavar="NUMBER")
    call = parser.parse_args()
    seen = list(marked_calls(call.program, call.trace))
    print(f"{len(seen)} calls, {sum(map(len, seen))} accesses")
    return 0 if seen and check_claim(call.what, seen, call.numbers) else 1


if __name__ == "__main__":
    sys.exit(main())
