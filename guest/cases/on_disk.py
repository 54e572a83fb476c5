#!/usr/bin/env python3
"""Plays the cases of crates/worked_runs/data with the built program over real files.

It says which calls end otherwise than their case says, and ends with 1 if any does. With --renew it puts into
the cases what the program printed and answered: read the difference line by line before it is committed,
since a case says what is right."""

import argparse
import os
import struct
import subprocess
import sys
import tempfile

HERE = os.path.dirname(os.path.abspath(__file__))
TOP = os.path.join(HERE, "..", "..")
DATA = os.path.join(TOP, "crates", "worked_runs", "data")
# The texts that were renewed: what a case said, and what the program printed.
RENEWED = {}
WANTS = ("status", "front", "fails", "writes", "keeps", "absent")
PROGRAM = os.path.abspath(
    os.environ.get("PREDATOR_PROGRAM") or os.path.join(TOP, "crates", "predator", "out", "predator")
)


def file_bytes(form, lines, words):
    """The bytes of a file that a case spells."""
    if form == "text":
        return "".join(line + "\n" for line in lines).encode()
    if form == "bytes":
        return bytes.fromhex("".join(lines))
    made = struct.pack("<8sQHH", b"PRDTRC01", 0, 8, 0) + b"".join(map(record_bytes, lines))
    accesses = sum(line[0] in "RW" for line in lines)
    steps = int(words[1]) if len(words) > 1 else accesses
    return made + struct.pack("<B8xQQ", 6, steps, accesses)


def record_bytes(line):
    """The bytes of a record that a case spells."""
    words = line.split()
    if words[0] == "alloc":
        sites = [int(it, 16) for it in words[3:]]
        return struct.pack(
            "<BII4I", 3, int(words[1], 16), int(words[2]), *sites, *[0] * (4 - len(sites))
        )
    if words[0] == "free":
        return struct.pack("<BI", 4, int(words[1], 16))
    if words[0] == "symbol":
        kind, name = 1 + (words[1] == "function"), words[4].encode()
        return struct.pack("<BBIIH", 5, kind, int(words[2], 16), int(words[3]), len(name)) + name
    touch, addr, size = (words + ["4"])[:3]
    return struct.pack("<BHIB", 1 + (touch[0] == "W"), int(touch[1:]), int(addr, 16), int(size))


def usage_lines():
    """The usage lines, which cases name by one word."""
    return read(os.path.join(DATA, "usage.txt")).decode().splitlines()


def unescape_lines(lines):
    """The lines of a case that spell these."""
    if lines == usage_lines():
        return ["usage"]
    return [f"| {it}" if it else "|" for it in lines]


def read_parts(path):
    """The parts of a case: each a line and the spelled lines behind it."""
    found = []
    with open(path) as file:
        for line in file.read().split("\n")[:-1]:
            if line == "|" or line.startswith("| "):
                found[-1][1].append(line[2:])
            elif line == "usage":
                found[-1][1].extend(usage_lines())
            else:
                found.append((line, []))
    return found


def read(path):
    with open(path, "rb") as file:
        return file.read()


def write(path, made):
    with open(path, "wb") as file:
        file.write(made)


def put_file(words, lines, work):
    """Makes a file of the case."""
    form, name, path = words[0], words[1], os.path.join(work, words[1])
    if form == "file":
        write(path, read(os.path.join(DATA, words[2])))
    elif form == "resize":
        write(path, read(path)[: int(words[2])].ljust(int(words[2]), b"\0"))
    elif form == "patch":
        made = bytearray(read(path))
        new = bytes.fromhex("".join(words[3:]))
        made[int(words[2]) : int(words[2]) + len(new)] = new
        write(path, bytes(made))
    else:
        write(path, file_bytes(form, lines, [name, *words[2:]]))


def output_fault(words, lines, work, before):
    """Why a file that a call was to write, or not to write, isn't right."""
    name = words[1] if words[0] in ("absent", "keeps") else words[2]
    path, is_written = os.path.join(work, name), write_times(work).get(name) != before.get(name)
    if words[0] == "absent" or not is_written:
        return "is written" if is_written else None if words[0] == "absent" else "isn't written"
    if words[0] == "keeps":
        return None
    made = (
        read(os.path.join(DATA, words[3]))
        if words[1] == "file"
        else file_bytes(words[1], lines, words[2:])
    )
    return None if read(path) == made else "has other bytes"


def write_times(work):
    """When each file was written."""
    return {it.name: it.stat().st_mtime_ns for it in os.scandir(work)}


def expected_parts(found, at):
    """What a case says of its call: the parts behind it."""
    follows = []
    for line, lines in found[at + 1 :]:
        if line.split()[:1] and line.split()[0] not in WANTS:
            break
        follows.append(line.split())
    return follows


def run_call(words, work):
    """What a call does. A trace of the name `-` is standard input there, so it gets the file of that name."""
    given = read(os.path.join(work, "-")) if "-" in words else b""
    return subprocess.run(
        [PROGRAM, *words], cwd=work, input=given, stdout=subprocess.PIPE, stderr=subprocess.DEVNULL
    )


def play(case, renew):
    found, wrong, out = read_parts(os.path.join(DATA, case)), [], []
    with tempfile.TemporaryDirectory() as work:
        call, before, fails_by_list = "", {}, False
        for at, (line, lines) in enumerate(found):
            words = line.split()
            head = words[0] if words else "#"
            if head == "$":
                follows = expected_parts(found, at)
                # (the calls of a disk don't fail by a list)
                fails_by_list = any(it[:1] == ["fails"] for it in follows)
                if not fails_by_list:
                    call, before = line, write_times(work)
                    ran = run_call(words[1:], work)
                    text = ran.stdout.decode().split("\n")[:-1]
                    wanted = next((int(it[1]) for it in follows if it[:1] == ["status"]), 0)
                    if text != lines:
                        wrong.append(f"{call}: another text is printed:\n  " + "\n  ".join(text))
                    if ran.returncode != wanted:
                        wrong.append(f"{call}: status {ran.returncode}, and {wanted} is wanted")
                    RENEWED[tuple(lines)] = text
                    out += [(line, text)] + [(f"status {ran.returncode}", [])] * (
                        ran.returncode != 0
                    )
                    continue
            elif head in WANTS and fails_by_list:
                pass
            elif head == "status":
                continue
            elif head in WANTS:
                why = output_fault(words, lines, work, before)
                if why:
                    wrong.append(f"{call}: {line}: it {why}")
            elif not head.startswith("#"):
                put_file(words, lines, work)
            out.append((line, lines))
    if renew:
        save(case, out)
    for fault in wrong:
        print(f"{case}: {fault}")
    return len(wrong)


def save(case, found):
    with open(os.path.join(DATA, case), "w") as file:
        for line, lines in found:
            print(line, *unescape_lines(lines), sep="\n", file=file)


def renew_failing(case):
    """Renews the texts of calls that fail by a list, where another call was to print the same."""
    found = read_parts(os.path.join(DATA, case))
    for at, (line, lines) in enumerate(found):
        if line.startswith("$") and any(it[:1] == ["fails"] for it in expected_parts(found, at)):
            found[at] = line, RENEWED.get(tuple(lines), lines)
    save(case, found)


def main():
    parser = argparse.ArgumentParser(
        description=__doc__, formatter_class=argparse.RawDescriptionHelpFormatter
    )
    parser.add_argument(
        "--renew", action="store_true", help="put into the cases what the program printed"
    )
    parser.add_argument("cases", nargs="*", metavar="CASE", help="the cases (all)")
    call = parser.parse_args()
    if not os.path.exists(PROGRAM):
        sys.exit("on_disk.py: build the program first: bin/predator check guest/built/counters.elf")
    with open(os.path.join(DATA, "cases.txt")) as file:
        cases = call.cases or file.read().split()
    wrong = sum(play(case, call.renew) for case in cases)
    if call.renew:
        for name in cases:
            renew_failing(name)
    print(f"{len(cases)} cases, {wrong} wrong")
    return 1 if wrong else 0


sys.exit(main())
