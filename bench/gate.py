#!/usr/bin/env python3
"""Runs the gate and says what it took.

It runs `rt ci` for the crates that are named, or for all, and puts the processor minutes that each crate took, for its
library, its tests and its edits, into the table of docs/GATE.md. What was kept from an earlier run keeps its
times there. The times are those of the prover's processes, which are looked at twice a second. With --anew and no
names it measures the whole gate in one piece, from nothing. It ends with the status of `rt ci`."""

import argparse
import datetime
import os
import re
import subprocess
import sys
import time

TOP = os.path.join(os.path.dirname(os.path.abspath(__file__)), "..")
PAGE = os.path.join(TOP, "docs", "GATE.md")
TICKS = os.sysconf("SC_CLK_TCK")
PARTS = ("library", "tests", "edits")


def read(path):
    try:
        with open(path, "rb") as file:
            return file.read()
    except OSError:
        return b""


def read_processes():
    """The parent and the processor seconds of each process."""
    found = {}
    for name in os.listdir("/proc"):
        if name.isdigit():
            fields = read(f"/proc/{name}/stat").rpartition(b") ")[2].split()
            if len(fields) > 12:
                found[int(name)] = int(fields[1]), (int(fields[11]) + int(fields[12])) / TICKS
    return found


def process_part(number):
    """The crate and the part that a process works for, if it is one of the prover's."""
    words = read(f"/proc/{number}/cmdline").decode(errors="replace").split("\0")
    if os.path.basename(words[0]) != "rattle" or "--crate-name" not in words[:-1]:
        return None
    try:
        at = os.readlink(f"/proc/{number}/cwd")
    except OSError:
        at = ""
    part = "edits" if "/rt-edit" in at else "tests" if "--test" in words else "library"
    return words[words.index("--crate-name") + 1], part


def find_descendants(root, found):
    """The processes that a process has begun, and that those have."""
    children = {}
    for number, (parent, _) in found.items():
        children.setdefault(parent, []).append(number)
    left, all_ = [root], set()
    while left:
        for child in children.get(left.pop(), []):
            all_.add(child)
            left.append(child)
    return all_


def sample_times(root, parts, seconds):
    found = read_processes()
    for number in find_descendants(root, found):
        if number not in parts:
            part = process_part(number)
            if part:
                parts[number] = part
        if number in parts:
            seconds[number] = found[number][1]


def read_rows():
    rows = {}
    for line in read(PAGE).decode().splitlines():
        cells = [it.strip() for it in line.strip("|").split("|")]
        if re.match(r"\| `\w+` \|", line) and len(cells) == 6:
            rows[cells[0].strip("`")] = cells[1:]
    return rows


def read_crates():
    with open(os.path.join(TOP, "crates.txt")) as file:
        return [line.split(":")[0].split()[0] for line in file if re.match(r"[a-z]", line)]


def table(rows):
    shown = [
        "| Crate | Library | Tests | Edits | Number of edits | Measured |",
        "|---|---|---|---|---|---|",
    ]
    sums = [0.0, 0.0, 0.0, 0]
    for name in read_crates():
        if name in rows:
            shown.append("| " + " | ".join([f"`{name}`", *rows[name]]) + " |")
            for at in range(4):
                sums[at] += float(rows[name][at] or 0)
    all_ = [f"{it:.1f}" for it in sums[:3]]
    shown.append(
        f"| all | {' | '.join(all_)} | {int(sums[3])} | {sum(sums[:3]):.0f} minutes in all |"
    )
    return "\n".join(shown) + "\n"


def main():
    parser = argparse.ArgumentParser(
        description=__doc__, formatter_class=argparse.RawDescriptionHelpFormatter
    )
    parser.add_argument("names", nargs="*", metavar="NAME", help="the crates (all)")
    parser.add_argument("--anew", action="store_true", help="prove what was kept once more")
    call = parser.parse_args()
    begun = time.monotonic()
    gate = subprocess.Popen(["rt", "ci", *(["--anew"] if call.anew else []), *call.names], cwd=TOP)
    parts, seconds = {}, {}
    while gate.poll() is None:
        sample_times(gate.pid, parts, seconds)
        time.sleep(0.5)
    wall = (time.monotonic() - begun) / 60
    took = {}
    for number, (crate, part) in parts.items():
        took.setdefault(crate, {}).setdefault(part, 0.0)
        took[crate][part] += seconds.get(number, 0) / 60
    rows, today = read_rows(), datetime.date.today().isoformat()
    for crate, found in took.items():
        folder = os.path.join(TOP, "crates", crate, "must-fail")
        edits = (
            sum(it.endswith(".edit") for it in os.listdir(folder)) if os.path.isdir(folder) else 0
        )
        # Where the library was kept, so was what isn't among these times.
        old = rows.get(crate, ["0.0"] * 3) if "library" not in found else ["0.0"] * 3
        rows[crate] = [
            f"{found[name]:.1f}" if name in found else kept for name, kept in zip(PARTS, old)
        ] + [str(edits), today]
    made = table(rows)
    text = read(PAGE).decode()
    text = re.sub(r"(?ms)^\| Crate \|.*?\n(?!\|)", lambda _: made, text + "\n").rstrip("\n") + "\n"
    with open(PAGE, "w") as file:
        file.write(text)
    print(
        f"gate.py: {wall:.1f} minutes of wall time, {sum(seconds.values()) / 60:.1f} of the"
        f" processors, for {len(took)} crates"
    )
    return gate.returncode


sys.exit(main())
