#!/usr/bin/env python3
"""Runs the commands of docs/NATIVE.md, one after the other in a folder of its own, and compares what they
print with what stands there. It prints a line for each, and ends with 1 where one differs.

A command is an indented line that begins with `$ `, and what it prints are the lines of its block behind it,
where `..` stands for any lines. Numbers aren't compared, since they belong to the C library and the compiler
of a machine. A command that isn't installed here is left out."""

import argparse
import os
import re
import shutil
import subprocess
import sys

TOP = os.path.dirname(os.path.dirname(os.path.dirname(os.path.abspath(__file__))))
BLOCK = "    "


def read_commands():
    """Each command, and the lines that it prints."""
    found = []
    with open(os.path.join(TOP, "docs", "NATIVE.md")) as file:
        is_open = False
        for line in file.read().split("\n"):
            if line.startswith(f"{BLOCK}$ "):
                found.append((line[len(BLOCK) + 2 :], []))
                is_open = True
            elif is_open and line.startswith(BLOCK):
                found[-1][1].append(line[len(BLOCK) :])
            else:
                is_open = False
    return found


def without_numbers(line):
    """A line without its numbers and its folders, and with any number of blanks as one."""
    line = re.sub(r"0x[0-9a-f]+|[0-9]+", "N", line)
    line = re.sub(r"/[^ ]*/", "/", line)
    return " ".join(line.split())


def is_printed(wanted, made):
    """Whether lines are those that are wanted, each `..` standing for any number of them."""
    if not wanted or not made:
        return all(it == ".." for it in wanted) and not made
    if wanted[0] == "..":
        return is_printed(wanted[1:], made) or is_printed(wanted, made[1:])
    return without_numbers(wanted[0]) == without_numbers(made[0]) and is_printed(
        wanted[1:], made[1:]
    )


def main():
    parser = argparse.ArgumentParser(
        description=__doc__, formatter_class=argparse.RawDescriptionHelpFormatter
    )
    parser.add_argument("folder", metavar="FOLDER")
    place = parser.parse_args().folder
    wrong = 0
    for folder in ("bin", "native", "docs"):
        os.symlink(os.path.join(TOP, folder), os.path.join(place, folder))
    for command, wanted in read_commands():
        if not command.startswith("bin/") and not shutil.which(command.split()[0]):
            print(f"{command}: as it stands there, though left out")
            continue
        ran = subprocess.run(
            ["bash", "-c", command],
            cwd=place,
            stdout=subprocess.PIPE,
            stderr=subprocess.STDOUT,
            text=True,
        )
        made = ran.stdout.rstrip("\n").split("\n") if ran.stdout else []
        same = is_printed(wanted, made)
        wrong += not same
        print(f"{command}: {'as it stands there' if same else 'otherwise'}")
        if not same:
            print(command, *made[:60], sep="\n    ", file=sys.stderr)
    return 1 if wrong else 0


sys.exit(main())
