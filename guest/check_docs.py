#!/usr/bin/env python3
"""Runs the commands of the documents and compares their output with the documents.

A command is an indented line that begins with `$ `, and the lines of the same block after it are its output;
a blank line may be part of a block. All commands of a document run in one folder, which has the folders of
the repository. A command that needs something that this machine lacks (NEEDS) is left out. In the manual page
commands stand between .nf and .fi. --renew writes the output into the documents, to be read before it is
committed. The status is 1 if anything differs."""

import argparse
import os
import re
import shutil
import subprocess
import sys
import tempfile

TOP = os.path.abspath(os.path.join(os.path.dirname(os.path.abspath(__file__)), ".."))
FILES = [
    "README.md",
    "docs/GUIDE.md",
    "docs/VIEW.md",
    "docs/CAMPAIGNS.md",
    "guest/README.md",
    "examples/README.md",
    "docs/FORMATS.md",
    "docs/STUDIES.md",
]
BLOCK = "    "
MANUAL = "docs/predator.1"
# What commands need, by a pattern that they contain: tools of this machine, `view` for the packages of view/,
# `recorders` for what `predator native --build` builds, and `c++` for what guests in C++ are built with.
NEEDS = {
    r"\bpredator view ": ["view"],
    r"\bpredator (native|view) (-- )?\./": ["recorders"],
    r"\bpredator campaign |\bfirst\.campaign/": ["snakemake"],
    r"\bguest/build\.sh ": ["clang", "ld.lld"],
    r"\bpool\.(elf|patch)": ["c++"],
    r"\bllvm-symbolizer ": ["llvm-symbolizer"],
    r"\bgcc ": ["gcc"],
}
# Commands whose numbers aren't compared, nor where their lines end: the compiler and the C library of this
# machine decide them.
NATIVE = r"\bpredator (native|view) (-- )?\./"


def run(command, work):
    ran = subprocess.run(
        ["bash", "-c", command],
        cwd=work,
        stdout=subprocess.PIPE,
        stderr=subprocess.STDOUT,
        text=True,
    )
    return ran.stdout.rstrip("\n").split("\n") if ran.stdout else []


def is_installed(tool):
    """Whether a tool is installed; of `view` and `c++` whether their packages are, of `recorders` whether they
    are built."""
    probes = {
        "view": ["/usr/bin/python3", "-c", "import elftools, jinja2"],
        "recorders": [
            os.path.join(TOP, "bin/predator"),
            "native",
            "--report",
            os.devnull,
            "--",
            "true",
        ],
        "c++": ["bash", "-c", f"echo '#include <thread>' | {TOP}/guest/c++ -x c++ -fsyntax-only -"],
    }
    if tool not in probes:
        return shutil.which(tool) is not None
    quiet = {"stdout": subprocess.DEVNULL, "stderr": subprocess.DEVNULL}
    ends_well = subprocess.run(probes[tool], **quiet).returncode == 0
    return ends_well and (tool != "view" or is_installed("llvm-symbolizer"))


def missing(command):
    """What a command needs and this machine lacks."""
    needs = [it for pattern, tools in NEEDS.items() if re.search(pattern, command) for it in tools]
    return [it for it in needs if not is_installed(it)]


def is_output(command, made, wanted):
    """Whether lines are the output that a document has for a command."""
    if not re.search(NATIVE, command):
        return made == wanted
    texts = [" ".join(" ".join(it).split()) for it in (made, wanted)]
    return len({re.sub(r"0x[0-9a-f]+|[0-9][0-9,.]*", "N", it) for it in texts}) == 1


def block_at(lines, at):
    """The lines of a block from a line on, up to its next command, without their indent."""
    found = []
    for line in lines[at:]:
        if line and (not line.startswith(BLOCK) or line.startswith(f"{BLOCK}$ ")):
            break
        found.append(line[len(BLOCK) :])
    while found and not found[-1]:
        found.pop()
    return found


def check_document(name, renew):
    with open(os.path.join(TOP, name)) as file:
        lines = file.read().split("\n")
    out, at, wrong, tried = [], 0, 0, 0
    with tempfile.TemporaryDirectory() as work:
        for folder in ("bin", "guest", "examples", "tools", "docs", "crates", "view", "campaign"):
            if os.path.exists(os.path.join(TOP, folder)):
                os.symlink(os.path.join(TOP, folder), os.path.join(work, folder))
        while at < len(lines):
            line, at = lines[at], at + 1
            out.append(line)
            if not line.startswith(f"{BLOCK}$ "):
                continue
            command, wanted = line[len(BLOCK) + 2 :], block_at(lines, at)
            at += len(wanted)
            lacks = missing(command)
            made = wanted if lacks else run(command, work)
            tried += not lacks
            if not is_output(command, made, wanted):
                wrong += 1
                print(f"{name}: $ {command}", *made, sep="\n  ")
                wanted = made if renew else wanted
            out += [(BLOCK + it).rstrip() for it in wanted]
    if renew:
        with open(os.path.join(TOP, name), "w") as file:
            file.write("\n".join(out))
    print(f"{name}: {tried} commands, {wrong} wrong")
    return wrong


def read(name):
    with open(os.path.join(TOP, name), encoding="utf-8") as file:
        return file.read()


def check_manual(renew):
    """How many examples of the manual page the program prints otherwise."""
    text, wrong, tried = read(MANUAL), 0, 0
    for example in re.findall(r"^\.nf\n(.*?)^\.fi$", text, re.MULTILINE | re.DOTALL):
        lines = example.replace("\\-", "-").rstrip("\n").split("\n")
        if not lines[0].startswith("$ predator "):
            continue
        tried += 1
        made = run(f"bin/{lines[0][2:]}", TOP)
        if made != lines[1:]:
            wrong += 1
            print(f"{MANUAL}: {lines[0]}", *made, sep="\n  ")
            text = text.replace(example, "\n".join([lines[0], *made, ""]))
    if renew:
        with open(os.path.join(TOP, MANUAL), "w", encoding="utf-8") as file:
            file.write(text)
    print(f"{MANUAL}: {tried} commands, {wrong} wrong")
    return wrong


def main():
    parser = argparse.ArgumentParser(
        description=__doc__, formatter_class=argparse.RawDescriptionHelpFormatter
    )
    parser.add_argument("--renew", action="store_true", help="write the output into the documents")
    parser.add_argument("names", nargs="*", metavar="FILE", help="the documents (all)")
    call = parser.parse_args()
    names, renew = call.names, call.renew
    wrong = 0 if names else check_manual(renew)
    wrong += sum(
        check_document(page, renew)
        for page in names or [it for it in FILES if os.path.exists(os.path.join(TOP, it))]
    )
    return 1 if wrong else 0


sys.exit(main())
