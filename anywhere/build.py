#!/usr/bin/env python3
"""Builds the WebAssembly module of the proved program: the crate predator_page, compiled for wasm64.

Needs the Rattle kit, and the libraries below the crate, as `rt ci` or `rt lib` leaves them. rattle checks the crate,
lowers it to a module of LLVM and hands that to the clang of its toolchain. Here this clang is a script that keeps the
module. The kit's clang then compiles it for wasm64 instead of x86-64, and links it with heap.c. docs/ANYWHERE.md says
what that asks to trust."""

import argparse
import gzip
import os
import re
import shlex
import shutil
import subprocess
import sys
import tempfile

HERE = os.path.dirname(os.path.abspath(__file__))
TOP = os.path.dirname(HERE)
CRATE = "predator_page"
KIT = os.environ.get("RATTLE_KIT", "/opt/rattle")
CLANG = os.path.join(KIT, "toolchain", "bin", "clang")
TARGET = "wasm64-unknown-unknown"
# How wasm64 lays out data. Pointers, and integers of up to 128 bits, have the sizes and alignments of x86-64.
DATA_LAYOUT = "e-m:e-p:64:64-p10:8:8-p20:8:8-i64:64-i128:128-n32:64-S128-ni:1:10:20"
STACK_BYTES = 8 << 20
FOR_WASM = ["--no-default-config", f"--target={TARGET}", "-mcpu=lime1", "-mbulk-memory", "-O3"]
# Division of more than 64 bits becomes a loop; wide.c has the rest of such numbers.
NO_WIDE_DIVISION = ["-mllvm", "-expand-div-rem-bits=64"]
OWN_C = ("heap", "wide")
EXPORTS = ["predator_page", "predator_room"]
# What only means something on x86-64.
X86_ATTRIBUTES = re.compile(
    r' "(?:probe-stack|stack-probe-size|target-cpu|target-features)"="[^"]*"'
)
# (rattle gives it no environment)
KEEPER = """#!/bin/sh
for word in "$@"; do case $word in *.bc) cp "$word" {kept} || exit ;; esac; done
while [ "$1" != -o ]; do shift; done
exec {clang} -c -x c /dev/null -o "$2"
"""


class BuildFault(Exception):
    """What stops a build."""


def read_crates() -> dict[str, list[str]]:
    """The libraries that each crate of crates.txt uses."""
    crates = {}
    with open(os.path.join(TOP, "crates.txt"), encoding="utf-8") as file:
        for row in file:
            name, _, used = row.partition("#")[0].partition(":")
            if name.strip():
                crates[name.split()[0]] = used.split()
    return crates


def list_below(crates: dict[str, list[str]], name: str) -> list[str]:
    """The crates of the repository below one, each once."""
    found: dict[str, None] = {}
    for used in crates[name]:
        if used in crates:
            found.update(dict.fromkeys([*list_below(crates, used), used]))
    return list(found)


def library(name: str, top: str) -> str:
    """The folder of a built library: one of the repository, or one of the kit."""
    own = os.path.join(top, "crates", name, "out", "rlib")
    folder = own if os.path.isdir(os.path.join(TOP, "crates", name)) else os.path.join(KIT, "rlibs")
    path = os.path.join(folder, name + ".rlib")
    if not os.path.isdir(path):
        raise BuildFault(f"{path} isn't there: `rt ci` or `rt lib` builds it")
    return path


def rattle_words(libraries: str) -> list[str]:
    """The words of the build, as rt gives them, but for the toolchain and the file to write."""
    crates = read_crates()
    words = [os.path.join(KIT, "bin", "rattle"), "build", "--crate-name", CRATE, "src/lib.rt"]
    for name in ["std", *crates[CRATE]]:
        words += ["--extern", f"{name}={library(name, libraries)}"]
    below = [os.path.dirname(library(it, libraries)) for it in list_below(crates, CRATE)]
    for folder in [os.path.join(KIT, "rlibs"), *below]:
        words += ["-L", f"dependency={folder}"]
    words += ["--antt-project", os.path.join(KIT, "rattle", "logic", "antt-project.json")]
    words += ["--logic-built", os.path.join(KIT, "logic_built"), "--jobs", "1"]
    words += [
        "--links",
        f"{CRATE}=",
        "--crate-type",
        "staticlib",
        "--incremental",
        "out/incremental",
    ]
    return words


def keep_module(folder: str, libraries: str) -> str:
    """Checks the crate, and gives the file of its LLVM module."""
    kept = os.path.join(folder, "module.bc")
    os.makedirs(os.path.join(TOP, "crates", CRATE, "out", "incremental"), exist_ok=True)
    tools = os.path.join(folder, "toolchain")
    os.makedirs(os.path.join(tools, "bin"))
    os.symlink(os.path.join(KIT, "toolchain", "lib"), os.path.join(tools, "lib"))
    for name in os.listdir(os.path.dirname(CLANG)):
        if name != "clang":
            os.symlink(os.path.join(os.path.dirname(CLANG), name), os.path.join(tools, "bin", name))
    keeper = os.path.join(tools, "bin", "clang")
    with open(keeper, "w", encoding="utf-8") as file:
        file.write(KEEPER.format(kept=shlex.quote(kept), clang=shlex.quote(CLANG)))
    os.chmod(keeper, 0o755)
    words = [
        *rattle_words(libraries),
        "--toolchain",
        tools,
        "-o",
        os.path.join(folder, "library.a"),
    ]
    ran = subprocess.run(
        words,
        cwd=os.path.join(TOP, "crates", CRATE),
        stdout=subprocess.PIPE,
        stderr=subprocess.STDOUT,
    )
    if ran.returncode or not os.path.exists(kept):
        raise BuildFault(ran.stdout.decode("utf-8", "replace")[-4000:])
    return kept


def run(words: list[str]) -> None:
    ran = subprocess.run(words, stdout=subprocess.PIPE, stderr=subprocess.STDOUT)
    if ran.returncode:
        raise BuildFault(ran.stdout.decode("utf-8", "replace")[-4000:])


def retarget(kept: str, folder: str) -> str:
    """The module as text, for wasm64."""
    text = os.path.join(folder, "module.ll")
    unchanged = ["-Xclang", "-disable-llvm-passes", "-S", "-emit-llvm"]
    run(
        [
            CLANG,
            "--no-default-config",
            "--target=x86_64-unknown-linux-gnu",
            "-x",
            "ir",
            kept,
            *unchanged,
            "-o",
            text,
        ]
    )
    with open(text, encoding="utf-8") as file:
        rows = file.read()
    for feature in ("asm sideeffect", "@llvm.x86.", " addrspace("):
        if feature in rows:
            raise BuildFault(f"the module has code for x86-64 alone: {feature}")
    rows = re.sub(r"(?m)^target datalayout = .*$", f'target datalayout = "{DATA_LAYOUT}"', rows)
    rows = re.sub(r"(?m)^target triple = .*$", f'target triple = "{TARGET}"', rows)
    with open(text, "w", encoding="utf-8") as file:
        file.write(X86_ATTRIBUTES.sub("", rows))
    return text


def compile_own(name: str, folder: str) -> str:
    """The object file of a C file that stands beside this script."""
    target = os.path.join(folder, f"{name}.o")
    strict = ["-ffreestanding", "-nostdinc", "-fno-builtin", "-Wall", "-Wextra", "-Werror"]
    run([CLANG, *FOR_WASM, *strict, "-c", os.path.join(HERE, f"{name}.c"), "-o", target])
    return target


def build_module(target: str, libraries: str) -> None:
    with tempfile.TemporaryDirectory(prefix="predator-anywhere-") as folder:
        objects = [compile_own(name, folder) for name in OWN_C]
        text = retarget(keep_module(folder, libraries), folder)
        objects.append(os.path.join(folder, "program.o"))
        run([CLANG, *FOR_WASM, *NO_WIDE_DIVISION, "-c", "-x", "ir", text, "-o", objects[-1]])
        linker = os.path.join(folder, "wasm-ld")
        os.symlink(CLANG, linker)
        words = [linker, "-mwasm64", "--no-entry", "--gc-sections", "--strip-all", "--threads=1"]
        words += ["--stack-first", "-z", f"stack-size={STACK_BYTES}"]
        words += [f"--export={it}" for it in EXPORTS]
        run([*words, *objects, "-o", f"{target}.new"])
    os.replace(f"{target}.new", target)


def main() -> int:
    parser = argparse.ArgumentParser(description=(__doc__ or "").partition("\n")[0])
    parser.add_argument("file", help="the module to write")
    parser.add_argument(
        "--libraries", default=TOP, help="the checkout that has the built libraries"
    )
    options = parser.parse_args()
    if not shutil.which("rt") or not os.path.exists(CLANG):
        print("build: there is no Rattle kit here", file=sys.stderr)
        return 127
    try:
        build_module(options.file, options.libraries)
    except BuildFault as fault:
        print(f"build: {fault}", file=sys.stderr)
        return 1
    with open(options.file, "rb") as file:
        module = file.read()
    print(f"{len(module):,} bytes, {len(gzip.compress(module, 9, mtime=0)):,} compressed")
    return 0


if __name__ == "__main__":
    sys.exit(main())
