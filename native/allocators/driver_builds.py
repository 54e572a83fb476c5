"""The drivers: programs that each repeat one published pattern of allocations."""

import hashlib
import os
import shutil
import subprocess
from dataclasses import dataclass

from view.faults import Fault

HERE = os.path.dirname(os.path.abspath(__file__))
SOURCES = os.path.join(HERE, "drivers")
# Blocks are asked for where the source does so: no call of malloc is left out or joined to another.
FLAGS = ("-O1", "-g", "-pthread", "-fno-builtin", "-w")
PACKAGES = "apt-get install gcc g++ libc6-dev valgrind"


@dataclass(frozen=True)
class Driver:
    name: str
    source: str
    # What it repeats, in a few words.
    summary: str
    # Whether the size of blocks has a meaning for it.
    takes_size: bool = True
    # What an allocator needs for it beside malloc and free.
    functions: tuple[str, ...] = ()

    def path(self) -> str:
        return os.path.join(SOURCES, self.source)


DRIVERS = (
    Driver("cache-thrash", "cache_thrash.c", "each thread takes, writes and frees its own block"),
    Driver(
        "cache-scratch", "cache_scratch.c", "the same, after freeing a block of the first thread"
    ),
    Driver("xmalloc", "xmalloc.c", "half of the threads free what the others take"),
    Driver("larson", "larson.c", "a server's sets of blocks, handed from thread to thread"),
    Driver("trees", "trees.c", "a growing and shrinking tree of small nodes in each thread"),
    Driver("chains", "chains.c", "blocks that realloc grows and shrinks", functions=("realloc",)),
    Driver(
        "lines",
        "lines.c",
        "calloc and aligned_alloc of sizes around a line",
        takes_size=False,
        functions=("calloc", "aligned_alloc"),
    ),
    Driver("containers", "containers.cpp", "C++ containers, by operator new"),
)


def find_driver(name: str) -> Driver:
    for driver in DRIVERS:
        if driver.name == name:
            return driver
    names = ", ".join(it.name for it in DRIVERS)
    raise Fault(f"there is no driver '{name}'; the drivers are {names}")


def read_bytes(path: str) -> bytes:
    with open(path, "rb") as file:
        return file.read()


def source_sum(driver: Driver) -> str:
    """The sum of all that a driver is built of."""
    whole = hashlib.sha256()
    for path in (os.path.join(SOURCES, "driver.h"), driver.path()):
        whole.update(read_bytes(path))
    whole.update(" ".join(FLAGS).encode())
    return whole.hexdigest()


def run_compiler(words: list[str], what: str) -> None:
    if shutil.which(words[0]) is None:
        raise Fault(f"{words[0]} isn't installed: {PACKAGES}", 127)
    ran = subprocess.run(words, capture_output=True, encoding="utf-8", errors="replace")
    if ran.returncode:
        lines = ran.stderr.strip().splitlines()
        first = next((it for it in lines if "error" in it), lines[-1] if lines else "no message")
        raise Fault(f"{what} doesn't build: {first}")


def build_driver(driver: Driver, folder: str) -> str:
    """Builds a driver for this machine, and gives its path."""
    compiler = "g++" if driver.source.endswith(".cpp") else "gcc"
    path = os.path.join(folder, driver.name)
    run_compiler([compiler, *FLAGS, driver.path(), "-o", path], f"the driver {driver.name}")
    return path


def build_note(soname: str, folder: str) -> str:
    """Builds the library that notes the blocks of an allocator's own `operator new`, for the allocator's name as
    valgrind spells it."""
    path = os.path.join(folder, f"note-{hashlib.sha256(soname.encode()).hexdigest()[:12]}.so")
    flags = ["-O2", "-fPIC", "-fno-builtin", "-fno-stack-protector", "-fcf-protection=none"]
    words = ["gcc", *flags, "-shared", "-nostdlib", f"-DSONAME={soname}"]
    run_compiler([*words, os.path.join(HERE, "note_new.c"), "-o", path], "the library of notes")
    return path
