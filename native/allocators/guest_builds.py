"""Builds allocators for guests, and each driver with one of them."""

import os
import subprocess
import sys
import tempfile
from dataclasses import dataclass
from typing import Sequence

from elftools.common.exceptions import ELFError
from elftools.elf.elffile import ELFFile

from native.allocators import results
from native.allocators.driver_builds import Driver
from native.allocators.libraries import list_names
from native.allocators.results import Row
from view.faults import Fault
from view.reading.program import TOP

GUEST = os.path.join(TOP, "guest")
HERE = os.path.join(GUEST, "allocators")
FETCHED, SHIM = os.path.join(HERE, "fetched"), os.path.join(HERE, "shim")
PICOLIBC = "/usr/lib/picolibc/riscv64-unknown-elf/lib/release"
# Allocators that a word names.
WORDS = ("picolibc", "dlmalloc", "mimalloc")
SOURCES = (".c", ".cpp", ".cc", ".cxx", ".S", ".s")
# The allocator's functions that are noted, with the macro that says that it has them.
WRAPPED = {"calloc": "HAS_CALLOC", "realloc": "HAS_REALLOC", "aligned_alloc": "HAS_ALIGNED_ALLOC"}
PACKAGES = "apt-get install clang lld llvm picolibc-riscv64-unknown-elf"


@dataclass(frozen=True)
class GuestAllocator:
    """An allocator that was compiled for guests."""

    name: str
    objects: tuple[str, ...]
    # What its objects define.
    functions: frozenset[str]
    # The sum of its objects.
    sum: str


@dataclass(frozen=True)
class GuestRun:
    """A driver with an allocator, so many threads, and blocks of a size, under all seeds."""

    allocator: GuestAllocator
    driver: Driver
    threads: int
    size: int

    def name(self) -> str:
        size = f" {self.size}" if self.driver.takes_size else ""
        return f"{self.allocator.name} {self.driver.name} {self.threads}{size}"

    def head(self) -> Row:
        return {
            "run": self.name(),
            "allocator": self.allocator.name,
            "driver": self.driver.name,
            "threads": self.threads,
            "size": self.size,
        }


def run_tool(words: Sequence[str], what: str) -> None:
    """Runs a command of the kit; a fault has its first line of an error."""
    ran = subprocess.run(words, capture_output=True, encoding="utf-8", errors="replace")
    if ran.returncode:
        lines = (ran.stderr or ran.stdout).strip().splitlines()
        first = next((it for it in lines if "error" in it), lines[-1] if lines else "no message")
        raise Fault(f"{what} doesn't build: {first}")


def compile_object(source: str, folder: str, flags: Sequence[str], what: str) -> str:
    count = len(os.listdir(folder))
    path = os.path.join(folder, f"{count}-{os.path.basename(source)}.o")
    compiler = "c++" if source.endswith((".cpp", ".cc", ".cxx")) else "cc"
    # (where it is compiled is no part of the program)
    where = ["-g", "-fdebug-compilation-dir=."]
    run_tool([os.path.join(GUEST, compiler), *where, *flags, "-c", source, "-o", path], what)
    return path


def picolibc_objects(folder: str) -> list[str]:
    """The objects of picolibc's allocator, out of its archive."""
    for of in ("rv32ima/ilp32", "rv32im/ilp32"):
        archive = os.path.join(PICOLIBC, of, "libc.a")
        if os.path.exists(archive):
            break
    else:
        raise Fault(f"picolibc isn't installed: {PACKAGES}", 127)
    listed = subprocess.run(
        ["llvm-ar", "t", archive], capture_output=True, text=True
    ).stdout.split()
    names = [it for it in listed if it.startswith("nano-malloc-")]
    if not names:
        raise Fault(f"{archive} has no allocator nano-malloc")
    subprocess.run(["llvm-ar", "x", archive, *names], cwd=folder, check=True)
    return [os.path.join(folder, it) for it in sorted(names)]


def word_objects(word: str, folder: str) -> list[str]:
    """The objects of an allocator that a word names."""
    if word == "picolibc":
        return picolibc_objects(folder)
    if not os.path.isdir(os.path.join(FETCHED, word)):
        raise Fault(f"{word} isn't fetched: guest/allocators/fetch.sh fetches its sources", 127)
    own = os.path.join(FETCHED, word, "src")
    shim = ["-I", SHIM, "-I", GUEST]
    if word == "dlmalloc":
        source, prefix, flags = "dlmalloc.c", "dl", ["-DUSE_DL_PREFIX", "-DUSE_LOCKS"]
    else:
        source, prefix = "static.c", "mi_"
        flags = ["-DNDEBUG", "-I", os.path.join(FETCHED, word, "include")]
        flags += ["-D_POSIX_TIMERS", "-D_POSIX_MONOTONIC_CLOCK", "-w"]
    sources: list[tuple[str, list[str]]] = [
        (os.path.join(own, source), flags),
        (os.path.join(SHIM, "shim.c"), []),
    ]
    sources.append((os.path.join(HERE, "names.c"), [f"-DALLOCATOR={prefix}"]))
    return [compile_object(it, folder, [*shim, *of], word) for it, of in sources]


def defined_functions(path: str) -> set[str]:
    """The functions that an object defines."""
    try:
        with open(path, "rb") as file:
            table = ELFFile(file).get_section_by_name(".symtab")
            return {
                symbol.name
                for symbol in (table.iter_symbols() if table else ())
                if symbol["st_info"]["type"] == "STT_FUNC" and symbol["st_shndx"] != "SHN_UNDEF"
            }
    except (OSError, ELFError) as error:
        raise Fault(f"{path}: this is no object file") from error


def check_source(path: str) -> None:
    try:
        with open(path, "rb"):
            pass
    except OSError as error:
        known = "" if os.sep in path or "." in path else f"; the words are {list_names([*WORDS])}"
        raise Fault(f"{path}: {error.strerror}{known}") from error
    if not path.endswith(SOURCES):
        raise Fault(f"{path}: --guest wants a source file of C, C++ or assembly")


def allocator_name(word: str) -> str:
    return os.path.splitext(os.path.basename(word))[0]


def build_allocator(word: str, folder: str) -> GuestAllocator:
    """Compiles an allocator, or refuses what is none."""
    name = allocator_name(word)
    own = os.path.join(folder, f"objects-{name}")
    os.makedirs(own)
    if word in WORDS and not os.path.exists(word):
        objects = word_objects(word, own)
    else:
        check_source(word)
        objects = [compile_object(word, own, [], word)]
    functions = {name for path in objects for name in defined_functions(path)}
    lacking = [it for it in ("malloc", "free") if it not in functions]
    if lacking:
        raise Fault(f"{word}: it defines no malloc: it lacks {list_names(lacking)}")
    whole = "".join(map(results.file_sum, objects))
    return GuestAllocator(name, tuple(objects), frozenset(functions), whole)


def build_guest(run: GuestRun, folder: str) -> str:
    """Builds a driver with an allocator, and gives its threads and size as words of main."""
    path = os.path.join(folder, f"{run.allocator.name}-{run.driver.name}.elf")
    if not os.path.exists(path):
        has = [macro for name, macro in WRAPPED.items() if name in run.allocator.functions]
        wrapped = ["malloc", "free", *(it for it in WRAPPED if it in run.allocator.functions)]
        made = tempfile.mkdtemp(dir=folder)
        flags = [f"-D{it}" for it in has]
        front = compile_object(os.path.join(HERE, "front.c"), made, flags, "front.c")
        driver = compile_object(run.driver.path(), made, ["-fno-builtin", "-w"], run.driver.name)
        linker = "c++" if run.driver.source.endswith(".cpp") else "cc"
        words = [os.path.join(GUEST, linker), driver, front, *run.allocator.objects]
        words += [f"-Wl,--wrap={it}" for it in wrapped]
        run_tool([*words, "-o", path], f"{run.allocator.name} with the driver {run.driver.name}")
    own = os.path.join(folder, run.name().replace(" ", "-") + ".elf")
    words = [sys.executable, os.path.join(GUEST, "words.py"), path, own]
    run_tool([*words, str(run.threads), str(run.size or 8)], run.driver.name)
    return own
