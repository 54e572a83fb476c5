"""Finds allocators by words and files, and refuses what is none."""

import os
from dataclasses import dataclass
from typing import Iterable

from elftools.common.exceptions import ELFError
from elftools.elf.elffile import ELFFile

from view.faults import Fault

FOLDERS = ("/usr/lib/x86_64-linux-gnu", "/usr/local/lib", "/usr/lib64", "/usr/lib")
# The files that each word's library may have, and Debian's package.
WORDS = {
    "jemalloc": (("libjemalloc.so.2",), "libjemalloc2"),
    "tcmalloc": (("libtcmalloc_minimal.so.4",), "libtcmalloc-minimal4"),
    "mimalloc": (("libmimalloc.so.2", "libmimalloc.so.2.0"), "libmimalloc2.0"),
}
C_LIBRARY = "libc"
# What an allocator must define, or blocks of two allocators would mix.
REQUIRED = ("malloc", "free", "calloc", "realloc")
OPERATOR_NEW = "_Znwm"
# How valgrind spells the characters of a library's name.
SPELLED = {
    **{"*": "Za", "+": "Zp", ":": "Zc", ".": "Zd", "_": "Zu", "-": "Zh", " ": "Zs"},
    **{"@": "ZA", "$": "ZD", "(": "ZL", ")": "ZR", "%": "ZP", "/": "ZS", "Z": "ZZ"},
}


@dataclass(frozen=True)
class Allocator:
    """An allocator of this machine: that of the C library has no file."""

    name: str
    path: str
    soname: str
    functions: frozenset[str]

    def is_c_library(self) -> bool:
        return not self.path

    def has_operator_new(self) -> bool:
        return OPERATOR_NEW in self.functions

    def lacks(self, names: Iterable[str]) -> list[str]:
        return [] if self.is_c_library() else [it for it in names if it not in self.functions]


def encode_soname(soname: str) -> str:
    """A library's name as valgrind spells it in the names of wrappers."""
    return "".join(SPELLED.get(it, it) for it in soname)


def list_names(names: list[str]) -> str:
    return names[0] if len(names) == 1 else f"{', '.join(names[:-1])} and {names[-1]}"


def find_word(word: str) -> str | None:
    """The file of a word's library, or none where it isn't installed."""
    for folder in FOLDERS:
        for name in WORDS[word][0]:
            path = os.path.join(folder, name)
            if os.path.isfile(path):
                return path
    return None


def read_library(path: str, name: str) -> Allocator:
    """An allocator in a shared library."""
    try:
        with open(path, "rb") as file:
            elf = ELFFile(file)
            header, dynamic = elf.header, elf.get_section_by_name(".dynamic")
            symbols = elf.get_section_by_name(".dynsym")
            is_program = any(it["p_type"] == "PT_INTERP" for it in elf.iter_segments())
            if header["e_machine"] != "EM_X86_64" or header["e_type"] != "ET_DYN":
                raise Fault(f"{path}: this is no shared library for x86-64")
            functions = {
                symbol.name
                for symbol in (symbols.iter_symbols() if symbols else ())
                if symbol["st_shndx"] != "SHN_UNDEF"
            }
            sonames = [it.soname for it in dynamic.iter_tags("DT_SONAME")] if dynamic else []
    except OSError as error:
        raise Fault(f"{path}: {error.strerror}") from error
    except ELFError as error:
        raise Fault(f"{path}: this is no shared library") from error
    if is_program and "malloc" not in functions:
        raise Fault(f"{path}: this is a program and no shared library")
    soname = sonames[0] if sonames else "NONE"
    allocator = Allocator(name, os.path.abspath(path), soname, frozenset(functions))
    lacking = allocator.lacks(REQUIRED)
    if lacking:
        what = "malloc" if "malloc" in lacking else "whole allocator"
        raise Fault(f"{path}: the library defines no {what}: it lacks {list_names(lacking)}")
    return allocator


def find_allocator(word: str) -> Allocator:
    """The allocator that a word or a file's name means."""
    if word == C_LIBRARY:
        return Allocator(C_LIBRARY, "", "", frozenset())
    if word in WORDS and not os.path.exists(word):
        path = find_word(word)
        if path is None:
            raise Fault(f"{word} isn't installed: apt-get install {WORDS[word][1]}", 127)
        return read_library(path, word)
    if not os.path.exists(word) and os.sep not in word and "." not in word:
        raise Fault(f"{word}: there is no such file; the words are {list_names([*WORDS])}")
    return read_library(word, os.path.basename(word))


def installed_allocators() -> list[Allocator]:
    return [find_allocator(it) for it in WORDS if find_word(it)]


def choose_allocators(words: list[str]) -> list[Allocator]:
    """The C library's allocator, and those of a call: the installed ones where it names none."""
    named = [find_allocator(it) for it in words] if words else installed_allocators()
    found = [find_allocator(C_LIBRARY), *named]
    unique = list({it.path: it for it in found}.values())
    names = [it.name for it in unique]
    for name in names:
        if names.count(name) > 1:
            raise Fault(f"two libraries are called {name}: give one of them another file name")
    return unique
