"""The places where stripped code of Rust may panic.

A check in Rust passes its file and line to the panic (a `core::panic::Location`), and both stay in a stripped program. An instruction is
named by the places where its function, taken from the unwind table, may panic."""

import bisect
import functools
import re
import struct
from collections import Counter
from typing import Iterable, NamedTuple, Sequence

from view.names.x86_image import LEA, MOVE, Image, conditional_jumps, find_jumps, find_numbers

# How many files of a function are named.
NAMED = 2
# A call site is the last byte of a call instruction, which begins less than this many bytes before.
CALL_SIZE = 8
# A check jumps to at most this many bytes before the load of the place.
BLOCK = 48
PATH = re.compile(rb"[^\x00-\x1f\x7f]+\.rs")
# The standard library's sources, and those that are linked into it.
LIBRARY = re.compile(
    r"^(?:/rustc/\w+/|.*/rustlib/src/rust/|/usr/src/rustc-[^/]+/|/rust/(?=deps/)|/cargo/(?=registry/)|)(?:library/)?"
)
IS_LIBRARY = re.compile(
    r"library/|/rustc/|/usr/src/rustc-|/rust/deps/|/cargo/registry/|.*/rustlib/src/rust/"
)
# The folders of fetched crates.
FETCHED = re.compile(r".*/(?:registry/(?:src/[^/]+/)?|git/checkouts/|(?=vendor/))")


class Panic(NamedTuple):
    """A source line where code may panic."""

    file: str
    line: int

    def is_library(self) -> bool:
        """Whether the standard library contains the line."""
        return bool(IS_LIBRARY.match(self.file))

    def short(self) -> str:
        """The line, with its file's path from the crate on, or from `library/` on in the standard library."""
        file = (
            "library/" + LIBRARY.sub("", self.file)
            if self.is_library()
            else FETCHED.sub("", self.file)
        )
        return f"{file}:{self.line}"


class NearPanics(NamedTuple):
    """The panics near an instruction: those of its function, or if it has none, those of the one file that calls it."""

    places: tuple[Panic, ...]
    is_called: bool = False

    def names_source(self) -> bool:
        """Whether a panic belongs to the program or a crate rather than the standard library."""
        return any(not it.is_library() for it in self.places)

    def text(self) -> str:
        what = "a panic" if len(self.places) == 1 else "panics"
        return f"{'called ' if self.is_called else ''}near {what} at {' and '.join(it.short() for it in self.places)}"


class PanicCheck(NamedTuple):
    """A place that code passes to a panic: the load of the place, and the checks that jump to the load."""

    at: int
    place: Panic
    checks: Sequence[int]

    def distance(self, addr: int) -> int:
        return min(abs(it - addr) for it in (self.checks or (self.at,)))


class Panics:
    """The panics of a program's functions. A program that isn't Rust for x86-64 has none."""

    def __init__(self, path: str, ran: Iterable[int] = (), image: Image | None = None) -> None:
        self.image, self.executed_pcs = image or Image(path), frozenset(ran)
        self.places = {
            addr: place for addr, to in self.image.words.items() if (place := self.place(addr, to))
        }

    def place(self, addr: int, to: int) -> Panic | None:
        """The source line at an address whose first word points to a path; none if it isn't one."""
        data = self.image.bytes(addr + 8, 16)
        if not data:
            return None
        size, line, column = struct.unpack("<QII", data)
        if not (len(".rs") < size <= 4096 and 0 < line < 1 << 20 and 0 < column < 1 << 16):
            return None
        name = self.image.bytes(to, size)
        if not PATH.fullmatch(name):
            return None
        return Panic(name.decode("utf-8", "replace"), line)

    @functools.cache
    def panic_checks(self, start: int, end: int) -> list[PanicCheck]:
        """The places that a function passes to panics; those of the standard library only if there are no others."""
        code = self.image.bytes(start, end - start)
        references = [
            *find_jumps(code, start, LEA),
            *(find_numbers(code, start, MOVE) if self.image.is_fixed else ()),
        ]
        found = [(at, self.places[to]) for at, to in sorted(references) if to in self.places]
        own = [it for it in found if not it[1].is_library()] or found
        jumps = conditional_jumps(code, start) if own else {}
        blocks, made = [start - BLOCK - 1, *sorted(jumps)], []
        for at, place in own:
            block = blocks[max(bisect.bisect_right(blocks, at) - 1, 0)]
            made.append(PanicCheck(at, place, jumps[block] if block >= at - BLOCK else ()))
        return made

    def nearest(self, addr: int, handed: Sequence[PanicCheck], most: int) -> tuple[Panic, ...]:
        """From each of the files with most places, the place whose check is nearest to an instruction."""
        counts = Counter(file for file, _ in {it.place for it in handed})
        files = sorted(counts, key=lambda file: (-counts[file], file))[:most]
        return tuple(
            min(
                (it for it in handed if it.place.file == file),
                key=lambda check: (check.distance(addr), check.at),
            ).place
            for file in files
        )

    @functools.cached_property
    def calls(self) -> dict[int, list[int]]:
        """The known calls of each function."""
        return self.image.find_calls(self.image.unwind_starts[0])

    def has_run(self, at: int) -> bool:
        """Whether a call ran, as its write of the return address shows; a jump writes none and may have run."""
        return at in self.executed_pcs or self.image.is_jump(at)

    def caller(self, start: int) -> Panic | None:
        """A place of the one file that calls a function; none if that is unknown or there are several."""
        found: list[Panic] = []
        calls = self.calls.get(start, ()) if self.executed_pcs else ()
        # (a trace without pcs shows no call that ran)
        for at in filter(
            self.has_run, calls if any(it in self.executed_pcs for it in calls) else ()
        ):
            function = self.image.function(at)
            own = self.nearest(at, self.panic_checks(*function), 1) if function else ()
            if not own or own[0].is_library():
                return None
            found += own
        return found[0] if len({it.file for it in found}) == 1 else None

    @functools.cache
    def near(self, addr: int) -> NearPanics | None:
        """The panics near an instruction, if any."""
        function = self.image.function(addr) if self.places else None
        if function is None:
            return None
        own = self.nearest(addr, self.panic_checks(*function), NAMED)
        # (code that ran before the recording may have other callers)
        has_run = any(addr - it in self.executed_pcs for it in range(CALL_SIZE))
        caller = self.caller(function[0]) if has_run and (not own or own[0].is_library()) else None
        return NearPanics((caller,), True) if caller else NearPanics(own) if own else None
