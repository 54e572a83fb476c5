"""Functions and lines of Go programs, also stripped ones.

Go's runtime prints tracebacks from a table (`pclntab`) that every program contains, and inlined functions from trees beside it. The names
are exact; nothing is inferred where the table has no entry."""

import bisect
import contextlib
import functools
import itertools
import os
import struct
from typing import Iterator, NamedTuple, Sequence

from view.names.x86_image import Image
from view.names.source_lines import SourceLine

# The header after the first byte of its magic number: code addresses are counted in bytes, and pointers have eight.
HEAD = b"\xff\xff\xff\0\0\1\x08"
# The most headers examined in a file, and the most words that point to one.
HEADERS, POINTERS = 8, 64
# The most functions of a table, and the most steps taken in its tables of values.
FUNCTIONS, STEPS = 1 << 20, 1 << 21
# The most bytes of a name, and the deepest nesting of inlined calls.
NAME, DEEP = 1 << 12, 256
# Inlining in a function's record: the number of the table of inlined calls, and the number of the data that has their tree.
INDEX, TREE = 2, 3
# Words of the runtime's record of a module: the slices within the table, their number of functions, and the bounds of the code.
SLICES, COUNT, LOWEST, HIGHEST, TEXT = (1, 4, 7, 10, 13, 16), 17, 20, 21, 22


class Version(NamedTuple):
    """The layout of one version of the table: the number of words in the header, the format of the list of functions, of a function's
    record and of an inlined call. `data` is the module's word with the address of the trees; without one, functions have addresses of
    their own."""

    words: int
    number: str
    function: struct.Struct
    call: struct.Struct
    data: int | None


# By the first byte of the magic number: of Go 1.16, 1.18 and 1.20.
VERSIONS = {
    0xFA: Version(7, "Q", struct.Struct("<8xI12x4I3xB"), struct.Struct("<12xIi"), None),
    0xF0: Version(8, "I", struct.Struct("<4xI12x4I3xB"), struct.Struct("<12xIi"), 38),
    0xF1: Version(8, "I", struct.Struct("<4xI12x4I7xB"), struct.Struct("<4xIi4x"), 40),
}


class LoadedImage(Image):
    """A program as it is loaded."""

    @functools.cached_property
    def relocated_words(self) -> dict[int, int]:
        """The words that the loader relocates, in a position-independent program."""
        return {} if self.is_fixed else self.words

    def word(self, addr: int) -> int:
        return (
            self.relocated_words[addr]
            if addr in self.relocated_words
            else int.from_bytes(self.bytes(addr, 8), "little")
        )

    def find_bytes(self, what: bytes) -> Iterator[int]:
        """The addresses of some bytes."""
        for begin, data in self.parts:
            at = data.find(what)
            while at >= 0:
                yield begin + at
                at = data.find(what, at + 1)

    def find_pointers(self, to: int) -> Iterator[int]:
        """The words that contain an address."""
        moved = (addr for addr, it in self.relocated_words.items() if it == to)
        return self.find_bytes(to.to_bytes(8, "little")) if self.is_fixed else moved


class Function(NamedTuple):
    """A function: its start, its size, its record, and the address of the numbers behind the record."""

    start: int
    size: int
    name: int
    files: int
    lines: int
    tables: int
    unit: int
    pieces: int
    at: int


def decode_numbers(data: bytes, at: int) -> Iterator[int]:
    """Decodes numbers of seven bits per byte, the lowest first; the last byte of each is below 128."""
    value = shift = 0
    for byte in memoryview(data)[at:]:
        value |= (byte & 0x7F) << shift
        shift += 7
        if byte < 0x80:
            yield value
            value = shift = 0
        elif shift > 28:
            return


class Table:
    """The table whose header is at an address. Any exception means that there is none."""

    def __init__(self, image: LoadedImage, at: int) -> None:
        self.image, self.left = image, STEPS
        self.begin, self.data = next(it for it in image.parts if it[0] <= at < it[0] + len(it[1]))
        self.version = VERSIONS[self.data[at - self.begin]]
        words = struct.unpack_from(f"<{self.version.words}Q", self.data, at - self.begin + 8)
        self.count, places = words[0], [at + it for it in words[-5:]]
        self.names, self.units, self.files, self.values, self.functions = places
        first, last = at + 8 + 8 * self.version.words, self.begin + len(self.data)
        if (
            at % 8
            or not 0 < self.count <= FUNCTIONS
            or [first, *places, last] != sorted([first, *places, last])
        ):
            raise ValueError("not the header of a table")
        self.module = self.module_of(at)
        text = self.module[TEXT] if self.module else image.word(at + 24)
        self.starts, self.records = self.read_functions(0 if self.version.number == "Q" else text)
        self.check()

    def module_of(self, at: int) -> Sequence[int]:
        """The words of the runtime's record of the module that points to the table; empty if not found."""
        wanted = [
            self.names,
            self.units,
            self.files,
            self.values,
            self.functions,
            self.functions,
            self.count + 1,
        ]
        for place in itertools.islice(self.image.find_pointers(at), POINTERS):
            words = [
                self.image.word(place + 8 * number)
                for number in range((self.version.data or TEXT) + 1)
            ]
            if [words[it] for it in (*SLICES, COUNT)] == wanted:
                return words
        return ()

    def read_functions(self, text: int) -> tuple[list[int], Sequence[int]]:
        """The start of each function and the end of the last, and the place of each record."""
        size = struct.calcsize(self.version.number)
        found = struct.unpack_from(
            f"<{2 * self.count + 1}{self.version.number}", self.data, self.functions - self.begin
        )
        if size == 8 and not self.image.is_fixed:
            return [
                self.image.word(self.functions + 16 * number) for number in range(self.count + 1)
            ], found[1::2]
        return [text + it for it in found[::2]], found[1::2]

    def check(self) -> None:
        """Refuses functions that don't ascend, lie outside code, or aren't those of the module."""
        low, high = self.starts[0], self.starts[-1]
        is_code = any(begin <= low and high <= begin + len(code) for begin, code in self.image.code)
        is_module = not self.module or (self.module[LOWEST], self.module[HIGHEST]) == (low, high)
        if (
            not is_code
            or not is_module
            or any(it > other for it, other in itertools.pairwise(self.starts))
        ):
            raise ValueError("the functions aren't in order")

    @functools.cache
    def function(self, at: int) -> Function:
        place, how = self.functions + self.records[at], self.version.function
        name, files, lines, tables, unit, pieces = how.unpack_from(self.data, place - self.begin)
        start, end = self.starts[at : at + 2]
        return Function(
            start, end - start, name, files, lines, tables, unit, pieces, place + how.size
        )

    @functools.cache
    def steps(self, table: int) -> tuple[list[int], list[int]]:
        """The values of a table, and the end of each, as offsets in the function."""
        ends, values, end, value = list[int](), list[int](), 0, -1
        numbers = decode_numbers(self.data, self.values + table - self.begin)
        for change, size in zip(numbers, numbers):
            if not size or not change and ends or not self.left:
                break
            self.left -= 1
            end += size
            value += -(change + 1) // 2 if change % 2 else change // 2
            ends.append(end)
            values.append(value)
        return ends, values

    def value(self, table: int, addr: int) -> int | None:
        """A table's value at an offset in the function: -1 without a table, and none past its end."""
        if not table:
            return -1
        ends, values = self.steps(table)
        at = bisect.bisect_right(ends, addr)
        return values[at] if at < len(values) else None

    def text(self, begin: int, end: int, offset: int) -> str:
        """The text at an offset in a list of zero-terminated texts; empty if none begins there."""
        at, last = begin + offset - self.begin, end - self.begin
        stop = (
            self.data.find(b"\0", at, min(at + NAME, last))
            if offset == 0 or self.data[at - 1 : at] == b"\0"
            else -1
        )
        return self.data[at:stop].decode("utf-8", "replace") if stop > at else ""

    def name(self, offset: int) -> str:
        return self.text(self.names, self.units, offset)

    def file(self, own: Function, addr: int) -> str:
        """The source file at an offset in a function: each compilation unit has a list of its files."""
        number = self.value(own.files, addr)
        at = self.units + 4 * (own.unit + (number or 0))
        if number is None or number < 0 or at + 4 > self.files:
            return ""
        file = self.text(self.files, self.values, self.number(at))
        return file and os.path.normpath(file)

    def number(self, addr: int) -> int:
        return int(struct.unpack_from("<I", self.data, addr - self.begin)[0])

    def place(self, own: Function, function: str, addr: int) -> SourceLine:
        file, line = self.file(own, addr), self.value(own.lines, addr)
        return (
            SourceLine(function, file, line)
            if file and line is not None and line > 0
            else SourceLine(function, "", 0)
        )

    def index(self, own: Function, addr: int) -> int | None:
        """The inlined call at an offset in a function: -1 if there is none, and none if unknown."""
        return self.value(self.number(own.at + 4 * INDEX), addr) if own.tables > INDEX else -1

    def tree(self, own: Function) -> int:
        """The address of a function's tree of inlined calls, or 0 if unknown."""
        at = own.at + 4 * own.tables
        if own.pieces <= TREE:
            return 0
        if self.version.data is None:
            return self.image.word((at + 7) // 8 * 8 + 8 * TREE)
        return self.module[self.version.data] + self.number(at + 4 * TREE) if self.module else 0

    def call(self, own: Function, index: int) -> tuple[str, int]:
        """The name of an inlined function and the offset of its call; an empty name if unknown."""
        tree, how = self.tree(own), self.version.call
        data = self.image.bytes(tree + how.size * index, how.size) if tree else b""
        name, place = how.unpack(data) if any(data) else (0, -1)
        return (self.name(name), place) if place >= 0 else ("", 0)

    def frames(self, addr: int) -> list[SourceLine]:
        """The functions inlined at an address, the innermost first. If they are unknown, the line alone: the outer function isn't the one
        that contains the line."""
        at = bisect.bisect_right(self.starts, addr) - 1
        if not 0 <= at < self.count:
            return []
        own, found = self.function(at), list[SourceLine]()
        inner = place = addr - own.start
        index = self.index(own, place)
        while index is not None and index >= 0:
            name, call = self.call(own, index)
            found.append(self.place(own, name, place))
            outer = self.index(own, call)
            # (an inlined call has a higher number than the call around it)
            is_known = name and outer is not None and outer < index and len(found) <= DEEP
            place, index = call, outer if is_known else None
        name = self.name(own.name)
        if index is None or not name:
            return [it for it in [self.place(own, "", inner)] if it.file]
        return [*found, self.place(own, name, place)]


def find_table(path: str) -> Table | None:
    """The table of a program: the one that the runtime's record points to, or else the only one."""
    image, found = LoadedImage(path), list[Table]()
    for at in itertools.islice(image.find_bytes(HEAD), HEADERS):
        with contextlib.suppress(Exception):
            found.append(Table(image, at - 1))
    whole = next((it for it in found if it.module), None)
    return whole or (found[0] if len(found) == 1 else None)
