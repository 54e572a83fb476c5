"""Small programs for growth.py: an assembler of the few RV32IM instructions that they want, and a writer of
program files."""

import struct
from contextlib import contextmanager
from typing import Iterator, NamedTuple

CODE = 0x10000
REGISTERS = (
    "zero ra sp gp tp t0 t1 t2 s0 s1 a0 a1 a2 a3 a4 a5 a6 a7 "
    "s2 s3 s4 s5 s6 s7 s8 s9 s10 s11 t3 t4 t5 t6"
).split()
NUMBERS = {name: number for number, name in enumerate(REGISTERS)}
# What of an R instruction its register fields leave: funct7 << 25 | funct3 << 12.
OPERATIONS = {"add": 0, "sub": 1 << 30, "mul": 1 << 25, "and": 7 << 12, "srl": 5 << 12}
CALLS = {
    "write": 64,
    "exit": 93,
    "exit_group": 94,
    "alloc": 1024,
    "free": 1025,
    "spawn": 1026,
    "join": 1027,
    "wait": 1028,
    "wake": 1029,
    "block": 1031,
    "unblock": 1032,
}


class Code:
    """Instructions from CODE on. Labels may be used before they stand."""

    def __init__(self) -> None:
        self.words: list[int] = []
        self.labels: dict[str, int] = {}
        self.jumps: list[tuple[int, str]] = []

    def here(self) -> int:
        return CODE + 4 * len(self.words)

    def label(self, name: str) -> None:
        self.labels[name] = self.here()

    def addi(self, to: str, of: str, number: int) -> None:
        self.words.append((number & 0xFFF) << 20 | NUMBERS[of] << 15 | NUMBERS[to] << 7 | 0x13)

    def set(self, to: str, value: int | str) -> None:
        """A number, or what another register has."""
        if isinstance(value, str):
            self.addi(to, value, 0)
        elif -2048 <= value < 2048:
            self.addi(to, "zero", value)
        else:
            self.words.append((value + 0x800 & 0xFFFFF000) | NUMBERS[to] << 7 | 0x37)
            self.addi(to, to, value & 0xFFF)

    def put(self, operation: str, to: str, one: str, other: str) -> None:
        self.words.append(
            OPERATIONS[operation]
            | NUMBERS[other] << 20
            | NUMBERS[one] << 15
            | NUMBERS[to] << 7
            | 0x33
        )

    def load(self, to: str, at: str) -> None:
        self.words.append(NUMBERS[at] << 15 | 2 << 12 | NUMBERS[to] << 7 | 0x03)

    def store(self, value: str, at: str) -> None:
        self.words.append(NUMBERS[value] << 20 | NUMBERS[at] << 15 | 2 << 12 | 0x23)

    def jump(self, to: str, link: str = "zero") -> None:
        self.jumps.append((len(self.words), to))
        self.words.append(NUMBERS[link] << 7 | 0x6F)

    def back(self) -> None:
        """A return."""
        self.words.append(NUMBERS["ra"] << 15 | 0x67)

    def call(self, name: str, *arguments: int | str) -> None:
        for number, argument in enumerate(arguments):
            if argument != f"a{number}":
                self.set(f"a{number}", argument)
        self.set("a7", CALLS[name])
        self.words.append(0x73)

    def branch(self, test: int, one: str, other: str, to: int) -> None:
        """Back to a place where 0: they are equal; 1: they aren't; 6: the first is less, without signs."""
        by = to - self.here()
        self.words.append(
            (by >> 12 & 1) << 31
            | (by >> 5 & 63) << 25
            | NUMBERS[other] << 20
            | NUMBERS[one] << 15
            | test << 12
            | (by >> 1 & 15) << 8
            | (by >> 11 & 1) << 7
            | 0x63
        )

    @contextmanager
    def times(self, count: int, counter: str) -> Iterator[None]:
        """What is put within goes round so often, once at least."""
        self.set(counter, count)
        begin = self.here()
        yield
        self.addi(counter, counter, -1)
        self.branch(1, counter, "zero", begin)

    def bytes(self) -> bytes:
        words = self.words.copy()
        for place, name in self.jumps:
            by = self.labels[name] - (CODE + 4 * place)
            words[place] |= (
                (by >> 20 & 1) << 31
                | (by >> 1 & 1023) << 21
                | (by >> 11 & 1) << 20
                | (by >> 12 & 255) << 12
            )
        return struct.pack(f"<{len(words)}I", *words)


class Segment(NamedTuple):
    addr: int
    content: bytes
    size: int
    rights: int


class Symbol(NamedTuple):
    """Its name is from a place among the names on."""

    name: int
    addr: int
    size: int
    kind: int


def elf(segments: list[Segment], symbols: list[Symbol] = [], names: bytes = b"\0") -> bytes:
    """A program file that begins at CODE."""
    rows, content = b"", b""
    begin = 52 + 32 * len(segments)
    for segment in segments:
        rows += struct.pack(
            "<8I",
            1,
            begin + len(content),
            segment.addr,
            0,
            len(segment.content),
            segment.size,
            segment.rights,
            0,
        )
        content += segment.content
    table = b"".join(
        struct.pack("<IIIBBH", symbol.name, symbol.addr, symbol.size, 16 + symbol.kind, 0, 1)
        for symbol in symbols
    )
    at = begin + len(content)
    sections = bytes(40) + struct.pack("<10I", 0, 2, 0, 0, at, len(table), 2, 0, 4, 16)
    sections += struct.pack("<10I", 0, 3, 0, 0, at + len(table), len(names), 0, 0, 1, 0)
    header = struct.pack(
        "<4sBBB9xHHIIIIIHHHHHH",
        b"\x7fELF",
        1,
        1,
        1,
        2,
        243,
        1,
        CODE,
        52,
        at + len(table) + len(names),
        0,
        52,
        32,
        len(segments),
        40,
        3,
        0,
    )
    return header + rows + content + table + names + sections


def symbol_table(places: list[tuple[str, int, int, int]]) -> tuple[list[Symbol], bytes]:
    """The symbols of names, addresses, sizes and kinds, and the bytes of their names."""
    symbols, names = [], bytearray(b"\0")
    for name, *fields in places:
        symbols.append(Symbol(len(names), *fields))
        names += name.encode() + b"\0"
    return symbols, bytes(names)
