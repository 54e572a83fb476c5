"""The loaded parts of an x86-64 program, and the addresses that its code refers to, from its file alone, which may have no symbols.

Instructions are recognised by their bytes. A false match would have to contain exactly an address of the program."""

import bisect
import contextlib
import functools
import itertools
import os
import re
import struct
from typing import Iterable, Iterator, NamedTuple

from elftools.elf.elffile import ELFFile

# The most bytes of code that are searched as a whole.
MOST = 32 << 20
# The longest literal.
LONGEST = 4096
# The most packed relocations that are read: each word of 8 bytes has up to 63.
PACKED = 1 << 20
# Tags of the dynamic section, and the types of relocations: a symbol's address, those of symbols in slots, and an address of the program.
RELA, RELA_SIZE, RELR_SIZE, RELR, PLT, PLT_SIZE, NAMES, SYMBOLS = 7, 8, 35, 36, 23, 2, 5, 6
ABSOLUTE, IN_SLOT, RELATIVE = 1, (1, 6, 7), 8
EXECUTABLE, WRITABLE, FIXED, FUNCTION = 1, 2, "ET_EXEC", 2
LOADED = ("PT_LOAD", "PT_DYNAMIC")
# The formats of the unwind table and its entries, as all linkers write them; of relocations, and of symbols.
TABLE, LINK, RELOCATION, SYMBOL = (
    b"\x01\x1b\x03\x3b",
    struct.Struct("<ii"),
    struct.Struct("<QQq"),
    struct.Struct("<IBBHQQ"),
)


Pattern = re.Pattern[bytes]
# An address, and the bytes there.
Part = tuple[int, bytes]


class Form(NamedTuple):
    """The form of an instruction that ends with a distance to its operand: a pattern, the offset of the byte that the pattern begins
    with, and the size. (A search for a pattern that begins with a fixed byte is much faster.)"""

    pattern: Pattern
    first: int
    size: int


def form(pattern: bytes, first: int, size: int) -> Form:
    return Form(re.compile(pattern, re.DOTALL), first, size)


# Calls, jumps, both through a word, jumps on a condition, and near jumps; `lea`, and `mov` from a word.
CALL, JUMP, THROUGH = (
    form(rb"\xe8(?=(....))", 0, 5),
    form(rb"\xe9(?=(....))", 0, 5),
    form(rb"\xff(?=[\x15\x25](....))", 0, 6),
)
FAR, SHORT = form(rb"\x0f(?=[\x80-\x8f](....))", 0, 6), form(rb"(?=[\x70-\x7f](.))", 0, 2)
NEAR = form(rb"\xeb(?=(.))", 0, 2)
LEA = form(rb"\x8d(?<=[\x48\x4c]\x8d)(?=[\x05\x0d\x15\x1d\x25\x2d\x35\x3d](....))", 1, 7)
LOAD = form(rb"\x8b(?<=[\x48\x4c]\x8b)(?=[\x05\x0d\x15\x1d\x25\x2d\x35\x3d](....))", 1, 7)
# `mov` of a number, which may be an address in a program with a fixed place; and of one whose highest byte is at most a given one, to a
# register and to memory.
MOVE = re.compile(rb"[\xb8-\xbf](?=(....))", re.DOTALL)
MOVES = (
    rb"[\xb8-\xbf](?=(...[\x00-%b]))",
    rb"\xc7(?=(?:\x05....|\x04\x24|\x44\x24.|[\x40-\x43\x45-\x47].|[\x00-\x03\x06\x07])(...[\x00-%b]))",
)


class Image:
    """The loaded parts of an x86-64 program; empty for another file."""

    def __init__(self, path: str) -> None:
        self.parts: list[Part] = []
        self.code: list[Part] = []
        self.constant: list[tuple[int, int]] = []
        self.dynamic, self.table, self.is_fixed, self.is_go = b"", 0, False, False
        self.exports, self.has_sections = (0, 0), False
        with open(path, "rb") as file:
            elf = ELFFile(file)
            if elf["e_machine"] != "EM_X86_64" or elf.elfclass != 64:
                return
            self.is_fixed = elf["e_type"] == FIXED
            left = 2 * os.fstat(file.fileno()).st_size
            for segment in elf.iter_segments():
                # (loaded segments lie side by side in the file, and one of them contains the dynamic section)
                left -= segment["p_filesz"] if segment["p_type"] in LOADED else 0
                if left < 0:
                    return
                if segment["p_type"] == "PT_LOAD":
                    self.parts.append((segment["p_vaddr"], segment.data()))
                    if segment["p_flags"] & EXECUTABLE:
                        self.code.append(self.parts[-1])
                    elif not segment["p_flags"] & WRITABLE:
                        self.constant.append(
                            (segment["p_vaddr"], segment["p_vaddr"] + segment["p_filesz"])
                        )
                elif segment["p_type"] == "PT_DYNAMIC":
                    self.dynamic = segment.data()
                elif segment["p_type"] == "PT_GNU_EH_FRAME":
                    self.table = segment["p_vaddr"]
            # (constants may lie in one segment with the code)
            with contextlib.suppress(Exception):
                self.read_sections(elf)

    def read_sections(self, elf: ELFFile) -> None:
        """Takes the constants and the exported symbols from the sections, if the file still has them."""
        found = [
            (section["sh_type"], section["sh_flags"], section["sh_addr"], section["sh_size"])
            for section in elf.iter_sections()
        ]
        constant = [
            (addr, addr + size)
            for kind, flags, addr, size in found
            if kind == "SHT_PROGBITS" and flags & 7 == 2 and size
        ]
        self.constant, self.has_sections = constant or self.constant, bool(constant)
        self.exports = next(
            ((addr, size) for kind, _, addr, size in found if kind == "SHT_DYNSYM"), (0, 0)
        )
        self.is_go = any(
            section.name in (".gopclntab", ".data.rel.ro.gopclntab", ".go.buildinfo")
            for section in elf.iter_sections()
        )

    def text(self, addr: int) -> bytes:
        """The bytes from an address up to the next zero byte; empty if there is none nearby."""
        for begin, data in self.parts:
            if begin <= addr < begin + len(data):
                end = data.find(b"\0", addr - begin, addr - begin + LONGEST)
                return data[addr - begin : end] if end >= 0 else b""
        return b""

    def bytes(self, addr: int, size: int) -> bytes:
        """Some bytes at an address; empty if the file doesn't contain them."""
        for begin, data in self.parts:
            if begin <= addr and addr + size <= begin + len(data):
                return data[addr - begin : addr - begin + size]
        return b""

    def is_code(self, addr: int) -> bool:
        return any(
            begin <= addr < begin + len(data) for begin, data in self.code
        ) and not self.is_constant(addr)

    @functools.cached_property
    def bounds(self) -> list[int]:
        """The beginnings and ends of constant ranges, alternating."""
        return [it for own in sorted(self.constant) for it in own]

    def is_constant(self, addr: int) -> bool:
        """Whether an address lies in memory that is neither written nor executed."""
        return bisect.bisect_right(self.bounds, addr) % 2 == 1

    def begins(self, addr: int) -> bool:
        """Whether a literal begins at an address: it is the first byte of a range, or a zero byte precedes it."""
        return any(begin == addr for begin, _ in self.constant) or self.bytes(addr - 1, 1) == b"\0"

    @functools.cached_property
    def tags(self) -> dict[int, int]:
        """The entries of the dynamic section."""
        return {
            tag: value
            for tag, value in struct.iter_unpack(
                "<qQ", self.dynamic[: len(self.dynamic) // 16 * 16]
            )
        }

    def relocations(self, place: int, size: int) -> Iterator[tuple[int, int, int]]:
        """A table of relocations, given the tags of its address and its size."""
        table = self.bytes(
            self.tags.get(place, 0), self.tags.get(size, 0) // RELOCATION.size * RELOCATION.size
        )
        yield from ((addr, info, by) for addr, info, by in RELOCATION.iter_unpack(table))

    def pointers(self) -> Iterator[tuple[int, int]]:
        """Each word that the loader relocates, with its address; in a program at a fixed place each word that may be an address."""
        for addr, info, to in self.relocations(RELA, RELA_SIZE):
            if info & 0xFFFFFFFF == RELATIVE:
                yield addr, to
        relr = self.bytes(self.tags.get(RELR, 0), self.tags.get(RELR_SIZE, 0) // 8 * 8)
        for addr in itertools.islice(
            unpack_relocations(it for (it,) in struct.iter_unpack("<Q", relr)), PACKED
        ):
            yield addr, int.from_bytes(self.bytes(addr, 8), "little")
        low, high = min((it for it, _ in self.parts), default=0), max(
            (it + len(data) for it, data in self.parts), default=0
        )
        for begin, data in filter(self.has_words, self.parts) if self.is_fixed else ():
            first = -begin % 8
            words = memoryview(data)[first : first + (len(data) - first) // 8 * 8].cast("Q")
            yield from (
                (begin + first + 8 * at, word)
                for at, word in enumerate(words)
                if low <= word < high and word
            )

    def has_words(self, part: Part) -> bool:
        """Whether a part may contain addresses: by its sections it has more than code."""
        begin, end = part[0], part[0] + len(part[1])
        return (
            part not in self.code
            or not self.has_sections
            or any(begin <= at < end for at in self.bounds)
        )

    @functools.cached_property
    def words(self) -> dict[int, int]:
        return dict(self.pointers())

    def symbol(self, index: int) -> tuple[str, int]:
        """The name of a dynamic symbol and its address, 0 if another file defines it."""
        data = (
            self.bytes(self.tags.get(SYMBOLS, 0) + SYMBOL.size * index, SYMBOL.size)
            if SYMBOLS in self.tags
            else b""
        )
        if not data:
            return "", 0
        name, _, _, part, value, _ = SYMBOL.unpack(data)
        return self.text(self.tags.get(NAMES, 0) + name).decode("latin-1"), value if part else 0

    @functools.cached_property
    def symbol_words(self) -> dict[int, int]:
        """Each word that the loader sets to a symbol's address, with that address, 0 if another file defines it."""
        rows = self.relocations(RELA, RELA_SIZE)
        found = (
            (addr, self.symbol(info >> 32)[1], by)
            for addr, info, by in rows
            if info & 0xFFFFFFFF == ABSOLUTE
        )
        return {addr: to and to + by for addr, to, by in found}

    def slots(self, name: str) -> set[int]:
        """The words that the loader sets to the address of another file's function."""
        rows = [*self.relocations(PLT, PLT_SIZE), *self.relocations(RELA, RELA_SIZE)]
        return {
            addr
            for addr, info, _ in rows
            if info & 0xFFFFFFFF in IN_SLOT and self.symbol(info >> 32) == (name, 0)
        }

    @functools.cached_property
    def exported_functions(self) -> dict[int, int]:
        """The starts and sizes of exported functions."""
        addr, size = self.exports
        rows = SYMBOL.iter_unpack(self.bytes(addr, size // SYMBOL.size * SYMBOL.size))
        return {
            value: size
            for _, info, _, part, value, size in rows
            if info & 15 == FUNCTION and part and self.is_code(value)
        }

    @functools.cached_property
    def unwind_starts(self) -> tuple[list[int], list[int]]:
        """The starts of functions and their unwind entries, from the binary search table."""
        head = self.bytes(self.table, 12)
        if head[:4] != TABLE:
            return [], []
        count = int.from_bytes(head[8:], "little")
        rows = list(LINK.iter_unpack(self.bytes(self.table + 12, 8 * count)))
        return [self.table + start for start, _ in rows], [self.table + entry for _, entry in rows]

    def function(self, addr: int) -> tuple[int, int] | None:
        """The range of an instruction's function in that table."""
        starts, entries = self.unwind_starts
        at = bisect.bisect_right(starts, addr) - 1
        data = self.bytes(entries[at] + 8, 8) if at >= 0 else b""
        if not data:
            return None
        start, size = LINK.unpack(data)
        # (an entry in another encoding would begin elsewhere)
        if start + entries[at] + 8 != starts[at] or addr >= starts[at] + size:
            return None
        return starts[at], starts[at] + size

    @functools.cache
    def find_references(self, form: Form) -> list[tuple[int, int]]:
        """The instructions of a form in all code, with their operands; empty if there is too much code."""
        is_small = sum(len(code) for _, code in self.code) <= MOST
        return [it for begin, code in self.code if is_small for it in find_jumps(code, begin, form)]

    @functools.cached_property
    def moves(self) -> list[Pattern]:
        """The patterns of loaded numbers that may be addresses; empty for a position-independent program."""
        last = max((begin + len(data) for begin, data in self.parts), default=0) >> 24
        return (
            [re.compile(it % re.escape(bytes([min(last, 255)])), re.DOTALL) for it in MOVES]
            if self.is_fixed
            else []
        )

    @functools.cached_property
    def number_loads(self) -> list[tuple[int, int]]:
        """The loads of such numbers in all code, with the numbers."""
        is_small = sum(len(code) for _, code in self.code) <= MOST
        return [
            pair
            for begin, code in self.code
            if is_small
            for pattern in self.moves
            for pair in find_numbers(code, begin, pattern)
        ]

    def find_calls(self, starts: Iterable[int]) -> dict[int, list[int]]:
        """The calls of some functions. Functions whose address is taken otherwise may be called from anywhere and are left out, and so are
        all those of a program at a fixed place, where any number may be an address."""
        found: dict[int, list[int]] = {it: [] for it in starts if not self.is_fixed}
        words = {addr: to for addr, to in self.words.items() if to in found}
        through = set[int]()
        for at, to in (*self.find_references(CALL), *self.find_references(JUMP)) if found else ():
            if to in found:
                found[to].append(at)
        for at, word in self.find_references(THROUGH) if words else ():
            if word in words:
                found[words[word]].append(at)
                through.add(word)
        taken = {to for _, to in self.find_references(LEA) if to in found} if found else set()
        taken.update(
            words[word]
            for _, word in (self.find_references(LOAD) if words else ())
            if word in words
        )
        taken.update(to for word, to in words.items() if word not in through)
        return {start: sorted(calls) for start, calls in found.items() if start not in taken}

    def is_jump(self, at: int) -> bool:
        """Whether the instruction is a jump and not a call, which would write a return address."""
        return self.bytes(at, 1) == b"\xe9" or self.bytes(at, 2) == b"\xff\x25"


def unpack_relocations(words: Iterable[int]) -> Iterator[int]:
    """Unpacks relocations: an even word is an address, and an odd word has a bit for each of the 63 words that follow."""
    base = 0
    for word in words:
        if word % 2 == 0:
            yield word
            base = word + 8
        else:
            yield from (base + 8 * bit for bit in range(63) if word >> (bit + 1) & 1)
            base += 8 * 63


def find_jumps(code: bytes, begin: int, form: Form) -> Iterator[tuple[int, int]]:
    """The places that look like an instruction of a form, each with its operand's address, relative to the instruction's end."""
    start = begin - form.first
    for match in form.pattern.finditer(code):
        at = start + match.start()
        yield at, at + form.size + int.from_bytes(match[1], "little", signed=True)


def find_numbers(code: bytes, begin: int, pattern: Pattern) -> Iterator[tuple[int, int]]:
    """The places that look like a `mov` of a number, with the number."""
    return ((begin + it.start(), int.from_bytes(it[1], "little")) for it in pattern.finditer(code))


def conditional_jumps(code: bytes, begin: int) -> dict[int, list[int]]:
    """The targets of conditional jumps, each with the jumps to it."""
    found: dict[int, list[int]] = {}
    for at, to in (*find_jumps(code, begin, FAR), *find_jumps(code, begin, SHORT)):
        found.setdefault(to, []).append(at)
    return found
