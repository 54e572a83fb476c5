"""The ranges of functions in stripped code.

The unwind table contains them, and the symbol table those of exported functions. C and C++ may be built without an unwind table. Then a
function is inferred to begin where a call or a taken address leads to, if that looks like a beginning, and to end where the next begins."""

import bisect
import functools
import re
import struct
from typing import Iterable, Iterator

from view.names.x86_image import CALL, FAR, JUMP, LEA, NEAR, SHORT, Image, find_jumps

# Functions begin at multiples of this, unless they are compiled for size.
ALIGNED = 16
# The bytes before an unaligned function: the end of the one before, and padding; the longest of these.
BEFORE = re.compile(
    rb"(?:\xc3|\x90|\xcc|\x0f\x1f(?:\x00|\x40\x00|\x44\x00\x00|\x80\x00{4}|\x84\x00{5}))\Z"
)
LONGEST_BEFORE = 8
# The end of a function, or a call that doesn't return, and the padding behind it; the longest of these.
FILLED = re.compile(
    rb"(?:\xc3|\xe9.{4}|\xeb.|\xe8.{4}|\x0f\x0b|\xff[\xe0-\xe7]|\xf4)"
    rb"(?:\x90|\xcc|\x66\x90|(?:\x66*\x2e)?\x66?\x0f\x1f(?:\x00|\x40\x00|\x44\x00\x00|\x80\x00{4}|\x84\x00{5}))+\Z",
    re.DOTALL,
)
FILLED_SIZE = 24
# The largest inferred function, in bytes.
LARGEST = 1 << 17
# The most distances in a jump table.
DISTANCE, BRANCHES = struct.Struct("<i"), 512

Range = tuple[int, int]


class Functions:
    """The functions of a program, some of which begin at known addresses."""

    def __init__(self, image: Image, known: Iterable[int] = ()) -> None:
        self.image, self.known = image, known

    @functools.cached_property
    def called_addresses(self) -> set[int]:
        """The targets of calls."""
        return {to for _, to in self.image.find_references(CALL)}

    def is_beginning(self, addr: int) -> bool:
        """Whether a function may begin at the target of a call."""
        return addr % ALIGNED == 0 or self.is_behind(addr)

    def outside(self, starts: list[int]) -> Iterator[int]:
        """The targets of jumps out of a function to an address that looks like a beginning."""
        for at, to in self.image.find_references(JUMP):
            if (
                to % ALIGNED == 0
                and bisect.bisect_right(starts, at) != bisect.bisect_right(starts, to)
                and self.is_behind(to)
            ):
                yield to

    def is_behind(self, addr: int) -> bool:
        """Whether the bytes before an address end a function or are padding."""
        return bool(BEFORE.search(self.image.bytes(addr - LONGEST_BEFORE, LONGEST_BEFORE)))

    @functools.cached_property
    def starts(self) -> list[int]:
        """The known and inferred beginnings of functions."""
        image = self.image
        sure = {*image.unwind_starts[0], *image.exported_functions, *self.known}
        maybe = {it for it in self.called_addresses if self.is_beginning(it)}
        maybe.update(
            to for _, to in (*image.find_references(LEA), *image.number_loads) if to % ALIGNED == 0
        )
        maybe.update(
            to for to in (() if image.is_fixed else image.words.values()) if to % ALIGNED == 0
        )
        ends = {
            function[1] for start in image.unwind_starts[0] if (function := image.function(start))
        }
        ends.update(start + size for start, size in image.exported_functions.items() if size)
        maybe.update(-it // ALIGNED * -ALIGNED for it in ends)
        found = sure | self.bare(maybe)
        found |= self.bare(self.outside(sorted(found)))
        return sorted(found)

    def bare(self, addrs: Iterable[int]) -> set[int]:
        """The addresses of code that the unwind table doesn't cover."""
        return {it for it in addrs if self.image.is_code(it) and self.image.function(it) is None}

    def function(self, addr: int) -> Range | None:
        """The range of an instruction's function."""
        known = self.image.function(addr)
        if known or not self.image.is_code(addr):
            return known
        at = bisect.bisect_right(self.starts, addr) - 1
        start = self.starts[at] if at >= 0 else 0
        size = self.image.exported_functions.get(start, 0)
        if size or at < 0:
            return (start, start + size) if addr < start + size else None
        last = next(
            begin + len(code)
            for begin, code in self.image.code
            if begin <= addr < begin + len(code)
        )
        end = min([last, *self.starts[at + 1 : at + 2]])
        return (
            self.split_range(start, end, addr)
            if end <= start + LARGEST and self.image.function(start) is None
            else None
        )

    def split_range(self, start: int, end: int, addr: int) -> Range:
        """The range of an instruction between two beginnings: a function that is never called may begin there behind padding, if no jump
        in between leads to it."""
        begins = self.unreached_starts(start, end)
        at = bisect.bisect_right(begins, addr)
        return begins[at - 1] if at else start, begins[at] if at < len(begins) else end

    @functools.cache
    def unreached_starts(self, start: int, end: int) -> list[int]:
        """The places between two beginnings where such a function may begin."""
        code = self.image.bytes(start, end - start)
        places = range((start // ALIGNED + 1) * ALIGNED, end, ALIGNED)
        found = [
            place
            for place in places
            if FILLED.search(code[max(place - start - FILLED_SIZE, 0) : place - start])
        ]
        reached = (
            {to for form in (FAR, SHORT, JUMP, NEAR) for _, to in find_jumps(code, start, form)}
            if found
            else set[int]()
        )
        reached.update(
            target
            for _, table in (find_jumps(code, start, LEA) if found else ())
            for target in self.branches(table, start, end)
        )
        return [it for it in found if it not in reached]

    def branches(self, table: int, start: int, end: int) -> Iterator[int]:
        """The targets of a jump table, whose entries are distances from the table."""
        for at in range(
            table,
            table + BRANCHES * DISTANCE.size if self.image.is_constant(table) else 0,
            DISTANCE.size,
        ):
            data = self.image.bytes(at, DISTANCE.size)
            to = table + DISTANCE.unpack(data)[0] if data else 0
            if not start <= to < end:
                return
            yield to

    def number(self, addr: int) -> int:
        """The number of an instruction's function, which distinguishes functions."""
        return bisect.bisect_right(self.starts, addr)

    @functools.cached_property
    def calls(self) -> dict[int, list[int]]:
        """The known calls of each function."""
        return self.image.find_calls(self.starts)

    @functools.cache
    def parts(self, start: int, end: int) -> list[Range]:
        """The parts of a function: code that seldom runs stands apart and is reached by jumps only. The unwind table contains it."""
        found = [(start, end)]
        for _, to in find_jumps(self.image.bytes(start, end - start), start, FAR):
            part = self.image.function(to) if not start <= to < end else None
            if (
                part
                and part not in found
                and part[0] not in self.called_addresses
                and part[0] not in self.image.exported_functions
            ):
                found.append(part)
        return found
