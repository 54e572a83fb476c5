"""Traces that growth.py makes, of any size: what stands in each, and what the commands must say of it. By
docs/FORMATS.md alone."""

import random
import struct
from typing import Callable, NamedTuple

from traces import FUNCTION, OBJECT

LINE = 64
# Where lines, functions and the like lie.
LINES, CODE, ELSEWHERE = 0x100000, 0x10000, 0xF0000000
SITES = (0, 0, 0, 0)


class TraceCaseFile(NamedTuple):
    """A trace: how many harts and accesses it has; how many lines are listed with `tracking` and `report` of
    1 and the settings here; how many lines of objects and of sites stand below them; and a name for `place`.
    For `blame` its accesses have so many pcs, in turn, and for `move` the places of its lines may fall as the
    lines rise."""

    trace: bytes
    harts: int
    accesses: int
    lines: int
    objects: int = 0
    sites: int = 0
    object: str = ""
    settings: str = ""
    pcs: int = 2
    is_turned: bool = False


class Trace:
    """A trace of version 1 that is being made."""

    def __init__(self, harts: int = 8, first: int = 0) -> None:
        self.bytes = bytearray(struct.pack("<8sQHH", b"PRDTRC01", first, harts, 0))
        self.harts = harts
        self.accesses = 0

    def touch(self, hart: int, addr: int, writes: bool = True) -> None:
        self.bytes += struct.pack("<BHIB", 1 + writes, hart, addr, 4)
        self.accesses += 1

    def share(self, addr: int) -> None:
        """Two harts take the line at an address from each other, for words of their own."""
        for hart in (0, 1, 0):
            self.touch(hart, addr + 4 * hart)

    def symbol(self, kind: int, addr: int, size: int, name: bytes) -> None:
        self.bytes += struct.pack("<BBIIH", 5, kind, addr, size, len(name)) + name

    def alloc(self, addr: int, size: int, sites: tuple[int, ...] = SITES) -> None:
        self.bytes += struct.pack("<BII4I", 3, addr, size, *sites)

    def free(self, addr: int) -> None:
        self.bytes += struct.pack("<BI", 4, addr)

    def made(
        self, lines: int, objects: int = 0, sites: int = 0, object: str = "", settings: str = ""
    ) -> TraceCaseFile:
        end = struct.pack("<B8xQQ", 6, self.accesses, self.accesses)
        return TraceCaseFile(
            bytes(self.bytes) + end,
            self.harts,
            self.accesses,
            lines,
            objects,
            sites,
            object,
            settings,
        )


def shuffled(n: int) -> list[int]:
    """The numbers below n, always in the same order."""
    numbers = list(range(n))
    random.Random(1).shuffle(numbers)
    return numbers


def rest_of_trace(made: TraceCaseFile) -> bytes:
    """The trace without an access that goes on behind another one."""
    return Trace(made.harts, made.accesses).made(0).trace


# ---- Symbols.


def symbols_apart(n: int) -> TraceCaseFile:
    """Each on a line of its own."""
    trace = Trace()
    for i in range(n):
        trace.symbol(OBJECT, LINES + LINE * i, 8, b"symbol%d" % i)
    for i in range(n):
        trace.share(LINES + LINE * i)
    return trace.made(n, objects=n, object=f"symbol{n - 1}")


def symbols_shuffled(n: int) -> TraceCaseFile:
    """The same, neither declared nor used in the order of their addresses; each reaches over three lines."""
    trace = Trace()
    for i in shuffled(n):
        trace.symbol(OBJECT, LINES + LINE * i, 3 * LINE, b"symbol%d" % i)
    for i in shuffled(n):
        trace.share(LINES + LINE * (i + 2))
    return trace.made(n, objects=3 * n - 3, object="symbol0")


def symbols_nested(n: int) -> TraceCaseFile:
    """A tree of them, as structures in structures: each but those of one line holds two others."""
    trace = Trace()
    objects, length = 0, n // 2
    while length > 0:
        for i in range(0, n // 2, length):
            trace.symbol(OBJECT, LINES + LINE * i, LINE * length, b"node%d.%d" % (i, length))
            objects += length
        length //= 2
    for i in range(n // 2):
        trace.share(LINES + LINE * i)
    return trace.made(n // 2, objects=objects, object="node0.1")


def symbols_under_one(n: int) -> TraceCaseFile:
    """One lies over all the others."""
    trace = Trace()
    trace.symbol(OBJECT, LINES, LINE * n + 4, b"all")
    for i in range(n):
        trace.symbol(OBJECT, LINES + LINE * i, 8, b"part%d" % i)
    for i in range(n):
        trace.share(LINES + LINE * i)
    return trace.made(n, objects=2 * n, object="all")


def symbols_equal(n: int) -> TraceCaseFile:
    """Each symbol comes four times, and those of every eighth line begin at one place."""
    trace = Trace()
    for i in range(4 * n):
        place = i % n
        trace.symbol(OBJECT, LINES + LINE * (place // 8), 8 + place % 8, b"symbol%d" % i)
    for i in range(n):
        trace.share(LINES + LINE * i)
    return trace.made(n, objects=n, object="symbol0")


def symbols_at_one_place(n: int) -> TraceCaseFile:
    """All of them begin at one line, which is listed, and so are as many lines where none is."""
    trace = Trace()
    for i in range(n):
        trace.symbol(OBJECT, LINES, 8 + 4 * i, b"symbol%d" % i)
    trace.share(LINES)
    for i in range(n):
        trace.share(ELSEWHERE + LINE * i)
    return trace.made(n + 1, objects=n, object=f"symbol{n - 1}")


def names_long(n: int) -> TraceCaseFile:
    """Symbols apart, with names of 1024 bytes that aren't printed as they are."""
    trace = Trace()
    for i in range(n):
        trace.symbol(OBJECT, LINES + LINE * i, 8, b"%06d" % i + b"\xff" * 1018)
        trace.share(LINES + LINE * i)
    return trace.made(n, objects=n)


# ---- Functions and call sites.


def functions(n: int) -> TraceCaseFile:
    """Blocks on lines of their own, each with four sites in four functions."""
    trace = Trace()
    for i in range(n):
        trace.symbol(FUNCTION, CODE + 16 * i, 16, b"function%d" % i)
    for i in range(n):
        sites = tuple(CODE + 16 * ((i + k * n // 4) % n) + 8 for k in range(4))
        trace.alloc(LINES + LINE * i, 48, sites)
    for i in range(n):
        trace.share(LINES + LINE * i)
    return trace.made(n, objects=n, sites=4 * n, object=f"0x{LINES:x}")


def functions_nested(n: int) -> TraceCaseFile:
    """The same with one function around all of them, which comes last, and sites that no function holds."""
    trace = Trace()
    for i in range(n):
        trace.symbol(FUNCTION, CODE + 16 * i, 8, b"function%d" % i)
    trace.symbol(FUNCTION, CODE, 16 * n + 8, b"all")
    for i in shuffled(n):
        trace.alloc(LINES + LINE * i, 48, (CODE + 16 * i, CODE + 16 * i + 8, CODE + 16 * n + 8, 1))
        trace.share(LINES + LINE * i)
    return trace.made(n, objects=n, sites=4 * n, object=f"0x{LINES:x}")


# ---- Blocks.


def blocks_apart(n: int) -> TraceCaseFile:
    """Each on a line of its own, and freed in the order of making."""
    return blocks_freed(n, list(range(n)))


def blocks_reversed(n: int) -> TraceCaseFile:
    """The same, freed from the last one on."""
    return blocks_freed(n, list(range(n))[::-1])


def blocks_shuffled(n: int) -> TraceCaseFile:
    """The same, freed at random."""
    return blocks_freed(n, shuffled(n))


def blocks_freed(n: int, order: list[int]) -> TraceCaseFile:
    trace = Trace()
    for i in range(n):
        trace.alloc(LINES + LINE * i, 48)
        trace.share(LINES + LINE * i)
    for i in order:
        trace.free(LINES + LINE * i)
    return trace.made(n, objects=n, object=f"0x{LINES:x}")


def blocks_wide(n: int) -> TraceCaseFile:
    """Each reaches over eight lines, on which seven others live."""
    trace = Trace()
    for i in range(n):
        trace.alloc(LINES + LINE * i, 8 * LINE)
    for i in range(n):
        trace.share(LINES + LINE * i)
    for i in shuffled(n):
        trace.free(LINES + LINE * i)
    objects = sum(min(i + 1, 8) for i in range(n))
    return trace.made(n, objects=objects, object=f"0x{LINES:x}")


def blocks_under_one(n: int) -> TraceCaseFile:
    """One lives as long as all the others, and lies over them."""
    trace = Trace()
    trace.alloc(LINES - LINE, LINE * (n + 2))
    for i in range(n):
        trace.alloc(LINES + LINE * i, 48)
        trace.share(LINES + LINE * i)
        trace.free(LINES + LINE * i)
    trace.free(LINES - LINE)
    return trace.made(n, objects=2 * n, object=f"0x{LINES - LINE:x}")


def blocks_at_one_place(n: int) -> TraceCaseFile:
    """Many lives at one address, and as many lines elsewhere."""
    trace = Trace()
    for i in range(n):
        trace.alloc(LINES, 48)
        trace.share(LINES)
        trace.free(LINES)
        trace.share(ELSEWHERE + LINE * i)
    return trace.made(n + 1, objects=n)


def blocks_before(n: int) -> TraceCaseFile:
    """Each lies over all lines, and is dead before they are used."""
    trace = Trace()
    for _ in range(n):
        trace.alloc(LINES, LINE * n)
        trace.touch(0, ELSEWHERE)
        trace.free(LINES)
    for i in range(n):
        trace.share(LINES + LINE * i)
    return trace.made(n)


# ---- Lines and accesses.


def lines(n: int) -> TraceCaseFile:
    """Next to each other, in any order, and taken twice to eight times."""
    trace = Trace()
    for i in shuffled(n):
        for _ in range(1 + i % 4):
            trace.share(LINES + LINE * i)
    return trace.made(n)


def lines_turned(n: int) -> TraceCaseFile:
    """The same, for a table whose places fall."""
    return lines(n)._replace(is_turned=True)


def lines_apart(n: int) -> TraceCaseFile:
    """Each on 64 KiB of its own."""
    trace = Trace()
    for i in range(n):
        trace.share(LINES + (i << 16))
    return trace.made(n)


def borders(n: int) -> TraceCaseFile:
    """The words at each border are used by two harts, each line by one: a shifted line is predicted at each
    border, and a doubled one of each two lines."""
    trace = Trace()
    for i in range(n):
        for _ in range(4):
            trace.touch(i % 2, LINES + LINE * i)
            trace.touch(i % 2, LINES + LINE * i + 60)
    for i in range(n):
        for _ in range(2):
            trace.touch(i % 2, LINES + LINE * i)
            trace.touch(i % 2, LINES + LINE * i + 60)
            trace.touch((i + 1) % 2, LINES + LINE * (i + 1))
    return trace.made(n + n // 2, settings="prediction=1")


def harts(n: int) -> TraceCaseFile:
    """256 harts on one line, which read and write it."""
    trace = Trace(256)
    for i in range(n):
        hart = i * 89 % 256
        trace.touch(hart, LINES + 4 * (i % 16), i % 64 == 0)
    return trace.made(1)


def large_object(n: int) -> TraceCaseFile:
    """A block of so many words, each of which one of 256 harts uses, and many use some."""
    trace = Trace(256)
    trace.alloc(LINES, 4 * n)
    for i in range(n):
        trace.touch(i * 89 % 256, LINES + 4 * i)
        if i % 16 == 0:
            trace.touch((i + 1) % 256, LINES + 4 * i)
    return trace.made(n // 16, objects=n // 16, object=f"0x{LINES:x}")


def instructions(n: int) -> TraceCaseFile:
    """Two harts take a line from each other by so many pairs of instructions."""
    trace = Trace()
    for i in range(n):
        trace.touch(i % 2, LINES + 4 * (i % 2))
    return trace.made(1)._replace(pcs=n // 2)


def instructions_of_lines(n: int) -> TraceCaseFile:
    """So many lines with a few pairs each, all of them different."""
    trace = Trace()
    for i in shuffled(n):
        trace.share(LINES + LINE * i)
    return trace.made(n)._replace(pcs=3 * n)


class TraceCase(NamedTuple):
    """A trace of two sizes, of which `size` is the lesser one, and the commands that it is made for; the
    greatest size that it may have; a size that costs next to nothing, if another trace can't stand for that;
    and commands whose text of it is a square."""

    name: str
    make: Callable[[int], TraceCaseFile]
    size: int
    commands: str
    most: int = 1 << 20
    least: int = 0
    never: str = ""


OBJECTS = "replay misses"
SAVED = "replay replay--save replay--resume"
CASES = [
    TraceCase("symbols apart", symbols_apart, 2048, f"{SAVED} misses place convert split"),
    TraceCase("symbols in any order, over three lines each", symbols_shuffled, 2048, OBJECTS),
    TraceCase("symbols nested", symbols_nested, 4096, OBJECTS),
    TraceCase("symbols under one", symbols_under_one, 2048, OBJECTS),
    TraceCase("symbols equal, or at one place by eights", symbols_equal, 2048, f"{SAVED} misses"),
    TraceCase("symbols at one place", symbols_at_one_place, 2048, OBJECTS),
    TraceCase("symbols with long names", names_long, 512, "replay convert"),
    TraceCase("functions", functions, 1024, f"{OBJECTS} place"),
    TraceCase("functions nested", functions_nested, 1024, OBJECTS),
    TraceCase("blocks apart", blocks_apart, 4096, f"{SAVED} misses place convert split"),
    TraceCase("blocks freed in reverse", blocks_reversed, 4096, "replay"),
    TraceCase("blocks freed at random", blocks_shuffled, 4096, "replay"),
    TraceCase("blocks wide", blocks_wide, 2048, OBJECTS),
    TraceCase("blocks under one", blocks_under_one, 2048, OBJECTS),
    TraceCase("blocks at one place", blocks_at_one_place, 2048, f"{SAVED} misses"),
    TraceCase("blocks dead before", blocks_before, 1024, "replay", never="misses"),
    TraceCase(
        "lines",
        lines,
        4096,
        f"{SAVED} replay--size misses sweep caches convert split move gen blame filter",
    ),
    TraceCase("lines turned round", lines_turned, 4096, "move"),
    TraceCase("lines apart", lines_apart, 4096, f"{SAVED} misses sweep caches blame filter", 60000),
    TraceCase("many instructions on a line", instructions, 16384, "blame"),
    TraceCase("many instructions on many lines", instructions_of_lines, 4096, "blame"),
    TraceCase("predictions at each border", borders, 1024, SAVED),
    TraceCase("256 harts on a line", harts, 16384, "replay misses sweep caches blame filter"),
    TraceCase("a large object", large_object, 16384, "place replay", never="misses"),
]
