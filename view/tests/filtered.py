"""Filtered traces for the stand-in: what a command refuses of one, its accesses as a trace of version 3, and whether a table of `move`
brings words together that were far from each other."""

import os
import struct
import sys

HERE = os.path.dirname(os.path.abspath(__file__))
sys.path.insert(0, os.path.join(HERE, "..", "..", "tools"))

import judge_filter  # noqa: E402

# Commands that take a filtered trace, those that look at lines of twice the size too, and what `move` leaves of k.
TAKE, DOUBLE, MOVED_K = ("replay", "misses", "blame", "sweep", "move"), ("replay",), 8
MAGIC, OF_TRACE = b"PRDTRC04", 5


class Refused(Exception):
    """What is printed, behind `predator: `."""


class Filtered:
    """A filtered trace: its k, the number of all accesses, and the same as a trace of version 3."""

    def __init__(self, trace):
        self.k, self.whole = trace[18], struct.unpack("<Q", trace[-8:])[0]
        self.plain = b"PRDTRC03" + trace[8:18] + bytes(2) + trace[20:-8]

    def check(self, command, size, words=()):
        """Refuses what a command doesn't take."""
        if command not in TAKE or {"--save", "--resume"} & {*words}:
            raise Refused("trace Filtered")
        if size * (2 if command in DOUBLE else 1) > 1 << self.k:
            raise Refused("trace TooWide")

    def with_whole(self, lines):
        """The text of misses, blame or sweep with the number of all accesses."""
        for line in lines:
            yield line
            if line.startswith("accesses "):
                yield f"whole {self.whole}"


def filtered_bytes(trace, near=4096):
    """A trace of version 3 as a filtered one."""
    return judge_filter.filter_trace(trace, near.bit_length() - 1)[2]


def plain_as_filtered(plain, k, whole):
    """What `move` writes of a filtered trace: a moved trace of version 3 in version 4 again."""
    return (
        MAGIC
        + plain[8:18]
        + struct.pack("<H", min(k, MOVED_K))
        + plain[20:]
        + struct.pack("<Q", whole)
    )


def is_far(addr, to, ranges, k):
    """Whether a place of a table that is near where an access goes has words from far away; `ranges` are (from, size, to)."""
    c = min(k, MOVED_K)
    low, high = ((to >> c) - 1) << c, ((to >> c) + 2) << c
    for begin, size, place in ranges:
        first, last = max(low, place), min(high, place + size)
        for at in (first, last - 1) if first < last else ():
            if abs((at - place + begin >> k) - (addr >> k)) > 1:
                return True
    return False
