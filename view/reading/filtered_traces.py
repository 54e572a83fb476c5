"""Filtered traces, which lack accesses that change no cache: what such a file says of itself, and its accesses for what asks who made them.

A trace of version 4 is one of version 3, but for its header's last field and a number more in its end: docs/FORMATS.md."""

import os
import struct
from typing import NamedTuple

MAGIC, PLAIN_MAGIC = b"PRDTRC04", b"PRDTRC03"
HEADER = struct.Struct("<8sQHH")
# Its end: version 1's, and the number of all accesses.
PLAIN_END_BYTES = 25
END = struct.Struct("<BBBHIQQQ")
END_TAG = 6
PIECE_BYTES = 1 << 20
# Lines of at most so many bytes keep their misses in a filtered trace where no call says otherwise; and in what `move` writes of one.
USUAL_NEAR, MOVED_NEAR = 4096, 256
# What leaves nothing out, in the words of a message.
WHOLE = "record it with `--whole`"


class Filter(NamedTuple):
    """What a filtered trace says of itself: its counts hold for lines of at most `near` bytes; it has so many accesses, and before some
    were left out it had `whole`."""

    near: int
    accesses: int
    whole: int

    def is_unknown(self) -> bool:
        """Whether the trace may have been mended: then nobody knows how many accesses were left out."""
        return self.accesses == self.whole > 0


def read_filter(path: str | None) -> Filter | None:
    """What a trace says of itself where it is a filtered one, or none. Where its end is missing its numbers are 0: the program refuses
    it."""
    if path is None or not os.path.isfile(path):
        return None
    try:
        with open(path, "rb") as file:
            head = file.read(HEADER.size)
            if head[:8] != MAGIC or len(head) < HEADER.size:
                return None
            file.seek(max(os.fstat(file.fileno()).st_size - END.size, HEADER.size))
            end = file.read()
    except OSError:
        return None
    near = 1 << min(HEADER.unpack(head)[3], 16)
    if len(end) < END.size or end[0] != END_TAG:
        return Filter(near, 0, 0)
    *_, accesses, whole = END.unpack(end)
    return Filter(near, accesses, whole)


def write_plain(trace: str, out: str) -> None:
    """Writes the accesses of a filtered trace as a trace of version 3. (Its counts are those of no program: it is for who made which
    accesses.)"""
    with open(trace, "rb") as source, open(out, "wb") as plain:
        magic, first, harts, _ = HEADER.unpack(source.read(HEADER.size))
        if magic != MAGIC:
            raise ValueError("the trace isn't filtered")
        plain.write(HEADER.pack(PLAIN_MAGIC, first, harts, 0))
        left = os.fstat(source.fileno()).st_size - HEADER.size - (END.size - PLAIN_END_BYTES)
        while left > 0 and (piece := source.read(min(left, PIECE_BYTES))):
            plain.write(piece)
            left -= len(piece)


def is_filtered(head: bytes) -> bool:
    """Whether the first bytes of a file are those of a filtered trace."""
    return head[: len(MAGIC)] == MAGIC
