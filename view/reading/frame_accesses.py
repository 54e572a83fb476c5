"""The accesses of a trace with pcs to some pages: which instruction of which hart used which address, and when."""

import mmap
from typing import Callable, Iterator

from view.reading.trace_records import Accesses, NoTrace, scan_records

PAGE_BITS = 12
MAX_HARTS, ADDRESS_MASK = 256, 0xFFFFFFFF
# The tags of writes are at least this.
WRITE_TAG = 0x20
# A hart, its instruction, the address, and whether it writes.
AccessKind = tuple[int, int, int, bool]
# The positions of the first and of the last access of a kind.
Span = tuple[int, int]


class AccessDecoder:
    """The accesses of a trace with pcs, piece by piece. (Each distance is decoded in place: a call for each takes twice the time.)"""

    def __init__(self) -> None:
        self.addr, self.pcs = 0, [0] * MAX_HARTS

    def decode(self, piece: bytes) -> Iterator[AccessKind]:
        at, end, addr, pcs = 0, len(piece), self.addr, self.pcs
        while at < end:
            tag, hart, number, shift = piece[at], piece[at + 1], piece[at + 2] & 0x7F, 7
            at += 2
            while piece[at] > 0x7F:
                at += 1
                number |= (piece[at] & 0x7F) << shift
                shift += 7
            self.addr = addr = (addr + ((number >> 1) ^ -(number & 1))) & ADDRESS_MASK
            at += 1
            number, shift = piece[at] & 0x7F, 7
            while piece[at] > 0x7F:
                at += 1
                number |= (piece[at] & 0x7F) << shift
                shift += 7
            at += 1
            pc = pcs[hart] = (pcs[hart] + ((number >> 1) ^ -(number & 1))) & ADDRESS_MASK
            yield hart, pc, addr, tag >= WRITE_TAG


def read_accesses(
    trace: str, is_wanted: Callable[[int], bool], most: int
) -> dict[AccessKind, Span]:
    """The kinds of accesses to the pages that are wanted, each by its first address, among about the first `most` accesses."""
    found: dict[AccessKind, Span] = {}
    wanted: dict[int, bool] = {}
    decoder, position = AccessDecoder(), 0
    with open(trace, "rb") as file, mmap.mmap(file.fileno(), 0, access=mmap.ACCESS_READ) as data:
        try:
            for record in scan_records(data):
                if not isinstance(record, Accesses):
                    continue
                for kind in decoder.decode(data[record.begin : record.end]):
                    position += 1
                    page = kind[2] >> PAGE_BITS
                    if page not in wanted:
                        wanted[page] = is_wanted(page << PAGE_BITS)
                    if wanted[page]:
                        first, _ = found.get(kind, (position, 0))
                        found[kind] = first, position
                    if position >= most:
                        return found
        except NoTrace:
            return {}
    return found
