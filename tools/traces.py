"""Reads a trace of any version, and gives one pcs, by docs/FORMATS.md alone. It judges nothing: a file that
is no trace is an error of some kind."""

import struct
from typing import Callable, Iterator, NamedTuple, Union

OBJECT, FUNCTION = 1, 2


class Symbol(NamedTuple):
    kind: int
    addr: int
    size: int
    name: bytes


class Alloc(NamedTuple):
    addr: int
    size: int
    sites: tuple[int, ...]


class Free(NamedTuple):
    addr: int


class Access(NamedTuple):
    hart: int
    addr: int
    writes: bool
    pc: int | None  # of version 3 alone


Record = Union[Access, Alloc, Free, Symbol]
# An access by its hart, its address, and whether it writes.
Touch = tuple[int, int, bool]


def decode_distance(trace: bytes, place: int) -> tuple[int, int]:
    """The distance that stands at a place, and the place behind it."""
    number = shift = 0
    while True:
        byte = trace[place]
        number |= (byte & 0x7F) << shift
        place, shift = place + 1, shift + 7
        if byte < 0x80:
            return (-(number >> 1) - 1 if number & 1 else number >> 1), place


def located_records(trace: bytes) -> Iterator[tuple[int, int, Record]]:
    """The records up to the end's, in order, each behind the places where it begins and ends."""
    version = (b"PRDTRC01", b"PRDTRC02", b"PRDTRC03").index(trace[:8]) + 1
    place, addr, pcs = 20, 0, dict[int, int]()
    while trace[place] != 6:
        tag, start = trace[place], place
        if tag in (1, 2):
            hart, addr = struct.unpack_from("<HI", trace, place + 1)
            place += 8
            yield start, place, Access(hart, addr, tag == 2, None)
        elif tag == 3:
            block, size, *sites = struct.unpack_from("<6I", trace, place + 1)
            place += 25
            yield start, place, Alloc(block, size, tuple(sites))
        elif tag == 4:
            place += 5
            yield start, place, Free(*struct.unpack_from("<I", trace, start + 1))
        elif tag == 5:
            kind, begin, size, length = struct.unpack_from("<BIIH", trace, place + 1)
            place += 12 + length
            yield start, place, Symbol(kind, begin, size, trace[start + 12 : place])
        else:
            assert tag >> 4 in (1, 2) and tag & 15 in (1, 2, 4), f"no tag at {place}"
            hart = trace[place + 1]
            distance, place = decode_distance(trace, place + 2)
            addr = (addr + distance) % 2**32
            if version == 3:
                distance, place = decode_distance(trace, place)
                pcs[hart] = (pcs.get(hart, 0) + distance) % 2**32
            yield start, place, Access(hart, addr, tag >> 4 == 2, pcs.get(hart))


def read_records(trace: bytes) -> Iterator[Touch | Alloc | Free | Symbol]:
    """The records up to the end's, in order: an access as (hart, address, whether it writes), and each other
    one as what it is."""
    return (it[:3] if isinstance(it, Access) else it for *_, it in located_records(trace))


def read_accesses(trace: bytes) -> Iterator[Touch]:
    """The accesses alone, each as (hart, address, whether it writes)."""
    return (it[:3] for it in read_accesses_with_pcs(trace))


def read_accesses_with_pcs(trace: bytes) -> Iterator[Access]:
    """The accesses alone, with their pcs."""
    return (it for *_, it in located_records(trace) if isinstance(it, Access))


def encode_distance(distance: int) -> bytes:
    """A number from -2^32 to 2^32, taken modulo 2^32, as it is spelled in groups of seven bits."""
    distance = (distance + 2**31) % 2**32 - 2**31
    number, encoded = (2 * distance if distance >= 0 else -2 * distance - 1), []
    while number >= 128:
        encoded.append(number & 127 | 128)
        number >>= 7
    return bytes((*encoded, number))


def add_pcs(trace: bytes, pc_of: Callable[[Access, int], int]) -> bytes:
    """A trace of version 1 in version 3, with pcs that are made of each access and the pc of its hart's
    access before."""
    parts, place, last, pcs = [b"PRDTRC03" + trace[8:20]], 20, 0, dict[int, int]()
    for start, place, record in located_records(trace):
        if isinstance(record, Access):
            before = pcs.get(record.hart, 0)
            pc = pc_of(record, before)
            size = trace[place - 1]
            parts.append(
                bytes((16 * (1 + record.writes) + size, record.hart))
                + encode_distance(record.addr - last)
                + encode_distance(pc - before)
            )
            last, pcs[record.hart] = record.addr, pc
        else:
            parts.append(trace[start:place])
    return b"".join((*parts, trace[place:]))
