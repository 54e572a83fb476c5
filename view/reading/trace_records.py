"""Records of a trace of any version, by docs/FORMATS.md: the parser of trace bytes for whatever judges nothing.

tools/traces.py reads the same bytes on its own, for the judges. A program's trace is right or wrong by the engine alone: this
parser stops at what is no record."""

import contextlib
import mmap
import re
import struct
from typing import Iterator, NamedTuple, Union

from view.reading import reports

HEADER_BYTES = 20
ALLOCATION, FREE, SYMBOL, END = 3, 4, 5, 6
# What a symbol is of; another one is of a function.
VARIABLE = 1
_ALLOCATION = struct.Struct("<6I")
_FREE = struct.Struct("<I")
_SYMBOL = struct.Struct("<BIIH")
_TAG = rb"[\x11\x12\x14\x21\x22\x24]."
_NUMBER = rb"[\x80-\xff]*[\0-\x7f]"
_ACCESS_BYTES = {b"PRDTRC01": 8}
# One access of each version.
ACCESS_PATTERNS = {
    b"PRDTRC01": rb"[\1\2].{7}",
    b"PRDTRC02": _TAG + _NUMBER,
    b"PRDTRC03": _TAG + _NUMBER + _NUMBER,
    b"PRDTRC04": _TAG + _NUMBER + _NUMBER,
}


class Accesses(NamedTuple):
    """Accesses without another record between them, and where their bytes begin and end."""

    number: int
    begin: int
    end: int


class Allocation(NamedTuple):
    addr: int
    size: int
    # (four call sites, 0 for none)
    sites: tuple[int, ...]


class Free(NamedTuple):
    addr: int


class Symbol(NamedTuple):
    kind: int
    addr: int
    size: int
    name: bytes


Record = Union[Accesses, Allocation, Free, Symbol]


def variables_of(trace: str) -> list[reports.Symbol]:
    """The variables that a trace names before its first access: those of its program."""
    found: list[reports.Symbol] = []
    with open(trace, "rb") as file, mmap.mmap(file.fileno(), 0, access=mmap.ACCESS_READ) as data:
        with contextlib.suppress(NoTrace):
            for record in scan_records(data, has_accesses=False):
                if isinstance(record, Symbol) and record.kind == VARIABLE:
                    name = record.name.decode("utf-8", "replace")
                    found.append(reports.Symbol(name, record.addr, record.size))
    return found


class NoTrace(ValueError):
    """Bytes that are no record of a trace."""


def scan_records(data: "bytes | mmap.mmap", has_accesses: bool = True) -> Iterator[Record]:
    """The records up to the end's, in order; or up to the first access."""
    magic, place = data[:8], HEADER_BYTES
    if magic not in ACCESS_PATTERNS:
        raise NoTrace("the file is no trace")
    one = re.compile(ACCESS_PATTERNS[magic], re.DOTALL)
    run = re.compile(b"(?:" + ACCESS_PATTERNS[magic] + b")+", re.DOTALL)
    while place < len(data) and data[place] != END:
        tag = data[place]
        if tag == ALLOCATION:
            addr, size, *sites = _ALLOCATION.unpack_from(data, place + 1)
            place += 1 + _ALLOCATION.size
            yield Allocation(addr, size, tuple(sites))
        elif tag == FREE:
            yield Free(*_FREE.unpack_from(data, place + 1))
            place += 1 + _FREE.size
        elif tag == SYMBOL:
            kind, addr, size, length = _SYMBOL.unpack_from(data, place + 1)
            begin = place + 1 + _SYMBOL.size
            place = begin + length
            yield Symbol(kind, addr, size, data[begin:place])
        elif not has_accesses:
            return
        else:
            match = run.match(data, place)
            if match is None:
                raise NoTrace(f"byte {place} begins no record of a trace")
            end = match.end()
            size = _ACCESS_BYTES.get(magic)
            count = (end - place) // size if size else len(one.findall(data, place, end))
            yield Accesses(count, place, end)
            place = end
