"""Traces of version 1 whose accesses are spelled anew byte by byte: some lines with each byte as a word, or some bytes at other places.

The engine counts what comes of it: words are the smallest that it distinguishes."""

import mmap
from array import array
from typing import Callable, Iterable, Iterator, Sequence

from view.reading.trace_files import (
    HEADER,
    PART_END,
    END,
    OF_PART,
    NarrowedWords,
    access_pieces,
)

# The parts of an access as one number: kind, hart, address and size.
ADDRESS_SHIFT, SIZE_SHIFT, LOW = 24, 56, (1 << 24) - 1
ADDRESS_MASK = (1 << 32) - 1
HART_SHIFT, HART_MASK = 8, 0xFFFF
WORD = 4
# A trace of more accesses isn't read byte by byte.
MAX_ACCESSES = 10_000_000


def access_at(key: int, addr: int, size: int) -> int:
    """An access of the same hart and kind at another address."""
    return key & LOW | addr << ADDRESS_SHIFT | size << SIZE_SHIFT


def key_address(key: int) -> int:
    return key >> ADDRESS_SHIFT & ADDRESS_MASK


def read_keys(trace: str) -> Iterator[int]:
    """The accesses of a trace of version 1, each as one number."""
    with open(trace, "rb") as file, mmap.mmap(file.fileno(), 0, access=mmap.ACCESS_READ) as data:
        for _, piece in access_pieces(data):
            yield from array("Q", piece)


def write_accesses(
    trace: str, out: str, spell: Callable[[int], Sequence[int] | None], keep_records: bool
) -> int:
    """Writes a trace whose accesses are those that `spell` gives for each, none of which is the access itself. How many there are is what
    comes back. What lies between accesses is kept where that is wanted."""
    count = 0
    with open(trace, "rb") as file, mmap.mmap(
        file.fileno(), 0, access=mmap.ACCESS_READ
    ) as data, open(out, "wb") as to:
        to.write(data[:HEADER])
        last = HEADER
        for place, piece in access_pieces(data):
            if keep_records and last < place:
                to.write(data[last:place])
            last = place + len(piece)
            found = array("Q")
            for key in array("Q", piece):
                own = spell(key)
                if own is None:
                    found.append(key)
                else:
                    found.extend(own)
            count += len(found)
            to.write(found.tobytes())
        to.write(PART_END.pack(END, OF_PART, 0, 0, 0, 0, count))
    return count


def narrow(key: int, narrowed: NarrowedWords) -> tuple[int, int]:
    """The address and the size of an access; `narrowed` has what atomic instructions for whole words are taken to be for."""
    addr, size = key_address(key), key >> SIZE_SHIFT
    own = narrowed.get((key >> HART_SHIFT & HART_MASK, addr)) if size == WORD else None
    return (addr + own[0], own[1]) if own else (addr, size)


def write_stretched(
    trace: str, out: str, bases: Iterable[int], size: int, narrowed: NarrowedWords | None = None
) -> list[int]:
    """Writes the accesses to some lines of a size with each of their bytes as a word, and gives where each of the lines begins then, in
    their order."""
    order = sorted(bases)
    places = {base: at * WORD * size for at, base in enumerate(order)}

    def spell(key: int) -> list[int]:
        addr, wide = narrow(key, narrowed or {})
        found = []
        for byte in range(addr, addr + wide):
            line = places.get(byte // size * size)
            if line is not None:
                found.append(access_at(key, line + WORD * (byte % size), WORD))
        return found

    write_accesses(trace, out, spell, False)
    return [places[it] for it in order]


def spread(addr: int, size: int, places: dict[int, int]) -> Iterator[tuple[int, int]]:
    """An access as the accesses that it is once bytes lie elsewhere: whole where it stays so, and else by bytes."""
    to = [places.get(byte, byte) for byte in range(addr, addr + size)]
    if all(it == to[0] + at for at, it in enumerate(to)) and to[0] % size == 0:
        yield to[0], size
        return
    yield from ((it, 1) for it in to)


class Occupied(ValueError):
    """A place of the trace's own at which something was to be moved."""


def write_moved_bytes(
    trace: str, out: str, places: dict[int, int], narrowed: NarrowedWords | None = None
) -> None:
    """Writes a trace with some bytes at other places, each by its address."""
    words = {it // WORD for it in places}
    taken = {it // WORD for it in places.values()} - words

    def spell(key: int) -> list[int] | None:
        addr, size = narrow(key, narrowed or {})
        if addr // WORD in taken:
            raise Occupied(addr)
        if addr // WORD not in words:
            return None
        return [access_at(key, *it) for it in spread(addr, size, places)]

    write_accesses(trace, out, spell, True)
