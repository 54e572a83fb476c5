"""The first part of a long trace, as a trace of its own."""

import mmap
import os
import re
import struct

from view.reading import filtered_traces
from view.reading.filtered_traces import Filter, read_filter
from view.reading.trace_files import END, HEADER, OF_PART, PART_END, SIZES, SYMBOL

# An access of each version. (The program judges them: what isn't spelled so is left to it.)
ACCESSES = {
    b"PRDTRC01": rb"[\1\2].{7}",
    b"PRDTRC02": rb"[\x11-\x24].[\x80-\xff]*[\0-\x7f]",
    b"PRDTRC03": rb"[\x11-\x24].[\x80-\xff]*[\0-\x7f][\x80-\xff]*[\0-\x7f]",
    b"PRDTRC04": rb"[\x11-\x24].[\x80-\xff]*[\0-\x7f][\x80-\xff]*[\0-\x7f]",
}
# So many are looked for in one piece.
PIECE = 1024


def trace_accesses(trace: str) -> int:
    """How many accesses a trace says that it has, or none where it has no end."""
    filtered = read_filter(trace)
    if filtered is not None:
        return filtered.accesses
    with open(trace, "rb") as file:
        file.seek(max(os.fstat(file.fileno()).st_size - PART_END.size, 0))
        end = file.read()
    if len(end) < PART_END.size or end[0] != END:
        return 0
    return int(PART_END.unpack(end)[-1])


def part_end(accesses: int, filtered: Filter | None) -> bytes:
    """The end of a part of so many accesses; of a filtered trace nobody knows how many were left out of the part."""
    fields = (END, OF_PART, 0, 0, 0, 0, accesses)
    return (
        PART_END.pack(*fields) if filtered is None else filtered_traces.END.pack(*fields, accesses)
    )


def other_record_size(data: mmap.mmap, place: int) -> int:
    """The size of a record that is no access, or 0 at the end or what is no record."""
    tag = data[place] if place < len(data) else END
    if tag not in SIZES:
        return 0
    name_bytes: int = struct.unpack_from("<H", data, place + 10)[0] if tag == SYMBOL else 0
    return SIZES[tag] + name_bytes


def write_prefix(trace: str, most: int, out: str) -> int:
    """Writes the first accesses of a trace to a file, with what lies between them. How many these are is what comes back: a few more than
    `most`, or all."""
    with open(trace, "rb") as file, mmap.mmap(file.fileno(), 0, access=mmap.ACCESS_READ) as data:
        access = ACCESSES[data[:8]]
        one, many = (re.compile(it, re.DOTALL) for it in (access, b"(?:%s){%d}" % (access, PIECE)))
        place, found = HEADER, 0
        while found < most:
            match, by = many.match(data, place), PIECE
            if match is None:
                match, by = one.match(data, place), 1
            if match is not None:
                place, found = match.end(), found + by
                continue
            size = other_record_size(data, place)
            if not size:
                break
            place += size
        with open(out, "wb") as part:
            part.write(data[:place])
            part.write(part_end(found, read_filter(trace)))
    return found
