"""The misses at the beginning of parts, where a recording has several parts of a run and not what lies between."""

import contextlib
import mmap
import os
import tempfile
from typing import Iterator, Sequence

from view.model.view import View
from view.reading.engine import Predator, Refused, misses_reader
from view.reading.filtered_traces import HEADER, is_filtered, write_plain
from view.reading.passes import Layout
from view.reading.trace_files import ACCESS, END, OF_PART, PART_END, access_pieces

# The accesses of longer traces aren't counted by parts: they would take eight bytes each.
MAX_ACCESSES = 50_000_000
MAX_HARTS = 256
MAGIC = b"PRDTRC01"


def note_first_misses(view: View, predator: Predator | None) -> None:
    """Notes how many misses are a thread's first access of a line in a part."""
    begins, trace = view.part_begins(), view.call.trace_file()
    if (
        predator is None
        or view.misses is None
        or trace is None
        or len(begins) < 2
        or view.report.accesses > MAX_ACCESSES
        or not predator.has_command("convert")
    ):
        return
    with contextlib.suppress(Refused, OSError, ValueError):
        later = count_later_misses(predator, trace, begins, (view.misses.size, view.misses.offset))
        view.first_misses = sum(view.misses.total.values()) - later


def count_later_misses(
    predator: Predator, trace: str, begins: Sequence[int], layout: Layout
) -> int:
    """The misses at all other accesses. Each part has its own harts, so that these are the ones that aren't cold."""
    later = 0
    with tempfile.TemporaryDirectory(prefix="predator-view-") as folder:
        path, batch = convert_trace(predator, trace, folder), os.path.join(folder, "batch")
        with open(path, "rb") as file, mmap.mmap(file.fileno(), 0, access=mmap.ACCESS_READ) as data:
            for _ in write_batches(data, begins, batch):
                total = predator.read_trace(batch, misses_reader(layout)).total  # type: ignore[union-attr]
                later += total["useful"] + total["useless"]
    return later


def convert_trace(predator: Predator, trace: str, folder: str) -> str:
    """The trace in version 1, in which each access has eight bytes."""
    made: list[str] = []
    while (version := read_version(trace)) != MAGIC:
        made.append(os.path.join(folder, str(len(made))))
        if is_filtered(version):
            write_plain(trace, made[-1])
        else:
            predator.quiet_output(["convert", "--", trace, made[-1]])
        trace = made[-1]
        for old in made[:-1]:
            os.truncate(old, 0)
    return trace


def read_version(trace: str) -> bytes:
    with open(trace, "rb") as file:
        return file.read(len(MAGIC))


def write_batches(data: mmap.mmap, begins: Sequence[int], path: str) -> Iterator[None]:
    """Writes the accesses of as many parts as there is room for, with harts of their own, to a file; and again,
    until all were written."""
    count = 1 + max((max(piece[1::ACCESS]) for _, piece in access_pieces(data)), default=0)
    room, at, accesses = MAX_HARTS // count, 0, 0
    out: list[bytes] = []
    for part, piece in part_pieces(data, begins):
        if part - at >= room:
            write_batch(path, out, accesses)
            yield
            out, at, accesses = [], part, 0
        own = bytearray(piece)
        first = (part - at) * count
        own[1::ACCESS] = own[1::ACCESS].translate(
            bytes(min(first + hart, MAX_HARTS - 1) for hart in range(MAX_HARTS))
        )
        out.append(own)
        accesses += len(own) // ACCESS
    write_batch(path, out, accesses)
    yield


def write_batch(path: str, pieces: Sequence[bytes], accesses: int) -> None:
    with open(path, "wb") as file:
        file.write(HEADER.pack(MAGIC, 0, MAX_HARTS, 0))
        file.writelines(pieces)
        file.write(PART_END.pack(END, OF_PART, 0, 0, 0, 0, accesses))


def part_pieces(data: mmap.mmap, begins: Sequence[int]) -> Iterator[tuple[int, bytes]]:
    """The accesses in pieces, each of one part, with the part's number."""
    part, position = -1, 0
    for _, piece in access_pieces(data):
        while piece:
            while part + 1 < len(begins) and begins[part + 1] <= position:
                part += 1
            last = begins[part + 1] if part + 1 < len(begins) else position + len(piece)
            own = piece[: ACCESS * (last - position)]
            yield max(part, 0), own
            position += len(own) // ACCESS
            piece = piece[len(own) :]
