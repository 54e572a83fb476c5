"""True and false sharing by bytes: the misses of lines in whose words threads use different bytes, as the engine counts them once each byte
is a word."""

import contextlib
import os
import tempfile
from typing import Iterable, NamedTuple, Sequence, cast

from view.model.view import MIN_ACCESS_SHARE_DIVISOR, View
from view.reading.byte_traces import MAX_ACCESSES, WORD, write_stretched
from view.reading.engine import Predator, Refused, misses_reader
from view.reading.reports import Misses
from view.reading.trace_files import NarrowedWords, WordUses
from view.repairs.advice import LITTLE

# So many lines are counted by bytes.
MAX_LINES = 4096
VERSION_1 = b"PRDTRC01"


class SharingMisses(NamedTuple):
    """The misses of a line that aren't cold."""

    useless: int
    useful: int


def convert_to_version_1(predator: Predator, trace: str, folder: str) -> str:
    """The same trace in version 1, in a folder where it isn't that already."""
    for at in range(3):
        with open(trace, "rb") as file:
            if file.read(len(VERSION_1)) == VERSION_1:
                return trace
        out = os.path.join(folder, f"version-{at}")
        predator.quiet_output(["convert", "--", trace, out])
        trace = out
    raise Refused("the trace can't be converted")


def count_by_bytes(
    predator: Predator,
    trace: str,
    bases: Iterable[int],
    size: int,
    folder: str,
    narrowed: NarrowedWords | None = None,
) -> dict[int, SharingMisses]:
    """The misses of some lines of a trace of version 1, by bytes."""
    order = sorted(bases)
    out = os.path.join(folder, f"bytes-{len(os.listdir(folder))}")
    places = dict(zip(write_stretched(trace, out, order, size, narrowed), order))
    counted = cast(Misses, predator.read_trace(out, misses_reader((WORD * size, 0))))
    os.unlink(out)
    return {
        places[line.base]: SharingMisses(line.useless, line.useful)
        for line in counted.lines.values()
        if line.base in places
    }


def mixed_lines(view: View, uses: WordUses) -> list[int]:
    """The lines with true-sharing misses on which threads use different bytes of a word."""
    lines, size = view.misses.lines if view.misses else {}, view.report.size
    shared = {base for base, line in lines.items() if line.useful}
    words = [it for it in uses.words_of_several() if it // size * size in shared]
    return sorted({it // size * size for it in words if uses.may_be_mixed(it)})[:MAX_LINES]


def note_unknown_bytes(view: View, bases: Sequence[int]) -> None:
    """Notes on how many lines a filtered trace can't be counted by bytes, where they have a large part of the misses."""
    own = sum(view.misses.lines[it].useful for it in bases) if view.misses else 0
    if own * LITTLE < view.total() or own * MIN_ACCESS_SHARE_DIVISOR < view.accesses:
        return
    is_long = view.accesses > MAX_ACCESSES
    view.has_unknown_bytes = not is_long
    why = "the trace is too long to count by bytes" if is_long else "--whole counts them by bytes"
    view.notes.append(
        f"threads may use different bytes of words on {len(bases):,} lines, whose misses are counted by"
        f" words: {why}"
    )


def count_mixed_lines(view: View, predator: Predator | None, uses: WordUses | None) -> None:
    """Counts the lines on which threads use different bytes of words by bytes, and has the view show that."""
    trace = view.call.trace_file()
    if predator is None or uses is None or view.misses is None or trace is None:
        return
    bases = mixed_lines(view, uses)
    if not bases or view.report.offset:
        return
    if view.filtered is not None:
        note_unknown_bytes(view, bases)
        return
    if view.report.accesses > MAX_ACCESSES:
        view.notes.append(
            f"threads use different bytes of words on {len(bases):,} lines, whose misses are counted by"
            " words: the trace is too long to count by bytes"
        )
        return
    with contextlib.suppress(Refused, OSError), tempfile.TemporaryDirectory(
        prefix="predator-view-"
    ) as folder:
        plain = convert_to_version_1(predator, trace, folder)
        size = view.report.size
        view.note_bytes(count_by_bytes(predator, plain, bases, size, folder, uses.narrowed))
