"""The passes over a trace that count what is shown. Those that need no report begin before there is one."""

import concurrent.futures
import contextlib
import os
from typing import Iterable, Iterator, Sequence

from view.reading.calls import EXPLAIN, OUTPUTS, Call
from view.reading.trace_prefix import trace_accesses
from view.reading.file_kinds import has_pcs
from view.reading.engine import (
    PassResult,
    Predator,
    TraceReader,
    blame_reader,
    every_line_reader,
    misses_reader,
    setting_value,
)

# The size of a layout's lines, and its offset; that of lines of a word each.
Layout = tuple[int, int]
WORD_LAYOUT = (4, 0)
# A trace of more accesses than so many is long: a first screen has what a pass for lines finds, and of its first part what repairs come to.
LONG_TRACE_ACCESSES = 10_000_000


class Passes:
    """Passes over a trace that is a file, some of them side by side, each of which is made once."""

    def __init__(self, predator: Predator, trace: str) -> None:
        self.predator, self.trace = predator, trace
        self.pool = concurrent.futures.ThreadPoolExecutor(max_workers=min(4, os.cpu_count() or 1))
        self.futures: dict[tuple[str, ...], concurrent.futures.Future[PassResult]] = {}

    def begin(self, readers: Iterable[TraceReader]) -> None:
        for reader in readers:
            key = tuple(reader.words)
            if key not in self.futures:
                self.futures[key] = self.pool.submit(self.predator.read_trace, self.trace, reader)

    def results(self, readers: Sequence[TraceReader]) -> list[PassResult]:
        """What the readers print of the trace."""
        self.begin(readers)
        return [self.futures[tuple(it.words)].result() for it in readers]


def first_readers(
    layout: Layout, is_blamed: bool, is_brief: bool = False, is_filtered: bool = False
) -> dict[str, TraceReader]:
    """What is asked of each trace, the longest first: the misses of words and of lines, each line that was ever taken, and by what. In
    brief the last stands for the misses of words where it is known. Of a filtered trace the report has each line already.
    """
    asked = {
        "words": misses_reader(WORD_LAYOUT),
        "lines": misses_reader(layout),
        "each": every_line_reader(layout),
        "blame": blame_reader(layout),
    }
    left_out = {"each", "words" if is_blamed else ""} if is_brief else set()
    left_out |= {"each"} if is_filtered else set()
    return {
        name: reader
        for name, reader in asked.items()
        if name not in left_out and (is_blamed or name != "blame")
    }


def is_brief(call: Call) -> bool:
    """Whether the trace is long, and nothing is asked for but a first screen."""
    trace = call.trace_file() if call.action == "replay" else None
    asked = call.options.keys() & {"words", "predicted", "against", *OUTPUTS}
    return trace is not None and not asked and trace_accesses(trace) > LONG_TRACE_ACCESSES


def can_blame(call: Call, predator: Predator) -> bool:
    """Whether the trace says itself which instructions conflict, and the program reads that."""
    trace = call.trace_file()
    return bool(
        trace
        and has_pcs(trace)
        and call.number_option("explain", EXPLAIN)
        and predator.has_command("blame")
    )


def layout_of(call: Call) -> Layout | None:
    """The layout of the report that a call is about to have, as far as its words say."""
    size, shift = (
        call.option_value("--size") or str(setting_value(call.settings_words(), "line")),
        call.option_value("--shift") or "0",
    )
    return (int(size), int(shift)) if size.isdigit() and shift.isdigit() else None


@contextlib.contextmanager
def start_passes(call: Call, predator: Predator | None) -> Iterator[Passes | None]:
    """The passes over the trace of a call, or none where it has none that can be read again and again."""
    path = call.subject if call.action == "replay" else call.option_value("--trace")
    if predator is None or not path or call.reads_trace_once():
        yield None
        return
    passes, layout = Passes(predator, path), layout_of(call)
    try:
        # (the trace of a run is yet to be written)
        if (
            call.action == "replay"
            and call.trace_file()
            and layout
            and predator.has_command("misses")
        ):
            readers = first_readers(
                layout, can_blame(call, predator), is_brief(call), call.filtered is not None
            )
            passes.begin(readers.values())
        yield passes
    finally:
        passes.pool.shutdown(cancel_futures=True)
