"""Who uses which words of a call's trace, read once beside what the program counts."""

import concurrent.futures
import contextlib
from typing import Optional

from view.model.view import View
from view.reading.engine import Predator, Refused
from view.reading.passes import is_brief
from view.reading.trace_files import WordUses, read_word_uses

# Who uses the words of a trace, as it will be known; or none where no repair can be tried.
UsesFuture = Optional["concurrent.futures.Future[WordUses | None]"]


def begin_reading(view: View, predator: Predator | None) -> UsesFuture:
    """Begins to read the trace, which goes on beside what the program counts."""
    trace = view.call.trace_file()
    if predator is None or trace is None or not can_move(view, predator) or is_brief(view.call):
        return None
    pool = concurrent.futures.ThreadPoolExecutor(max_workers=1)
    try:
        return pool.submit(read_uses, predator, trace, has_wide_atomics(view))
    finally:
        pool.shutdown(wait=False)


def can_move(view: View, predator: Predator) -> bool:
    return not view.report.offset and predator.has_command("move")


def read_uses_once(view: View, predator: Predator | None, reading: UsesFuture) -> WordUses | None:
    """Who uses the words of the trace, or none."""
    if not view.has_read_uses:
        # (a run's trace may be there only now)
        reading = reading or begin_reading(view, predator)
        view.word_uses, view.has_read_uses = reading.result() if reading else None, True
    return view.word_uses


def has_wide_atomics(view: View) -> bool:
    """Whether a trace is of a guest: RV32 has atomic instructions for whole words alone."""
    return view.call.program is not None


def read_uses(predator: Predator, trace: str, is_wide: bool = False) -> WordUses | None:
    with contextlib.suppress(Refused, OSError, ValueError):
        return read_word_uses(predator, trace, is_wide)
    return None
