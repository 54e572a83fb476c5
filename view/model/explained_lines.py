"""The instructions that contend on the worst lines of objects: by the trace, or by a run for each."""

import concurrent.futures
import functools
import os
from typing import Sequence

from view.model.instruction_pairs import program_effects
from view.model.objects import DataObject, ObjectLine
from view.model.view import View
from view.reading.calls import EXPLAIN
from view.reading.engine import Predator, Refused
from view.reading.file_kinds import has_pcs
from view.reading.passes import is_brief
from view.reading.reports import Explanation


def explain(view: View, predator: Predator | None, objects: Sequence[DataObject]) -> None:
    """Explains the invalidations of the first objects' worst lines: by the trace, or by as many runs side by side."""
    most = view.call.number_option("explain", EXPLAIN)
    program, trace = view.call.program, view.call.trace_file()
    if view.blame is not None:
        found = (view.blame.invalidations(it.worst_line().base) for it in objects)
        view.invalidations_by_line = {it.base: it for it in found if it}
    elif (
        predator is not None
        and most
        and program is None
        and trace
        and has_pcs(trace)
        and not predator.has_command("blame")
    ):
        view.notes.append(
            "this predator has no command `blame`, so the conflicting instructions are unknown"
        )
    elif is_brief(view.call) and "explain" not in view.call.options:
        view.notes.append(
            "the trace is long and has no program counters: --explain N finds the instructions"
            " of N objects, with a run each"
        )
    elif program is not None and predator is not None and most:
        explain_by_runs(view, predator, program, objects[:most])
    shown = None if "words" in view.call.options else 8
    view.naming.find_lines(
        {
            at
            for line in view.invalidations_by_line.values()
            for pair in line.pairs[:shown]
            for at in pair[:2]
        }
    )
    if view.naming.program is not None:
        view.effects = program_effects(
            view.naming.program,
            {
                at
                for line in view.invalidations_by_line.values()
                for pair in line.pairs
                for at in pair[:2]
            },
        )


def explain_by_runs(
    view: View, predator: Predator, program: str, objects: Sequence[DataObject]
) -> None:
    spots = [spot for spot in (it.worst_line() for it in objects) if spot.base >= 0]
    if spots and not predator.has_command("explain"):
        view.notes.append(
            "this predator has no command `explain`, so the conflicting instructions are" " unknown"
        )
        return
    asked = functools.partial(explain_line, view, predator, program)
    with concurrent.futures.ThreadPoolExecutor(max_workers=min(4, os.cpu_count() or 1)) as pool:
        for spot, explained in zip(spots, pool.map(asked, spots)):
            if isinstance(explained, Refused):
                view.notes.append(
                    f"the conflicting instructions on line {spot.base:#010x} are unknown:"
                    f" {explained}"
                )
            elif explained.accesses == view.report.accesses and (
                spot.line is None or explained.count == spot.line.count
            ):
                view.invalidations_by_line[spot.base] = explained.invalidations
            else:
                view.notes.append(
                    "the program with these settings makes another trace, so line"
                    f" {spot.base:#010x} isn't explained"
                )


def explain_line(
    view: View, predator: Predator, program: str, spot: ObjectLine
) -> Explanation | Refused:
    """The text of `explain` for a line, or its refusal."""
    start, words = spot.line.start if spot.line else 0, view.call.settings_words()
    try:
        return predator.explain_line(
            [
                program,
                f"{spot.base:#010x}",
                str(view.report.size),
                str(start),
                *words,
                *view.call.guest_words,
            ]
        )
    except Refused as refused:
        return refused
