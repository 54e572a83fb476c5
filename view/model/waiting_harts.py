"""The place of each hart when a run ended by a deadlock or by its budget, from the last accesses of a trace with program counters."""

import mmap
import os
import subprocess
import tempfile
from collections import deque
from typing import Iterable, Iterator

from view.reading.file_kinds import first_bytes, has_pcs
from view.model.view import View
from view.names.naming import KIT, Naming
from view.reading.engine import REPORT_STATUSES, Predator, Refused, add_trace_option
from view.reading.trace_files import END, HEADER, SIZES, SYMBOL, access_pieces

# So many accesses at the end of a trace are looked at, and so many of a hart behind its last one.
LAST_ACCESSES, LAST_ACCESSES_OF_HART = 20_000, 200
# So many harts are looked for that made none of these. Each takes a pass over the trace, and so many accesses up to its last one are read.
MAX_MISSING_HARTS, ACCESSES_BEFORE_LAST = 4, 2000
# Functions of the kit that a thread ends in.
END_FUNCTIONS = ("pthread_exit", "predator_exit")


def decode_number(data: bytes, place: int) -> tuple[int, int]:
    """The difference that is spelled at a place of a trace, and the place behind it."""
    found = shift = 0
    while True:
        byte = data[place]
        found |= (byte & 0x7F) << shift
        place, shift = place + 1, shift + 7
        if byte < 0x80:
            return (-(found >> 1) - 1 if found & 1 else found >> 1), place


def decode_instructions(data: bytes) -> Iterator[tuple[int, int]]:
    """The hart and the pc of each access of a trace of version 3, as far as it goes."""
    place, pcs = HEADER, dict[int, int]()
    while place < len(data) and data[place] != END:
        tag = data[place]
        if tag in SIZES:
            place += SIZES[tag] + (
                int.from_bytes(data[place + 10 : place + 12], "little") if tag == SYMBOL else 0
            )
            continue
        hart = data[place + 1]
        _, place = decode_number(data, place + 2)
        by, place = decode_number(data, place)
        pcs[hart] = (pcs.get(hart, 0) + by) % 2**32
        yield hart, pcs[hart]


def last_positions(trace: str) -> dict[int, int]:
    """The position of each hart's last access in a trace of version 1."""
    found: dict[int, int] = {}
    with open(trace, "rb") as file, mmap.mmap(file.fileno(), 0, access=mmap.ACCESS_READ) as data:
        at = 0
        for _, piece in access_pieces(data):
            harts = piece[1::8]
            found.update((hart, at + harts.rfind(hart)) for hart in set(harts))
            at += len(harts)
    return found


class LastInstructions:
    """The pcs of each hart's last accesses in a trace that has them, the newest first."""

    def __init__(self, predator: Predator, trace: str, accesses: int, folder: str) -> None:
        self.predator, self.trace, self.folder = predator, trace, folder
        self.pcs_by_hart: dict[int, list[int]] = {}
        for hart, pcs in self.read_after(max(accesses - LAST_ACCESSES, 0), accesses).items():
            self.pcs_by_hart[hart] = pcs

    def read_after(self, at: int, most: int) -> dict[int, list[int]]:
        """The same of the accesses from a position on, at most so many."""
        parts = [os.path.join(self.folder, it) for it in ("before", "behind")]
        self.predator.quiet_output(["split", "--", self.trace, str(at), *parts])
        os.unlink(parts[0])
        with open(parts[1], "rb") as file:
            data = file.read(64 * (most + 4096)) if most < LAST_ACCESSES else file.read()
        os.unlink(parts[1])
        kept: dict[int, deque[int]] = {}
        for count, (hart, pc) in enumerate(decode_instructions(data)):
            if count == most:
                break
            kept.setdefault(hart, deque(maxlen=LAST_ACCESSES_OF_HART)).appendleft(pc)
        return {hart: list(own) for hart, own in kept.items()}

    def find_missing(self, places: dict[int, int]) -> None:
        """Looks for harts whose last accesses are farther back, at their places."""
        missing = sorted(
            (it for it in places if it not in self.pcs_by_hart), key=lambda place: -places[place]
        )
        for hart in missing[:MAX_MISSING_HARTS]:
            first = max(places[hart] - ACCESSES_BEFORE_LAST, 0)
            self.pcs_by_hart[hart] = self.read_after(first, places[hart] - first + 1)[hart]


def trace_with_pcs(view: View, predator: Predator, folder: str) -> str | None:
    """A trace of the run that has the instructions, or none."""
    trace = view.call.trace_file()
    if trace and has_pcs(trace):
        return trace
    if view.call.action != "run":
        return None
    out = os.path.join(folder, "trace")
    words = [*view.call.rerun_words(), *view.call.guest_words]
    words = add_trace_option([words[0], "--pcs", "--output", os.devnull, *words[1:]], out)
    predator.output(words, REPORT_STATUSES, stderr=subprocess.DEVNULL)
    return out


def note_waiting(view: View, predator: Predator | None) -> None:
    """Notes the place of each hart when the run ended by a deadlock or by its budget, where the lines of the program are known."""
    naming = view.naming
    if (
        predator is None
        or not naming.sources
        or view.call.reads_trace_once()
        or not predator.has_command("blame")
    ):
        return
    try:
        with tempfile.TemporaryDirectory(prefix="predator-view-") as folder:
            trace = trace_with_pcs(view, predator, folder)
            if trace is None:
                return
            ends = LastInstructions(predator, trace, view.report.accesses, folder)
            whole = view.call.trace_file()
            if whole and first_bytes(whole)[:8] == b"PRDTRC01":
                ends.find_missing(last_positions(whole))
    except (Refused, OSError, ValueError, KeyError, IndexError):
        return
    naming.find_lines({pc for own in ends.pcs_by_hart.values() for pc in own})
    rows = list(describe_harts(ends.pcs_by_hart, naming))
    if rows:
        view.notes.append(
            f"{'waiting' if view.report.outcome == 'deadlock' else 'running'} at the end: {'; '.join(rows)}"
        )


def describe_harts(found: dict[int, list[int]], naming: Naming) -> Iterator[str]:
    """Where harts were, those that were at one place together."""
    places: dict[str, list[int]] = {}
    for hart, pcs in sorted(found.items()):
        place = hart_place(pcs, naming)
        if place:
            places.setdefault(place, []).append(hart)
    for place, harts in places.items():
        yield f"{name_harts(harts)} at {place}"


def name_harts(harts: Iterable[int]) -> str:
    names = [str(it) for it in harts]
    return (
        f"hart {names[0]}" if len(names) == 1 else f"harts {', '.join(names[:-1])} and {names[-1]}"
    )


def hart_place(pcs: list[int], naming: Naming) -> str:
    """Where a hart was: at its last access, and where that is in the kit at the last one of the program's own before it. Of one that has
    ended, nothing."""
    if not pcs or naming.sources is None:
        return ""
    frames = naming.sources.frames(pcs[0])
    if any(it.function in END_FUNCTIONS for it in frames):
        return ""
    own = next((it for it in pcs if is_own(it, naming)), None)
    # (which of the program's calls it is, the instruction before says)
    here = naming.instruction_name(pcs[0], by_callers=False)
    return here if own is None or own == pcs[0] else f"{here}, after {naming.instruction_name(own)}"


def is_own(pc: int, naming: Naming) -> bool:
    """Whether an instruction is of the program's own sources."""
    frames = naming.sources.frames(pc) if naming.sources else []
    return bool(frames) and bool(frames[-1].file) and not KIT.search(frames[-1].file)
