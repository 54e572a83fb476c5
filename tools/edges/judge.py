"""Judges how a call of the program ended: what it printed, said and wrote, and which calls of the system it
made."""

import collections
import os
from typing import Iterator, NamedTuple

from bench import Call, Ending, Fault
from cases import Case


# How many bytes are asked for at once at most.
PIECE = 65536


class Wanted(NamedTuple):
    """How a call ends where one of its calls of the system went wrong. Of what is printed a front may be
    enough. `line` is the fault that is said, and None where whatever is said will do. Outputs are `whole`,
    `begun` in their order, or as they `stay`."""

    status: int
    printed: bytes
    is_front: bool
    line: bytes | None
    outputs: str


def expected_end(case: Case) -> Wanted:
    return Wanted(
        case.status, case.printed, False, b"", "stay" if case.keeps_outputs() else "whole"
    )


def has_right_message(case: Case, ending: Ending, wanted: Wanted) -> bool:
    """Whether a call says what it is to say: what it shows of a run until then, the fault, and behind that
    the advice of a refusal."""
    if wanted.line is None:
        return True
    if not wanted.line:
        return ending.said == case.said
    shown, found, advice = ending.said.partition(wanted.line)
    if case.is_refused():
        return (
            bool(found)
            and not shown
            and advice == (case.said if wanted.status == case.status else b"")
        )
    is_shown = case.said.startswith(shown) or (
        shown.endswith(b"\n") and case.said.startswith(shown[:-1])
    )
    return bool(found) and is_shown and not advice


def output_faults(case: Case, ending: Ending, outputs: str) -> Iterator[Fault]:
    """What is wrong with the outputs: they are begun in their order, and of each a front stands."""
    is_before = True
    for name, whole in case.writes:
        now = ending.files[name]
        is_same = now == ending.before[name]
        if outputs == "whole" and now != whole:
            yield f"{name} isn't whole: {None if now is None else len(now)} bytes of {len(whole)}"
        if outputs == "stay" and not is_same:
            yield f"{name} was written"
        if outputs == "begun" and not is_same and (now is None or not whole.startswith(now)):
            yield f"{name} is no front of what it is to be"
        if outputs == "begun" and not is_same and not is_before:
            yield f"{name} is begun, and the output before it isn't"
        is_before = not is_same


def find_faults(case: Case, ending: Ending, wanted: Wanted) -> list[Fault]:
    found = (
        list(ending.faults)
        + call_faults(case, ending)
        + list(output_faults(case, ending, wanted.outputs))
    )
    if ending.status != wanted.status:
        found.append(f"status {ending.status}, and {wanted.status} is wanted")
    is_right = (
        wanted.printed.startswith(ending.printed)
        if wanted.is_front
        else wanted.printed == ending.printed
    )
    if not is_right:
        found.append(
            f"it printed {ending.printed[:60]!r}.., {len(ending.printed)} bytes, and wanted are"
            f" {wanted.printed[:60]!r}.."
        )
    if not has_right_message(case, ending, wanted):
        found.append(f"it said {ending.said[-200:]!r}, and wanted is {wanted.line!r}")
    return found


class FileProgress:
    """What was made of the files so far: which were opened, read from, read to their ends, and emptied, each
    in order."""

    def __init__(self) -> None:
        self.opened: list[str] = []
        self.begun: set[str] = set()
        self.ended: set[str] = set()
        self.emptied: list[str] = []


def opening_faults(case: Case, call: Call, seen: FileProgress) -> Iterator[Fault]:
    """What is wrong with how a file is opened. Each is opened once, an input for reading alone, and an output
    to be written as it stands, after the inputs were read to their ends. Of a trace that is read along with
    the writing something was read."""
    outputs = dict(case.writes)
    how = call.asked & ~(os.O_CLOEXEC | os.O_NOCTTY | os.O_LARGEFILE)
    if call.name in seen.opened and call.name != os.devnull:
        yield f"{call.name} is opened twice"
    if call.name not in outputs:
        if how != os.O_RDONLY:
            yield f"{call.name} is opened with {call.asked:#o}, and is no output"
        if call.name not in case.reads and call.name != os.devnull:
            yield f"{call.name} is opened, and no file of the call"
        return
    if how != os.O_WRONLY | os.O_CREAT:
        yield f"{call.name} is opened with {call.asked:#o}"
    yield from (
        f"{call.name} is opened before {name} was read to its end"
        for name in case.reads
        if name not in (seen.begun if name == case.along else seen.ended)
    )


def is_read_once(case: Case, name: str) -> bool:
    """Whether a file is read from its front to its end, each byte once. The advice of a refusal looks at the
    front of its file again."""
    return name in case.reads and name != case.again and not case.is_refused()


def call_faults(case: Case, ending: Ending) -> list[Fault]:
    """What is wrong with the calls of the system that were made, by what was written down of them."""
    found: list[Fault] = []
    outputs, seen, handed = dict(case.writes), FileProgress(), collections.Counter[str]()
    still: dict[int, str] = {}
    for call in ending.calls:
        if call.call == "open" and call.answer >= 0:
            found += opening_faults(case, call, seen)
            still[call.answer] = call.name
            seen.opened.append(call.name)
        elif call.call == "close" and still.pop(call.fd, None) is None:
            found.append(f"{call.fd} is closed, and isn't open")
        elif call.call == "read" and call.asked > PIECE:
            found.append(f"{call.asked} bytes of {call.name} are read at once")
        elif call.call == "read" and call.answer >= 0:
            (seen.begun if call.answer else seen.ended).add(call.name)
        elif call.call == "lseek" and call.name in seen.begun and is_read_once(case, call.name):
            found.append(f"{call.name} is sought after it was read from, and is read once")
        elif call.call == "ftruncate" and call.answer == 0:
            seen.emptied.append(call.name)
            are_in_order = seen.emptied == list(outputs)[: len(seen.emptied)]
            found += [] if are_in_order else [f"the outputs are begun as {seen.emptied}"]
        elif call.call == "write":
            handed[call.name] += max(call.answer, 0)
            if call.name not in ("<1>", "<2>") and call.name not in seen.emptied:
                found.append(f"{call.name} is written, and wasn't emptied")
    found += [f"{name} isn't closed" for name in still.values()]
    if handed["<1>"] != len(ending.printed):
        found.append(
            f"{handed['<1>']} bytes were answered as printed, and {len(ending.printed)} are there"
        )
    found += [
        f"{handed[name]} bytes were answered as written to {name}, and"
        f" {len(ending.files[name] or b'')} are there"
        for name in seen.emptied
        if name in outputs and len(ending.files[name] or b"") != handed[name]
    ]
    return found
