"""A run at a fine interleaving beside the usual one: the objects that threads contend for only there. A guest runs again as it ran; a
program of this machine is recorded once more, where it can be expected to do the same."""

import concurrent.futures
import contextlib
import copy
import os
import stat
import subprocess
from typing import Callable, Optional, Sequence

from view.faults import Fault
from view.model.object_keys import StackKey, SymbolKey
from view.model.objects import DataObject
from view.model.view import MIN_ACCESS_SHARE_DIVISOR, View
from view.reading.calls import Call, option_width
from view.reading.engine import Predator, setting_value
from view.reading.program import Stream
from view.reading.recording import keep_run_trace, option_value, record_again
from view.reading.reports import Report

# The quantum of the fine run, and the least one beside which it is made.
FINE_QUANTUM, LEAST_QUANTUM = 3, 30
# A program of more accesses is run at the fine quantum only where the call asks for it.
MAX_ACCESSES = 4_000_000
# What the call of the fine run has of the options.
KEPT_OPTIONS = ("object", "type", "sources", "shape", "library")

# Options of a recording with which a part is recorded that depends on time.
OF_TIME = ("--skip", "--for", "--windows", "--most", "--child", "--max-disk")

FineRun = Optional["concurrent.futures.Future[View | None]"]


class QuietPredator(Predator):
    """The program, of whose messages nothing is shown: they are those of the first run."""

    def output(
        self,
        words: Sequence[str | bytes],
        good: Sequence[int] = (0,),
        *,
        command: str | None = None,
        stdin: Stream = subprocess.DEVNULL,
        stderr: Stream = None,
        pass_fds: Sequence[int] = (),
    ) -> str:
        return super().output(
            words,
            good,
            command=command,
            stdin=stdin,
            stderr=subprocess.DEVNULL,
            pass_fds=pass_fds,
        )


def why_not_again(call: Call, report: Report) -> str:
    """Why a program of this machine isn't recorded once more, or nothing."""
    recording = call.recording
    if recording is None:
        return "there is no program to run"
    part = next((it for it in recording.options if it.partition("=")[0] in OF_TIME), "")
    if part:
        return f"with `{part}` another run would record another part"
    if report.outcome != "exit 0":
        return "its first run didn't end with exit 0"
    with contextlib.suppress(OSError):
        kind = os.fstat(0).st_mode
        if stat.S_ISREG(kind) or stat.S_ISFIFO(kind) or stat.S_ISSOCK(kind):
            return "its standard input can be read once"
    return ""


def wants_all_accesses(view: View) -> bool:
    """Whether a program of this machine is recorded once more with all accesses, since only they show what threads share by bytes, and the
    call doesn't want the others."""
    recording = view.call.recording
    return (
        view.has_unknown_bytes
        and recording is not None
        and not any(it.startswith("--filtered") for it in view.call.recorder_flags)
        and not view.call.is_again
        and "no-fine" not in view.call.options
        and option_value(recording.options, "--trace") is None
        and not why_not_again(view.call, view.report)
    )


def wants_fine_recording(call: Call, report: Report, accesses: int) -> bool:
    """Whether a recording at the fine quantum may show what this one doesn't."""
    return (
        call.recording is not None
        and "no-fine" not in call.options
        and (call.recorded_quantum or 0) >= LEAST_QUANTUM
        and (accesses <= MAX_ACCESSES or "fine" in call.options)
        and not why_not_again(call, report)
    )


def wants_fine_run(call: Call, accesses: int) -> bool:
    """Whether a run at the fine quantum may show what this one doesn't."""
    words = call.settings_words()
    return (
        call.action == "run"
        and "no-fine" not in call.options
        and not any(it.startswith("--schedule") for it in words)
        and setting_value(words, "seed") == 0
        and setting_value(words, "quantum") >= LEAST_QUANTUM
        and (accesses <= MAX_ACCESSES or "fine" in call.options)
    )


def fine_call(call: Call) -> Call:
    """The same call at the fine quantum, with nothing written."""
    fine = copy.copy(call)
    fine.words = call.rerun_words()[1:]
    fine.words = set_quantum(fine.words, FINE_QUANTUM)
    fine.options = {name: own for name, own in call.options.items() if name in KEPT_OPTIONS}
    fine.options.update({"explain": "0", "no-predicted": "", "no-fine": ""})
    fine.run_trace = None
    fine.is_again = True
    return fine


def recorded_call(call: Call, trace: str) -> Call:
    """The same call for another recording of its program."""
    fine, recording = copy.copy(call), call.recording
    fine.subject, fine.words = trace, [trace, *(recording.replay if recording else [])]
    fine.options = {name: own for name, own in call.options.items() if name in KEPT_OPTIONS}
    fine.options.update({"explain": "0", "no-predicted": "", "no-fine": ""})
    fine.recorded_quantum, fine.recording, fine.is_again = FINE_QUANTUM, None, True
    fine.__dict__.pop("filtered", None)
    return fine


def set_quantum(words: Sequence[str], quantum: int) -> list[str]:
    """The words of a run with another quantum."""
    found, at = list(words), 0
    while at < len(found) and found[at] != "--":
        name, has_value, value = found[at].partition("=")
        if name == "--set":
            value = value if has_value else found[at + 1]
            kept = [it for it in value.split(",") if it.partition("=")[0] != "quantum"]
            found[at : at + option_width(found[at])] = [
                f"--set={','.join([*kept, f'quantum={quantum}'])}"
            ]
            return found
        at += option_width(found[at])
    return ["--set", f"quantum={quantum}", *found]


def begin_fine_run(
    call: Call, report: Report, accesses: int, look: Callable[[Call, Predator], View]
) -> FineRun:
    """Begins a run at the fine quantum beside what else is counted, where it may show more. So many accesses were made."""
    is_recorded = wants_fine_recording(call, report, accesses)
    if not is_recorded and not wants_fine_run(call, accesses):
        return None
    pool = concurrent.futures.ThreadPoolExecutor(max_workers=1)
    try:
        if is_recorded:
            return pool.submit(view_recording, call, report, look)
        return pool.submit(view_fine_run, fine_call(call), look)
    finally:
        pool.shutdown(wait=False)


def view_recording(
    call: Call, report: Report, look: Callable[[Call, Predator], View]
) -> View | None:
    """What another recording shows, or none where the program did something else."""
    try:
        trace = record_again(call.recording, FINE_QUANTUM) if call.recording else None
        view = look(recorded_call(call, trace), QuietPredator()) if trace else None
    except (Fault, OSError):
        return None
    is_same = view is not None and view.report.outcome == report.outcome
    return view if view is not None and is_same and view.misses else None


def note_fine_run(view: View, run: FineRun) -> None:
    """Takes what a fine run has found, and notes where the call wants one and the program doesn't repeat."""
    view.fine = run.result() if run else None
    if view.fine is not None or "fine" not in view.call.options or not view.call.recording:
        return
    quantum = view.call.recorded_quantum or 0
    why = why_not_again(view.call, view.report)
    if run is not None:
        why = f"run again at a quantum of {FINE_QUANTUM}, it ended otherwise or took far longer"
    elif not why and quantum < LEAST_QUANTUM:
        why = f"a quantum of {quantum:,} is fine already"
    view.notes.append(f"nothing is known of a fine interleaving: {why}")


def view_fine_run(call: Call, look: Callable[[Call, Predator], View]) -> View | None:
    try:
        with keep_run_trace(call):
            view = look(call, QuietPredator())
    except (Fault, OSError):
        return None
    return view if view.report.ended_well() and view.misses else None


def is_contended(view: View, obj: DataObject) -> bool:
    """Whether an object has false-sharing misses that are worth a row."""
    return obj.useless * MIN_ACCESS_SHARE_DIVISOR >= view.accesses


def has_repair(view: View, obj: DataObject | None) -> bool:
    """Whether a repair of an object saves enough to be named."""
    tried = view.decisive_trial(obj) if obj else None
    return tried is not None and (tried.is_saving() or tried.same_as is not None)


def stack_variable(view: View, key: StackKey) -> DataObject | None:
    """The worst of the variables on a stack that the usual run names, or none: a recording without pcs has the stack alone."""
    for obj in view.objects:
        place = view.stack_places.get(obj.key.addr) if isinstance(obj.key, SymbolKey) else None
        if place is not None and place.hart == key.hart:
            return obj
    return None


def same_object(view: View, fine: View, obj: DataObject) -> DataObject | None:
    """The object of the usual run that one of the fine run is: in another recording it may have another address."""
    if isinstance(obj.key, StackKey) and (found := stack_variable(view, obj.key)):
        return found
    if view.call.recording is None:
        return view.objects_by_key.get(obj.key)
    text = fine.lasting_keys.get(obj.key)
    same = (it for it in view.objects_by_key.values() if view.lasting_keys.get(it.key) == text)
    return next(same, None) if text else None


def fine_objects(view: View) -> list[DataObject]:
    """The objects of the fine run, worst first, that are contended only there: which have a repair there alone, or hardly a false-sharing
    miss in the usual run."""
    fine = view.fine
    if fine is None or view.misses is None:
        return []
    found = []
    for obj in fine.listed_objects():
        own = same_object(view, fine, obj)
        is_new = own is None or not is_contended(view, own)
        if not has_repair(view, own) and (is_new or has_repair(fine, obj)):
            if is_contended(fine, obj):
                found.append(obj)
    return found


def fine_notes(view: View) -> list[str]:
    """A sentence for each of these objects."""
    if view.fine is None:
        return []
    return [
        f"only at fine interleaving (quantum {FINE_QUANTUM}): {view.fine.label(obj)}:"
        f" {obj.useless:,} false-sharing misses; typical of queues and spinning; fix:"
        f" {view.fine.details(obj).fix}"
        for obj in fine_objects(view)
    ]
