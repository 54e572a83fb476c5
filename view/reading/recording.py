"""Has a program of this machine recorded by `predator native`: from then on the call is one of its trace."""

import contextlib
import mmap
import os
import shutil
import signal
import subprocess
import tempfile
import time
from types import FrameType
from typing import Iterator, Sequence

from view.reading.calls import EXPLAIN, RECORDS, Call, Recording
from view.faults import Fault
from view.reading import guard
from view.reading.engine import Predator, launcher
from view.reading.file_kinds import is_report

# What the recorder ends with where it refuses words, files or programs.
REFUSAL_STATUSES = (125, 126, 127)
# How much of a disk a trace takes that is kept for the call alone.
MAX_DISK = "2G"
# Signals that end a program: the first two are handed on to it, and the others come to it from the terminal.
FORWARDED_SIGNALS, TERMINAL_SIGNALS = (signal.SIGTERM, signal.SIGHUP), (
    signal.SIGINT,
    signal.SIGQUIT,
)


def split_words(words: list[str], program: str) -> tuple[list[str], list[str]]:
    """The words of the recorder and those of a replay; the program's name is neither."""
    recorder: list[str] = []
    replay: list[str] = []
    at = 0
    while at < len(words):
        name, has_value, _ = words[at].partition("=")
        is_option = name.startswith("--")
        width = 2 if is_option and not has_value else 1
        if is_option:
            (recorder if name in RECORDS else replay).extend(words[at : at + width])
        at += width
    return recorder, replay


def is_built(program: str) -> bool:
    """Whether a program was linked with the recorder that needs no valgrind."""
    path = program if "/" in program or os.path.isfile(program) else shutil.which(program)
    with contextlib.suppress(OSError, ValueError), open(path or "", "rb") as file:
        with mmap.mmap(file.fileno(), 0, access=mmap.ACCESS_READ) as text:
            return text.find(b"libtsan-predator.so") >= 0
    return False


def recorder_flags(call: Call) -> list[str]:
    """The words of the recorder that have no value: those of the call, the recorder that the program is for, what the trace leaves out, and
    that it is to have no instructions of its accesses where these have no use."""
    marks = dict.fromkeys(it for it in call.recorder_flags if it != "--whole")
    if is_built(call.subject):
        marks["--built"] = None
    if is_filtered(call):
        if not any(it.partition("=")[0] == "--filtered" for it in marks):
            marks["--filtered"] = None
    elif "--pcs" not in marks and not (
        call.number_option("explain", EXPLAIN) and Predator().has_command("blame")
    ):
        marks["--no-pcs"] = None
    return list(marks)


def is_filtered(call: Call) -> bool:
    """Whether a program is recorded without the accesses that change no cache: where the call wants that, or nothing that it asks for needs
    the others."""
    names = {it.partition("=")[0] for it in call.recorder_flags}
    if "--filtered" in names:
        return True
    thresholds = {"tracking", "prediction", "report"}
    return not (
        not names.isdisjoint({"--whole", "--no-pcs"})
        or "live" in call.options
        or call.options.get("by") == "count"
        or not thresholds.isdisjoint(call.option_values_of("--set"))
        or call.option_value("--settings") is not None
        or is_report(call.options.get("against", ""))
    )


@contextlib.contextmanager
def keep_run_trace(call: Call) -> Iterator[None]:
    """Has the run of a guest whose misses are counted write its trace to a file, which is lost at the end, where repairs can be tried."""
    if (
        call.action != "run"
        or call.option_value("--trace") is not None
        or not Predator().has_command("move")
    ):
        yield
        return
    with tempfile.TemporaryDirectory(prefix=guard.folder_prefix()) as folder:
        call.run_trace = os.path.join(folder, "trace")
        yield


def run_recorder(words: Sequence[str]) -> int:
    """What the recorder ends with. What would end this process meanwhile ends the program that is recorded, and what was recorded until
    then is shown."""
    came: list[int] = []
    runs: list[subprocess.Popen[bytes]] = []

    def take(number: int, frame: FrameType | None) -> None:
        if number in FORWARDED_SIGNALS and not runs:
            came.append(number)
        for run in runs if number in FORWARDED_SIGNALS else ():
            run.send_signal(number)

    # (what is ignored stays so, here and in the program)
    before = {
        number: old
        for number in (*FORWARDED_SIGNALS, *TERMINAL_SIGNALS)
        if (old := signal.getsignal(number)) is not signal.SIG_IGN
    }
    for number in before:
        signal.signal(number, take)
    try:
        runs.append(subprocess.Popen(words, stdout=2))
        for early in came:
            runs[0].send_signal(early)
        return runs[0].wait()
    finally:
        for number, old in before.items():
            signal.signal(number, old)


# Another recording may take so many times as long as the first one, and so many seconds more.
LONGER, MORE_SECONDS = 10, 10
# How many accesses the recorders give a thread in a turn, where no option says so.
RECORDER_QUANTUM = 100


def option_value(words: Sequence[str], option: str) -> str | None:
    """The value that words give for an option, or none."""
    for at, word in enumerate(words):
        name, has_value, value = word.partition("=")
        if name == option:
            return value if has_value else words[at + 1]
    return None


def file_stamp(path: str) -> tuple[int, int]:
    """A file's size and the time of its last change; zeroes where it isn't there."""
    with contextlib.suppress(OSError):
        about = os.stat(path)
        return about.st_size, about.st_mtime_ns
    return 0, 0


def is_gone(folder: str) -> bool:
    """Whether a folder was deleted; the current one may still be used then."""
    with contextlib.suppress(OSError):
        return os.stat(folder).st_nlink == 0
    return True


def check_trace(trace: str, old: tuple[int, int], status: int) -> None:
    """Refuses to go on where nothing was recorded, and gives a trace an end that was cut by a kill."""
    folder = os.path.dirname(trace) or "."
    if is_gone(folder):
        raise Fault(
            f"{folder}: this folder was deleted while the program ran, and the trace with it: name another"
            " one by TMPDIR or `--trace`"
        )
    if file_stamp(trace) == old or file_stamp(trace)[0] == 0:
        if status in REFUSAL_STATUSES or 0 < status < 128:
            raise Fault(
                f"`predator native` failed with status {status}",
                status if status in REFUSAL_STATUSES[2:] else 2,
            )
        number = -status if status < 0 else status - 128
        name = signal.Signals(number).name if number in set(signal.Signals) else "no signal"
        raise Fault(
            f"the recorder ended before it recorded anything: {name}", 128 + number if number else 2
        )
    if status in (-signal.SIGKILL, 128 + signal.SIGKILL) and os.path.isfile(trace):
        subprocess.run(
            [launcher(), "native", "--mend", trace],
            stdin=subprocess.DEVNULL,
            stdout=subprocess.DEVNULL,
            stderr=subprocess.DEVNULL,
        )


def record_again(recording: Recording, quantum: int, name: str = "again") -> str | None:
    """The trace of another recording, at a quantum, in processors that nothing else wants; or none where the program ended otherwise than
    with status 0, or took far longer. It has no input, and what it prints is lost."""
    trace = os.path.join(recording.folder, name)
    options = without(recording.options, ("--quantum", "--trace"))
    words = [launcher(), "native", *options, "--quantum", str(quantum), "--trace", trace]
    if option_value(options, "--max-disk") is None:
        words += ["--max-disk", MAX_DISK]
    nice = ["nice", "-n", "19"] if shutil.which("nice") else []
    run = subprocess.Popen(
        [*nice, *words, "--", *recording.command],
        stdin=subprocess.DEVNULL,
        stdout=subprocess.DEVNULL,
        stderr=subprocess.DEVNULL,
        start_new_session=True,
    )
    try:
        status = run.wait(timeout=LONGER * recording.seconds + MORE_SECONDS)
    except subprocess.TimeoutExpired:
        os.killpg(run.pid, signal.SIGKILL)
        run.wait()
        return None
    return trace if status == 0 and os.path.isfile(trace) else None


def without(words: Sequence[str], names: Sequence[str]) -> list[str]:
    """The words without some options and their values."""
    kept: list[str] = []
    at = 0
    while at < len(words):
        name, has_value, _ = words[at].partition("=")
        width = 2 if name in RECORDS and not has_value else 1
        if name not in names:
            kept += words[at : at + width]
        at += width
    return kept


def record_all(call: Call) -> bool:
    """Records the program of a call once more, with all accesses, and has the call name that trace; or not, where the program did something
    else."""
    recording, quantum = call.recording, call.recorded_quantum
    if recording is None or quantum is None:
        return False
    rest = [it for it in recording.options if it.partition("=")[0] != "--filtered"]
    trace = record_again(recording._replace(options=rest), quantum, "whole")
    if trace is None:
        return False
    call.recording = recording._replace(options=["--no-pcs", *rest])
    call.subject, call.words = trace, [trace, *recording.replay]
    call.__dict__.pop("filtered", None)
    return True


@contextlib.contextmanager
def record_program(call: Call) -> Iterator[None]:
    """Records the program of a call, where it is one of this machine, and has the call name its trace as long as that is there. What the
    program prints goes to standard error; its status is the trace's outcome."""
    if call.action != "native":
        yield
        return
    guard.remove_abandoned()
    guard.divide()
    with guard.own_folder() as folder:
        program = call.subject
        recorder, replay = split_words(call.words, program)
        trace = option_value(recorder, "--trace") or os.path.join(folder, "trace")
        # (as a shell has it, a name with a slash is a file, and another one is looked for)
        name = (
            program if "/" in program or not os.path.isfile(program) else os.path.join(".", program)
        )
        words = [launcher(), "native", *recorder_flags(call)]
        if option_value(recorder, "--trace") is None:
            words += ["--trace", trace]
            if option_value(recorder, "--max-disk") is None:
                words += ["--max-disk", MAX_DISK]
        old = file_stamp(trace)
        command, began = [name, *call.guest_words[1:]], time.monotonic()
        status = run_recorder([*words, *recorder, "--", *command])
        check_trace(trace, old, status)
        flags = [it for it in recorder_flags(call) if it not in ("--pcs", "--no-pcs")]
        flags += [] if is_filtered(call) else ["--no-pcs"]
        call.recording = Recording(
            [*flags, *recorder], command, replay, folder, time.monotonic() - began
        )
        call.recorded_quantum = int(option_value(recorder, "--quantum") or RECORDER_QUANTUM)
        call.action, call.subject, call.guest_words = "replay", trace, []
        call.words = [trace, *replay]
        # (until now there was no trace)
        call.__dict__.pop("filtered", None)
        yield
