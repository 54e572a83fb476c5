"""Tries streams: that are closed, full, terminals, pipes whose reader goes, and files of the call; inputs and
outputs that are pipes; and a disk that is full."""

import fcntl
import os
import pty
import select
import shutil
import subprocess
import tempfile
import threading
from typing import Callable, Iterator, Sequence

import files
from bench import SECONDS, Bench, Fault, read_content
from ended import (
    IN_USE,
    READ_FAULT,
    WRITE_FAULT,
    Ended,
    fault_line,
    compare_bytes,
    put_file,
    remove_files,
    check_outputs,
)
from cases import Case

BROKEN, NO_SPACE, NO_STREAM = "Broken pipe", "No space left on device", "Bad file descriptor"
READ_ONCE = "a pipe or a terminal can be read only once: write it to a file first"
# How many bytes a pipe takes that nobody reads, how many more of them a reader makes room for that takes a
# few, and those of a disk that is filled.
PIPE, PAGE, DISK = 65536, 4096, 16384


def close_streams(*numbers: int) -> Callable[[], None]:
    def close() -> None:
        for number in numbers:
            os.close(number)

    return close


def try_closed_streams(bench: Bench) -> None:
    """Without standard output nothing is printed and each output is whole; without the other streams all is
    as with them."""
    for case in (it for it in bench.cases if not it.piped):
        for numbers in ((0,), (1,), (2,), (0, 1, 2)):
            is_lost = 1 in numbers and not case.is_refused()
            shown = b"" if case.status else case.said
            said = shown + fault_line("standard output", NO_STREAM) if is_lost else case.said
            is_seen = 2 not in numbers and not case.is_refused()
            ended = Ended(bench, case.words, preexec_fn=close_streams(*numbers))
            found = ended.faults(
                8 if is_lost else case.status,
                b"" if 1 in numbers else case.printed,
                said if is_seen else None,
            )
            bench.count(
                "streams",
                f"without {' '.join(map(str, numbers))}",
                case.words,
                found + check_outputs(case) + bench.changed_inputs(),
            )


def read_terminal(terminal: int) -> bytes:
    """All that was written on a terminal that nobody writes on any more. It is closed."""
    said = b""
    try:
        while piece := os.read(terminal, PAGE):
            said += piece
    except OSError:
        # (so a terminal ends that nobody has open)
        pass
    os.close(terminal)
    return said


def try_terminals(bench: Bench) -> None:
    """With a terminal for standard error all is as without one."""
    for case in (it for it in bench.cases if not it.piped and len(it.said) < PAGE):
        ours, theirs = pty.openpty()
        ended = Ended(bench, case.words, stderr=theirs)
        os.close(theirs)
        said = read_terminal(ours).replace(b"\r\n", b"\n")
        found = ended.faults(case.status, case.printed, None) + (
            [] if said == case.said else [f"it said {said!r}"]
        )
        bench.count(
            "streams",
            "a terminal",
            case.words,
            found + check_outputs(case) + bench.changed_inputs(),
        )


def try_full_output(bench: Bench) -> None:
    """What can't be printed is a fault, and each output is whole."""
    for case in (it for it in bench.cases if not it.is_refused() and not it.piped):
        for what, reason in (("/dev/full", NO_SPACE), ("a pipe that nobody reads", BROKEN)):
            reading, writing = os.pipe()
            os.close(reading)
            with open("/dev/full", "wb") as full:
                ended = Ended(bench, case.words, stdout=full if what == "/dev/full" else writing)
            os.close(writing)
            said = (b"" if case.status else case.said) + fault_line("standard output", reason)
            bench.count(
                "streams", what, case.words, ended.faults(8, None, said) + check_outputs(case)
            )


def cases_onto_output(bench: Bench) -> Iterator[tuple[Case, tuple[str, ...], bytes]]:
    """Each call that writes, with standard output for each of its outputs, and what that one is to have."""
    for case in bench.writing_cases():
        for name, whole in case.writes:
            yield case, case.renamed(name, "/dev/stdout").words, whole


def try_output_as_file(bench: Bench) -> None:
    """Standard output as an output: a pipe takes the bytes and then the text, and a file stays as it is."""
    for case, call, whole in cases_onto_output(bench):
        found = Ended(bench, call).faults(case.status, whole + case.printed, case.said)
        remove_files(*dict(case.writes))
        put_file("both", b"before\n")
        with open("both", "ab") as file:
            ended = Ended(bench, call, stdout=file)
        found += ended.faults(8, None, None) + compare_bytes("both", b"before\n" + WRITE_FAULT)
        found += ended.check_last_line(fault_line("/dev/stdout", IN_USE))
        remove_files("both", *dict(case.writes))
        bench.count("streams", "an output", call, found + bench.changed_inputs())


def try_text_into_file(bench: Bench) -> None:
    """A text goes behind what is in the file that standard output is, and never into a file of the call."""
    for case in (it for it in bench.cases if not it.is_refused() and not it.piped):
        put_file("text", b"before\n")
        with open("text", "ab") as file:
            ended = Ended(bench, case.words, stdout=file)
        found = (
            ended.faults(case.status, None, case.said)
            + compare_bytes("text", b"before\n" + case.printed)
            + check_outputs(case)
        )
        remove_files("text")
        for name in case.reads + tuple(dict(case.writes)):
            was = read_content(name)
            with open(name, "ab") as file:
                ended = Ended(bench, case.words, stdout=file)
            if name in case.reads:
                found += (
                    compare_bytes(name, was)
                    + ended.faults(8, None, None)
                    + ended.check_last_line(fault_line("standard output", IN_USE))
                )
            else:
                found += (
                    compare_bytes(name, WRITE_FAULT)
                    + ended.faults(8, None, None)
                    + ended.check_last_line(fault_line(name, IN_USE))
                )
            remove_files(*dict(case.writes))
        bench.count("streams", "a file", case.words, found + bench.changed_inputs())


def try_full_pipes(bench: Bench) -> None:
    """A pipe that takes no more and doesn't wait is a fault of printing, and has a front of the text."""
    for case in (it for it in bench.cases if len(it.printed) > PIPE and not it.piped):
        reading, writing = os.pipe()
        os.set_blocking(writing, False)
        ended = Ended(bench, case.words, stdout=writing)
        os.close(writing)
        with open(reading, "rb") as pipe:
            front = pipe.read()
        found = ended.faults(
            8, None, fault_line("standard output", "Resource temporarily unavailable")
        )
        found += (
            [] if case.printed.startswith(front) and front else ["no front of the text was printed"]
        )
        bench.count("streams", "a pipe that is full", case.words, found)


def call_through_fifo(bench: Bench, words: Sequence[str]) -> tuple[Ended, bytes]:
    """How a call ends, and what came through the FIFO that it writes into, to a program that reads it."""
    # (into a file, which takes all of it while the call goes on)
    with tempfile.TemporaryFile() as came, subprocess.Popen(
        ["cat", "fifo"], stdout=came
    ) as reading:
        ended = Ended(bench, words)
        try:
            reading.wait(SECONDS)
        except subprocess.TimeoutExpired:
            # (the call never opened it)
            reading.kill()
            return ended, b""
        came.seek(0)
        return ended, came.read()


def call_into_fifo(bench: Bench, words: Sequence[str]) -> Ended:
    """How a call ends that writes into a FIFO of one page, whose reader goes when it has read 10 bytes."""
    reading = os.open("fifo", os.O_RDONLY | os.O_NONBLOCK)
    fcntl.fcntl(reading, fcntl.F_SETPIPE_SZ, PAGE)

    def read_some() -> None:
        if select.select([reading], [], [], SECONDS)[0]:
            os.read(reading, 10)
        os.close(reading)

    reader = threading.Thread(target=read_some)
    reader.start()
    ended = Ended(bench, words)
    reader.join()
    return ended


def try_fifos(bench: Bench) -> None:
    """A FIFO gets a whole output; where its reader goes, that is a fault of writing."""
    os.mkfifo("fifo")
    for case, name, whole in (
        (case, name, whole) for case in bench.writing_cases() for name, whole in case.writes
    ):
        words = ["fifo" if it == name else it for it in case.words]
        ended, came = call_through_fifo(bench, words)
        found = ended.faults(case.status, case.printed, case.said) + (
            [] if came == whole else ["what came through is another file"]
        )
        bench.count("streams", "a FIFO", words, found)
        if len(whole) > 2 * PAGE:
            ended = call_into_fifo(bench, words)
            found = ended.faults(8, WRITE_FAULT, None) + ended.check_last_line(
                fault_line("fifo", BROKEN)
            )
            bench.count("streams", "a FIFO whose reader goes", words, found)
        remove_files(*dict(case.writes))
    remove_files("fifo")


def try_inputs_by_fifo(bench: Bench) -> None:
    """A FIFO serves as any file that is read once, and so no name is read twice but the trace that a command
    goes over more than once. That one is refused before an output is begun."""
    os.mkfifo("fifo")
    bench.kept = bench.stat_inputs()
    for case, name in (
        (case, name) for case in bench.cases if not case.piped for name in case.reads
    ):
        words = case.renamed(name, "fifo").words
        with subprocess.Popen(
            ["sh", "-c", 'exec cat "$1" >fifo', "sh", name], stderr=subprocess.DEVNULL
        ) as giving:
            ended = Ended(bench, words)
            giving.kill()
        if name == case.again:
            found = ended.faults(7, READ_FAULT, fault_line("fifo", READ_ONCE)) + check_absent(case)
        else:
            # (the advice of a refusal looks at the file again, where it can)
            said = None if case.is_refused() else case.said
            found = ended.faults(case.status, case.printed, said) + check_outputs(case)
        # (the FIFO itself was written by who gives it)
        found += [it for it in bench.changed_inputs() if it != "fifo was changed"]
        bench.count("streams", "an input by a FIFO", words, found)
    remove_files("fifo")
    bench.kept = bench.stat_inputs()


def check_absent(case: Case) -> list[Fault]:
    """What is wrong with the outputs of a call that is to begin none."""
    return [it for name, _ in case.writes for it in compare_bytes(name, None)]


# ---- A full disk.


def fill_disk(bench: Bench, mount: str, case: Case) -> list[Fault]:
    """What is wrong with a call whose outputs go onto a disk that they fill."""
    words = [f"disk/{it}" if it in dict(case.writes) else it for it in case.words]
    script = f'{mount} && {{ "$@"; ended=$?; cp disk/* .; exit $ended; }}'
    ran = subprocess.run(
        ["unshare", "-m", "sh", "-c", script, "sh", bench.program, *words],
        stdin=subprocess.DEVNULL,
        capture_output=True,
        timeout=SECONDS,
        check=False,
    )
    found = (
        []
        if (ran.returncode, ran.stdout) == (8, WRITE_FAULT)
        else [f"status {ran.returncode}, and it printed {ran.stdout!r}"]
    )
    made = [read_content(name) or b"" for name, _ in case.writes]
    found += [
        f"{name} is no front"
        for (name, whole), now in zip(case.writes, made)
        if not whole.startswith(now)
    ]
    found += (
        []
        if sum(map(len, made)) == DISK
        else [f"the outputs have {sum(map(len, made))} bytes, and the disk {DISK}"]
    )
    lines = tuple(fault_line(f"disk/{name}", NO_SPACE) for name, _ in case.writes)
    found += [] if ran.stderr.endswith(lines) else [f"it said {ran.stderr[-200:]!r}"]
    remove_files(*dict(case.writes))
    return found


def try_full_disk(bench: Bench) -> bool:
    """Fills a disk of 16 KiB, where one may be mounted. What fits is a front, and the call fails."""
    mount = f"mount -t tmpfs -o size={DISK} none disk"
    os.makedirs("disk")
    may = (
        shutil.which("unshare") is not None
        and subprocess.call(["unshare", "-m", "sh", "-c", mount], stderr=subprocess.DEVNULL) == 0
    )
    if may:
        one_piece = Case(
            ("gen", "3000", "f"),
            0,
            b"",
            (),
            (("f", files.trace_bytes(files.generated_accesses(3000))),),
        )
        for case in [one_piece, *bench.writing_cases()]:
            if sum(len(whole) for _, whole in case.writes) > DISK:
                bench.count(
                    "streams", "a disk of 16 KiB", case.words, fill_disk(bench, mount, case)
                )
    os.rmdir("disk")
    return may
