"""Calls the proved program, which every number that is shown comes from."""

import concurrent.futures
import contextlib
import functools
import io
import os
import re
import subprocess
import tempfile
import threading
from typing import Callable, NamedTuple, Sequence, Union

from view.faults import Fault
from view.reading.program import Stream, call_program, find_launcher
from view.reading.reports import Blame, Explanation, Misses, Placement, Report
from view.reading.settings import USUAL

# What a run or a replay ends with where its report is printed.
REPORT_STATUSES = (0, 10, 11, 12)
PIECE_BYTES = 1 << 20
# What a reader prints of a trace.
PassResult = Union[Misses, Report, Blame]


def launcher() -> str:
    """The command `predator` of this checkout, or that of the folder where this was installed."""
    path = find_launcher()
    if path is None:
        raise Fault("can't find the command predator", 127)
    return path


class Refused(Fault):
    """The program has refused a call, and said why on standard error."""


class Predator:
    """The program. What the first run says on standard error, which has what the guest puts out too, is handed on as it comes; the runs
    behind it would say the same again, so theirs is lost. Only a status shows that a call has failed.
    """

    def __init__(self) -> None:
        self.command = launcher()
        self.commands: set[str] | None = None
        self.direct_path: str | None = None
        # (what the run said whose trace was counted)
        self.stderr_text = ""

    def output(
        self,
        words: Sequence[str | bytes],
        good: Sequence[int] = (0,),
        *,
        command: str | None = None,
        stdin: Stream = subprocess.DEVNULL,
        stderr: Stream = None,
        pass_fds: Sequence[int] = (),
    ) -> str:
        """What a call prints, which must end with one of these statuses."""
        answer = call_program(
            [command or self.command], words, stdin=stdin, stderr=stderr, pass_fds=pass_fds
        )
        if answer.message:
            self.stderr_text = answer.message
        if answer.status not in good:
            said = answer.refusal() or f"status {answer.status}"
            if answer.message:
                said += f" ({answer.reason()})"
            raise Refused(f"`predator {words[0]!s}` failed: {said}")
        return answer.text

    def direct_command(self) -> str:
        """The program without its launcher, which a first screen calls dozens of times; or the launcher where that doesn't know it."""
        if self.direct_path is None:
            path = os.environ.get("PREDATOR_PROGRAM") or (
                "" if os.environ.get("PREDATOR_TRY") else self.program_path()
            )
            self.direct_path = path if os.access(path, os.X_OK) else self.command
        return self.direct_path

    def program_path(self) -> str:
        found = call_program([self.command], ["--where"], stderr=subprocess.DEVNULL)
        return os.fsdecode(found.text.encode("latin-1")).rstrip("\n")

    def quiet_output(
        self,
        words: Sequence[str | bytes],
        good: Sequence[int] = (0,),
        stdin: Stream = subprocess.DEVNULL,
    ) -> str:
        """What a call prints that reads or writes traces alone, and of whose faults nothing is said."""
        return self.output(
            words, good, command=self.direct_command(), stdin=stdin, stderr=subprocess.DEVNULL
        )

    def has_command(self, command: str) -> bool:
        """Whether the program knows a command, by its lines of usage."""
        if self.commands is None:
            answer = call_program([self.command], [], stderr=subprocess.PIPE)
            if answer.status != 1:
                raise Fault(
                    answer.message.strip() or "the command predator fails without a message", 127
                )
            self.commands = set(re.findall(r"^usage: predator (\w+)", answer.text, re.MULTILINE))
        return command in self.commands

    def read_report(self, words: Sequence[str], stdin: Stream = subprocess.DEVNULL) -> Report:
        text = self.output(words, REPORT_STATUSES, stdin=stdin)
        return Report(text, "the report of " + words[0])

    def explain_line(self, words: Sequence[str]) -> Explanation:
        return Explanation(
            self.output(["explain", *words], REPORT_STATUSES, stderr=subprocess.DEVNULL)
        )

    def find_placement(self, trace: str, name: str | bytes, size: int) -> Placement | None:
        """Where `place` puts an object's words apart by their harts, or none where it has no such object or room."""
        try:
            text = self.quiet_output(["place", "--size", str(size), "--", trace, name])
        except Refused:
            return None
        return Placement(text)

    def read_trace(self, trace: str, reader: "TraceReader") -> PassResult:
        """What a reader prints of a trace."""
        return reader.parse(self.quiet_output([*reader.words, "--", trace], reader.good_statuses))

    def read_trace_by_all(self, trace: str, readers: "Sequence[TraceReader]") -> list[PassResult]:
        """What readers print of a trace, side by side."""
        with concurrent.futures.ThreadPoolExecutor(max_workers=min(4, os.cpu_count() or 1)) as pool:
            return list(pool.map(functools.partial(self.read_trace, trace), readers))

    def read_trace_of_run(
        self, words: list[str], readers: "Sequence[TraceReader]", kept: str | None = None
    ) -> list[PassResult]:
        """What readers print of the trace of a run, which is written to a file if one is named. Else it goes through pipes where the
        program can write to them, and else through a file that is lost."""
        if kept is not None:
            self.record(words, kept)
            return self.read_trace_by_all(kept, readers)
        with contextlib.suppress(Refused, BrokenPipeError):
            return self.read_run_by_pipes(words, readers)
        with tempfile.TemporaryDirectory(prefix="predator-view-") as folder:
            trace = os.path.join(folder, "trace")
            self.record(words, trace)
            return self.read_trace_by_all(trace, readers)

    def record(self, words: list[str], trace: str) -> None:
        """Has a run write its trace to a file. (What the program puts out was shown with its report.)"""
        self.output(
            add_trace_option([words[0], "--output", os.devnull, *words[1:]], trace),
            REPORT_STATUSES,
            stderr=subprocess.PIPE,
        )

    def read_run_by_pipes(
        self, words: list[str], readers: "Sequence[TraceReader]"
    ) -> list[PassResult]:
        return self.run_and_read_by_pipes(words, readers)[1]

    def run_and_read_by_pipes(
        self, words: list[str], readers: "Sequence[TraceReader]", keeps_errors: bool = True
    ) -> tuple[str, list[PassResult]]:
        """The report of a run, and what readers print of its trace; what it says on standard error is kept only if that is asked for."""
        said = subprocess.PIPE if keeps_errors else subprocess.DEVNULL
        return self.read_output(
            lambda name: add_trace_option(words, name), readers, good=REPORT_STATUSES, stderr=said
        )

    def read_moved_trace(
        self, trace: str, table: str, readers: "Sequence[TraceReader]"
    ) -> list[PassResult]:
        """What readers print of a trace whose words have moved by a table, which is written nowhere."""
        words = ["move", "--", trace, table]
        return self.read_output(
            lambda name: [*words, name],
            readers,
            command=self.direct_command(),
            stderr=subprocess.DEVNULL,
        )[1]

    def read_output(
        self,
        words: Callable[[str], list[str]],
        readers: "Sequence[TraceReader]",
        good: Sequence[int] = (0,),
        *,
        command: str | None = None,
        stderr: Stream = None,
    ) -> tuple[str, list[PassResult]]:
        """What a call prints, and what readers print of the trace that it writes; its words are made of the trace's name."""
        with concurrent.futures.ThreadPoolExecutor(
            max_workers=len(readers) + 1
        ) as pool, contextlib.ExitStack() as open_ends:
            mains: list[io.FileIO] = []
            counts = []
            for reader in readers:
                take, give = os.pipe()
                counts.append(pool.submit(self.read_pipe, take, reader))
                mains.append(open_ends.enter_context(open(give, "wb", 0)))
            take, give = os.pipe()
            copying = threading.Thread(target=copy_pipe, args=(take, mains))
            copying.start()
            try:
                text = self.output(
                    words(f"/dev/fd/{give}"),
                    good,
                    command=command,
                    stderr=stderr,
                    pass_fds=(give,),
                )
            finally:
                os.close(give)
                copying.join()
                open_ends.close()
        return text, [it.result() for it in counts]

    def read_pipe(self, take: int, reader: "TraceReader") -> PassResult:
        with open(take, "rb", 0) as trace:
            return reader.parse(
                self.quiet_output([*reader.words, "-"], reader.good_statuses, stdin=trace)
            )


class TraceReader(NamedTuple):
    """A command that reads a trace: its words without that, the statuses of an answer, and what its text is."""

    words: list[str]
    good_statuses: tuple[int, ...]
    parse: Callable[[str], PassResult]


def misses_reader(layout: tuple[int, int]) -> TraceReader:
    return TraceReader(["misses", *layout_words(layout)], (0,), Misses)


def blame_reader(layout: tuple[int, int]) -> TraceReader:
    return TraceReader(["blame", *layout_words(layout)], (0,), Blame)


def every_line_reader(layout: tuple[int, int]) -> TraceReader:
    """A report of every line that was ever taken."""
    return TraceReader(
        ["replay", "--set", "tracking=1,report=1", *layout_words(layout)], REPORT_STATUSES, Report
    )


def layout_words(layout: tuple[int, int]) -> list[str]:
    return ["--size", str(layout[0]), "--shift", str(layout[1])]


def add_trace_option(words: list[str], name: str) -> list[str]:
    """The words of a run with one option more, before a `--`."""
    return [words[0], "--trace", name, *words[1:]]


def copy_pipe(take: int, ends: list[io.FileIO]) -> None:
    """Copies a pipe to others, and closes them; one whose reader is gone is left out."""
    with open(take, "rb", 0) as source:
        while piece := source.read(PIECE_BYTES):
            for end in list(ends):
                try:
                    left = memoryview(piece)
                    while left:
                        left = left[end.write(left) :]
                except OSError:
                    ends.remove(end)
    for end in ends:
        end.close()


def stack_range(predator: Predator, program: str, words: Sequence[str]) -> tuple[int, int] | None:
    """The lowest and highest address of the stacks, or none where the program can't say."""
    with contextlib.suppress(Fault):
        found = re.search(
            r"^stacks (0x[0-9a-f]+) (0x[0-9a-f]+)$",
            predator.output(["check", program, *words], stderr=subprocess.DEVNULL),
            re.MULTILINE,
        )
        if found:
            return int(found[1], 16), int(found[2], 16)
    return None


def setting_value(words: Sequence[str], key: str) -> int:
    """A setting of a call, by its file and its words, and else the usual one; `words` are those that name settings."""
    import tomllib

    found = USUAL[key]
    for at, word in enumerate(words):
        name, has_value, value = word.partition("=")
        value = value if has_value else (words[at + 1] if at + 1 < len(words) else "")
        with contextlib.suppress(OSError, ValueError):
            if name == "--settings":
                with open(value, "rb") as file:
                    found = int(tomllib.load(file).get(key, found))
            elif name == "--set":
                found = int(dict(it.split("=", 1) for it in value.split(",")).get(key, found))
    return found
