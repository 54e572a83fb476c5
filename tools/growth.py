#!/usr/bin/env python3
"""Looks for anything that grows as a square: gives the commands of the program made traces and guests of two
sizes, one four times the other, and names each call whose cost grew by more than six.

usage: tools/growth.py PROGRAM [--all] [--by WAY] [--times K] [NAME ..]

The traces stand in made_traces.py, the guests in made_guests.py and made_inputs.py, each with what it is and
the commands that it is made for; growth_calls.py has the calls of the commands. Words behind PROGRAM choose
those whose name has one of them, as `symbols` or `guest:`.
With --all each one goes through every command that takes it, which takes some minutes. With --times K all are
K times as large, as far as they may be.

A cost is a number of machine instructions, counted by perf, or where the machine doesn't let it by valgrind
(cachegrind); where there is neither, it is processor time, the least of three calls, of cases that are four
times as large. WAY is perf, valgrind or time, and chooses one. What the same call of next to nothing costs is
taken off before. What each call printed is compared with what the case is made for: a case that isn't what it
should be, or does too little to judge, is a fault. The status is 1 where a call is named or a case has a
fault. Calls of the cases in KNOWN are listed apart, and don't change the status; it is a fault where none of
them grows any more."""

import argparse
import os
import re
import resource
import shutil
import signal
import subprocess
import sys
import tempfile
import threading
from concurrent.futures import Future, ThreadPoolExecutor
from typing import Iterator, NamedTuple

import made_guests
import made_inputs
import made_traces
from growth_calls import OF_GUESTS, OF_TRACES, Call
from made_guests import Guest, GuestCase
from made_traces import TraceCase, TraceCaseFile

# The size grows by 4, and a cost by no more than this.
MOST = 6.0
# The cases of which it is known that they grow as a square, and why.
KNOWN = {
    "blocks dead before": (
        "a listed line looks at each block that lay over it, and only then at when it lived"
    ),
    "lines turned round": (
        "a table is read by putting each place among those before it, and it has at most 1 MiB"
    ),
    "guest: noted blocks, more and wider": "the call `block` looks at each page of its bytes",
    "program file: segments": "each header is compared with all behind it",
    "program file: names in one": (
        "each name is looked through to its end, however much of it is kept"
    ),
}
# A call may take so many seconds of a processor.
LONGEST = 40


class Way(NamedTuple):
    """How a cost is counted: the words before those of a call, where a file takes the place of FILE, and what
    is read of that file; how many calls are made, of which the least counts, and how many at a time; how
    large cases are; and below which cost a call does too little."""

    name: str
    words: tuple[str, ...]
    form: str
    calls: int
    at_a_time: int
    times: int
    least: float
    unit: str


PROCESSORS = len(os.sched_getaffinity(0))
CACHEGRIND = (
    "valgrind",
    "--tool=cachegrind",
    "--cache-sim=no",
    "--branch-sim=no",
    "--cachegrind-out-file=/dev/null",
    "--log-file=FILE",
)
WAYS = {
    "perf": Way(
        "machine instructions, by perf",
        ("perf", "stat", "-x,", "-e", "instructions:u", "-o", "FILE", "--"),
        r"(?m)^(\d+),",
        1,
        PROCESSORS,
        1,
        1e5,
        "M",
    ),
    "valgrind": Way(
        "machine instructions, by valgrind",
        CACHEGRIND,
        r"I\s+refs:\s+([\d,]+)",
        1,
        PROCESSORS,
        1,
        1e5,
        "M",
    ),
    "time": Way("processor time, the least of three calls", (), "", 3, 1, 4, 0.04, "s"),
}


class Cost(NamedTuple):
    """What a call cost, if it came to its end, and what is wrong with it."""

    cost: float | None
    fault: str = ""


class Case:
    """What a call takes, of any size, in files of its own."""

    def __init__(self, made: TraceCase | GuestCase, folder: str) -> None:
        self.made, self.folder, self.name = made, folder, made.name
        self.lock = threading.Lock()
        self.kept: dict[int, tuple[str, TraceCaseFile | Guest]] = {}

    def made_file(self, size: int) -> tuple[str, TraceCaseFile | Guest]:
        """The place of the file, which is made once, and what it is."""
        with self.lock:
            if size not in self.kept:
                made = self.made.make(size)
                path = os.path.join(self.folder, f"{re.sub('[^a-z0-9]+', '_', self.name)}.{size}")
                with open(path, "wb") as file:
                    file.write(made.trace if isinstance(made, TraceCaseFile) else made.program)
                self.kept[size] = path, (
                    made._replace(trace=b"")
                    if isinstance(made, TraceCaseFile)
                    else made._replace(program=b"")
                )
            return self.kept[size]

    def call(self, command: str, size: int) -> Call:
        path, made = self.made_file(size)
        if isinstance(made, TraceCaseFile):
            return OF_TRACES[command](path, made)
        return OF_GUESTS[command](path, made)

    def commands(self, wants_all: bool) -> list[str]:
        if not wants_all:
            return self.made.commands.split()
        never = self.made.never.split()
        if isinstance(self.made, GuestCase):
            return [it for it in OF_GUESTS if it not in never]
        has_object = self.made.make(16).object
        return [it for it in OF_TRACES if it not in never and (it != "place" or has_object)]


# ---- What calls cost.


def missing_lines(text: str, begins: list[tuple[str, int]]) -> str:
    """The first of the beginnings of lines of which there are more or fewer than there should be."""
    found = text.split("\n")
    for begin, wanted in begins:
        number = sum(it == begin or it.startswith(begin + " ") for it in found)
        if number != wanted and not number >= -wanted > 0:
            return (
                f"{number} lines begin with '{begin[:60]}', and not"
                f" {abs(wanted)}{' or more' if wanted < 0 else ''}"
            )
    return ""


def measure_time(words: list[str], out: str) -> tuple[float, int | None]:
    """The processor time of a call and its status, none where it takes too long. What it prints goes to a
    file."""
    with open(out, "wb") as file:
        child = subprocess.Popen(
            words, stdin=subprocess.DEVNULL, stdout=file, stderr=subprocess.DEVNULL
        )
    resource.prlimit(child.pid, resource.RLIMIT_CPU, (LONGEST, LONGEST))
    _, status, usage = os.wait4(child.pid, 0)
    child.returncode = os.waitstatus_to_exitcode(status)
    return (
        usage.ru_utime + usage.ru_stime,
        None if child.returncode in (-signal.SIGKILL, -signal.SIGXCPU) else child.returncode,
    )


def measure_once(way: Way, program: str, call: Call, out: str) -> Cost:
    """What a call costs, made once."""
    cost, status = measure_time(
        [*(it.replace("FILE", f"{out}.count") for it in way.words), program, *call.words], out
    )
    if status is None:
        return Cost(None)
    with open(out, encoding="latin-1") as file:
        lack = missing_lines(file.read(), call.begins)
    if status != call.status or lack:
        return Cost(
            None,
            lack if status == call.status else f"it ended with {status}, and not {call.status}",
        )
    if not way.form:
        return Cost(cost)
    with open(f"{out}.count", encoding="latin-1") as file:
        found = re.search(way.form, file.read())
    return (
        Cost(float(found[1].replace(",", "")))
        if found
        else Cost(None, "its instructions weren't counted")
    )


def measure_least(way: Way, program: str, call: Call, out: str) -> Cost:
    """What a call costs, the least of as many as the way wants."""
    if call.before:
        subprocess.run(
            [program, *call.before],
            stdin=subprocess.DEVNULL,
            stdout=subprocess.DEVNULL,
            stderr=subprocess.DEVNULL,
            check=False,
        )
    costs = [measure_once(way, program, call, out)]
    while costs[-1].cost is not None and len(costs) < way.calls:
        costs.append(measure_once(way, program, call, out))
    if costs[-1].cost is None:
        return costs[-1]
    return min(costs)


def choose_way(name: str | None, program: str, folder: str) -> Way:
    """The way that is wanted, or the first one that works here."""
    for candidate in [name] if name else list(WAYS):
        way = WAYS[candidate]
        if (
            not way.words
            or shutil.which(way.words[0])
            and not measure_once(
                way, program, Call([], [], 1), os.path.join(folder, candidate)
            ).fault
        ):
            return way
    sys.exit(f"growth.py: {name} can't be had here")


class Row(NamedTuple):
    """A case and a command, with what the two sizes cost beyond next to nothing, and what is wrong with
    it."""

    case: str
    command: str
    lesser: float
    greater: float | None
    fault: str

    def growth(self) -> float:
        return float("inf") if self.greater is None else self.greater / max(self.lesser, 1e-9)

    def grows(self) -> bool:
        return not self.fault and self.growth() > MOST

    def cost_text(self, unit: str) -> str:
        what, by = f"{self.command}, {self.case}", 1 if unit == "s" else 1e6
        if self.fault:
            return f"{what}: {self.fault}"
        if self.greater is None:
            return f"{what}: {self.lesser / by:.2f} {unit}, and then more than {LONGEST} s"
        return (
            f"{what}: {self.lesser / by:.2f} and {self.greater / by:.2f} {unit},"
            f" {self.growth():.1f} times"
        )


class Measures:
    """The costs of cases, each call in a thread of its own."""

    def __init__(self, program: str, way: Way, folder: str) -> None:
        self.program, self.way, self.folder = program, way, folder
        self.pool = ThreadPoolExecutor(way.at_a_time)
        self.nothing: dict[tuple[str, str], Future[Cost]] = {}

    def cost_of_nothing(self, case: Case, command: str, settings: str) -> Future[Cost]:
        """The cost of a command of next to nothing under settings, or of the least size of the case, where it
        has one."""
        if case.made.least:
            return self.pool.submit(self.cost_of_size, case, command, case.made.least)
        if (command, settings) not in self.nothing:
            small: TraceCase | GuestCase = GuestCase(
                "nothing", lambda n: made_guests.ends(n)._replace(settings=settings), 1, ""
            )
            if command in OF_TRACES:
                small = TraceCase(
                    "nothing",
                    lambda n: made_traces.symbols_apart(n)._replace(settings=settings),
                    1,
                    "",
                )
            self.nothing[command, settings] = self.pool.submit(
                self.cost_of_size, Case(small, tempfile.mkdtemp(dir=self.folder)), command, 1
            )
        return self.nothing[command, settings]

    def cost_of_size(self, case: Case, command: str, size: int) -> Cost:
        out = os.path.join(
            case.folder, f"{command}.{size}.{re.sub('[^a-z0-9]+', '_', case.name)}.out"
        )
        return measure_least(self.way, self.program, case.call(command, size), out)

    def rows(self, chosen: list[tuple[Case, str]], times: int) -> Iterator[Row]:
        """One after the other, as they are there."""
        asked: list[tuple[str, str, list[Future[Cost]]]] = []
        for case, command in chosen:
            size = min(case.made.size * times, case.made.most // 4)
            nothing = self.cost_of_nothing(case, command, case.made_file(size)[1].settings)
            sizes = [
                self.pool.submit(self.cost_of_size, case, command, number)
                for number in (size, 4 * size)
            ]
            asked.append((case.name, command, [nothing, *sizes]))
        for name, command, costs in asked:
            yield self.row(Row(name, command, 0, None, ""), *[cost.result() for cost in costs])

    def row(self, row: Row, nothing: Cost, lesser: Cost, greater: Cost) -> Row:
        fault = nothing.fault or lesser.fault or greater.fault
        if fault or nothing.cost is None or lesser.cost is None:
            return row._replace(fault=fault or f"it takes more than {LONGEST} s")
        row = row._replace(lesser=lesser.cost - nothing.cost)
        if greater.cost is None:
            return row
        if greater.cost - nothing.cost < self.way.least:
            fault = (
                f"it does too little to judge: {greater.cost - nothing.cost:g} beyond"
                f" {nothing.cost:g} of next to nothing"
            )
        return row._replace(greater=greater.cost - nothing.cost, fault=fault)


def choose_cases(words: argparse.Namespace, folder: str) -> list[tuple[Case, str]]:
    made: list[TraceCase | GuestCase] = [
        *made_traces.CASES,
        *made_guests.CASES,
        *made_inputs.CASES,
    ]
    cases = [Case(it, folder) for it in made]
    wanted = [it for it in cases if not words.names or any(name in it.name for name in words.names)]
    return [(case, command) for case in wanted for command in case.commands(words.all)]


def judge_rows(rows: list[Row]) -> tuple[list[Row], list[Row], list[Row]]:
    """What has a fault, what is known to grow, and what else grows."""
    faults = [it for it in rows if it.fault]
    for name, why in KNOWN.items():
        of_case = [it for it in rows if it.case == name]
        if of_case and not any(it.grows() or it.fault for it in of_case):
            faults.append(of_case[0]._replace(fault=f"it grows no more, and was known to ({why})"))
    known = [it for it in rows if it.grows() and it.case in KNOWN]
    return faults, known, [it for it in rows if it.grows() and it.case not in KNOWN]


def main() -> int:
    reader = argparse.ArgumentParser(
        description=__doc__, formatter_class=argparse.RawDescriptionHelpFormatter
    )
    reader.add_argument("program")
    reader.add_argument("names", nargs="*")
    reader.add_argument("--all", action="store_true")
    reader.add_argument("--by", choices=list(WAYS))
    reader.add_argument("--times", type=int, default=1)
    words = reader.parse_intermixed_args()
    program = os.path.abspath(words.program)
    with tempfile.TemporaryDirectory() as folder:
        way = choose_way(words.by, program, folder)
        rows = []
        for row in Measures(program, way, folder).rows(
            choose_cases(words, folder), words.times * way.times
        ):
            rows.append(row)
            print(row.cost_text(way.unit), flush=True)
    faults, known, named = judge_rows(rows)
    print(
        f"{len(rows)} calls, by {way.name}: {len(faults)} have a fault, {len(known)} are known to"
        f" grow, and {len(named)} more grew by more than {MOST:g} where the size grew by 4"
    )
    for row in known:
        print(f"known: {row.cost_text(way.unit)}: {KNOWN[row.case]}")
    for row in [*faults, *named]:
        print(row.cost_text(way.unit))
    return 1 if named or faults or not rows else 0


if __name__ == "__main__":
    sys.exit(main())
