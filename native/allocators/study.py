#!/usr/bin/python3
"""The study of allocators in docs/STUDIES.md: four of Debian on this machine, and three of guests under 100 schedules.

usage: native/allocators/study.py [--renew] [--to FOLDER] [--seeds N] [--no-clock]

It makes two calls of `predator allocators`, has the judge count each native trace again, times the two worst pairs of
an allocator and a driver, and prints the tables. --renew puts them into the page. Results stay in FOLDER
(native/out/allocators), so an interrupted study goes on. Wants Debian's libjemalloc2, libtcmalloc-minimal4 and
libmimalloc2.0, the kit's packages, and the sources that guest/allocators/fetch.sh fetches. --seeds N takes other than
100; the clock wants a quiet machine with four processors."""

import argparse
import json
import os
import subprocess
import sys
from typing import Any, NamedTuple, Sequence

HERE = os.path.dirname(os.path.abspath(__file__))
TOP = os.path.dirname(os.path.dirname(HERE))
sys.path[:0] = [TOP, os.path.join(TOP, "bench", "clock"), os.path.join(TOP, "guest", "studies")]

from native.allocators.driver_builds import DRIVERS, SOURCES, find_driver  # noqa: E402
from native.allocators.libraries import find_word  # noqa: E402
from native.allocators.tables import bytes_per_byte, misses_per_call  # noqa: E402
from report import markdown_table, renew_document  # noqa: E402
from timing import LEAST, SAID, SLOWER, Once, Timed, summarize_runs  # noqa: E402

PREDATOR = os.path.join(TOP, "bin", "predator")
JUDGE = os.path.join(TOP, "tools", "judge_allocators.py")
NATIVE, GUESTS = ("jemalloc", "tcmalloc", "mimalloc"), ("picolibc", "dlmalloc", "mimalloc")
# Drivers that hand blocks over once, or whose threads wait for each other, aren't repeated against the clock.
TIMED_DRIVERS = ("cache-thrash", "trees", "chains", "lines", "containers")
TIMED_PAIRS, TIMED_RUNS, THREADS = 2, 25, 4
FORMS = ("", "-DAPART")
Row = dict[str, Any]


class Study(NamedTuple):
    """The rows of both calls."""

    native: list[Row]
    guests: list[Row]

    def columns(self) -> list[tuple[str, dict[str, Row]]]:
        """Each allocator with its rows by their drivers."""
        found = []
        for rows, suffix in ((self.native, ""), (self.guests, " (guest)")):
            for name in dict.fromkeys(it["allocator"] for it in rows):
                own = {it["driver"]: it for it in rows if it["allocator"] == name}
                found.append((name + suffix, own))
        return found


def make_rows(words: Sequence[str], folder: str, name: str) -> list[Row]:
    """The rows of a call of `predator allocators`."""
    path = os.path.join(folder, f"{name}.json")
    to = os.path.join(folder, name)
    subprocess.run(
        [PREDATOR, "allocators", *words, "--to", to, "--json", path], stdout=subprocess.DEVNULL
    )
    with open(path, encoding="utf-8") as file:
        rows: list[Row] = json.load(file)["runs"]
    return rows


def judge_traces(rows: list[Row], folder: str) -> int:
    """How many native traces the judge counts otherwise."""
    wrong = 0
    for row in rows:
        trace = os.path.join(folder, "native", row["run"].replace(" ", "-") + ".trace")
        against = ["--against", os.path.join(folder, "native.json"), row["run"]]
        wrong += subprocess.run([sys.executable, JUDGE, trace, *against]).returncode != 0
    return wrong


def count_text(row: Row, *names: str) -> str:
    """Numbers of a row, with a blank in the place of a failure."""
    if row["state"] != "measured":
        return str(row["state"])
    return " / ".join(f"{row[it]:,}" for it in names)


def table_of(study: Study, cell: Any) -> str:
    """A table with a row for each driver and a column for each allocator."""
    columns = study.columns()
    rows = [[it.name, *(cell(own[it.name]) for _, own in columns)] for it in DRIVERS]
    return str(markdown_table(["Driver", *(name for name, _ in columns)], rows))


def cost_text(row: Row) -> str:
    if row["state"] != "measured":
        return str(row["state"])
    return f"{bytes_per_byte(row)} / {misses_per_call(row)}"


# Against the clock.


def run_once(path: str, allocator: str, times: int, cpus: Sequence[int]) -> Once:
    library = find_word(allocator) or ""
    ran = subprocess.run(
        [path, str(times), *map(str, cpus)],
        env={**os.environ, "LD_PRELOAD": library},
        capture_output=True,
        text=True,
        timeout=60,
    )
    found = SAID.match(ran.stdout)
    if not found:
        sys.exit(f"study.py: {path} printed {ran.stdout!r}")
    return Once(*map(int, found.groups()))


def build_timed(driver: str, folder: str) -> list[str]:
    """Both forms of a driver for the clock."""
    source = find_driver(driver).path()
    compiler = "g++" if source.endswith(".cpp") else "gcc"
    paths = []
    for form in FORMS:
        paths.append(os.path.join(folder, f"timed-{driver}{form}"))
        flags = ["-O2", "-pthread", "-w", "-fno-builtin", "-D_GNU_SOURCE", *filter(None, [form])]
        header = ["-include", os.path.join(SOURCES, "timed.h")]
        subprocess.run([compiler, *flags, *header, source, "-o", paths[-1]], check=True)
    return paths


def time_pair(allocator: str, driver: str, folder: str) -> list[Timed]:
    """Both forms of a driver with an allocator, in turn."""
    paths, cpus = build_timed(driver, folder), sorted(os.sched_getaffinity(0))[:THREADS]
    times = 20
    while max(run_once(it, allocator, times, cpus).ns for it in paths) < SLOWER * 1e9:
        times *= 2
    found: list[list[Once]] = [[], []]
    for _ in range(TIMED_RUNS):
        for own, path in zip(found, paths):
            own.append(run_once(path, allocator, times, cpus))
    return [summarize_runs(own, times, False) for own in found]


def false_rate(row: Row) -> float:
    """False-sharing misses for each 1,000 accesses."""
    return 1000 * int(row["in_blocks"] + row["in_own_data"]) / int(row["accesses"])


def worst_pairs(rows: list[Row]) -> list[Row]:
    """The rows with the most false-sharing misses for their accesses, of drivers that can be timed."""
    own = [it for it in rows if it["state"] == "measured" and it["driver"] in TIMED_DRIVERS]
    return sorted(own, key=false_rate, reverse=True)[:TIMED_PAIRS]


def time_text(timed: Timed) -> str:
    """The median of a round, and its quarters."""
    middle, low, high = (it / timed.rounds / 1000 for it in (timed.ns, timed.low, timed.high))
    return f"{middle:.1f} µs ({low:.1f} to {high:.1f})"


def clock_table(rows: list[Row], folder: str) -> str:
    cells = []
    for row in worst_pairs(rows):
        forms = time_pair(row["allocator"], row["driver"], folder)
        kept = " and ".join(f"{it.kept} of {it.runs}" for it in forms)
        is_quiet = all(it.kept >= LEAST for it in forms)
        name, rate = f"{row['allocator']}, {row['driver']}", f"{false_rate(row):.1f}"
        ratio = f"{forms[0].ns / forms[1].ns:.1f}"
        times = [time_text(it) for it in forms]
        cells.append([name, rate, *times, ratio, kept if is_quiet else f"{kept}: disturbed"])
    heads = ["Pair", "False per 1,000", "As it is", "Whole lines", "Ratio", "Quiet runs"]
    return str(markdown_table(heads, cells))


def main() -> int:
    parser = argparse.ArgumentParser(description="the study of allocators")
    parser.add_argument("--renew", action="store_true")
    parser.add_argument("--no-clock", action="store_true")
    parser.add_argument("--seeds", type=int, default=100)
    parser.add_argument("--to", default=os.path.join(TOP, "native", "out", "allocators"))
    options = parser.parse_args()
    folder = os.path.abspath(options.to)
    os.makedirs(folder, exist_ok=True)
    native = make_rows([*NATIVE, "--traces"], folder, "native")
    guests = make_rows(["--guest", *GUESTS, "--seeds", str(options.seeds)], folder, "guests")
    study = Study(native, guests)
    wrong = judge_traces(native, folder)
    parts = {
        "shared lines": table_of(study, lambda it: count_text(it, "active", "passive")),
        "allocators' misses": table_of(
            study, lambda it: count_text(it, "in_blocks", "in_own_data")
        ),
        "allocators' costs": table_of(study, cost_text),
    }
    if not options.no_clock:
        parts["allocators' time"] = clock_table(native, folder)
    for name, text in parts.items():
        print(f"\n== {name}\n\n{text}")
    print(f"\n{len(native)} native traces, {wrong} counted otherwise by the judge")
    if options.renew:
        renew_document(parts)
    return 1 if wrong else 0


if __name__ == "__main__":
    sys.exit(main())
