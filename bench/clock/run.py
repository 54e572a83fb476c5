#!/usr/bin/env python3
"""What a miss is worth in time, on this machine.

Each pair of programs/ is a program as it is, and padded. Both are timed here, in turn, each thread on a
processor of its own; the same sources are counted as guests of predator and, where valgrind is installed,
recorded on this machine.

It measures all, for some fifteen minutes or until it is interrupted, and prints what was found. study.md,
study.tsv, study.html and what they are made from go to a folder.

Wants gcc, clang with lld and llvm, and the built program; for the page python3-jinja2. The machine has to be
quiet."""

import argparse
import os
import sys
import tempfile
import time
from concurrent.futures import Future, ThreadPoolExecutor
from typing import Iterator, Sequence

from counts import Count, can_run, count_guest, count_recording
from judge import QUANTA, Row
from page import page
from pairs import FORMS, HERE, Built, Trouble, build_all, run_command, find_programs
from tables import (
    RECORDED,
    Counted,
    Study,
    parse_counts,
    parse_study,
    count_key,
    study_markdown,
    study_json,
    counts_json,
    study_values,
)
from timing import measure_latencies, read_steal_seconds, time_pair, default_rounds

# The records in a folder.
STUDY, COUNTS = "study.json", "counts.json"


class Call(argparse.Namespace):
    """What is asked."""

    cpus: list[int]
    threads: list[int]
    runs: int
    only: list[str]
    line: int
    step: float
    no_recording: bool
    count_only: bool
    counted: str
    disturbed: bool
    out: str
    again: str
    check: bool


def read_names(text: str) -> list[str]:
    return [it for it in text.split(",") if it]


def read_numbers(text: str) -> list[int]:
    return [int(it) for it in read_names(text)]


def parse_call(words: Sequence[str]) -> Call:
    parser = argparse.ArgumentParser(
        description=__doc__, formatter_class=argparse.RawDescriptionHelpFormatter
    )
    add = parser.add_argument
    add(
        "--again", default="", metavar="FOLDER", help="only make the texts and page of a study anew"
    )
    add("--check", action="store_true", help="try the study itself without timing")
    add("--cpus", type=read_numbers, default=[], metavar="A,B,..", help="the processors (all)")
    add(
        "--threads",
        type=read_numbers,
        default=[2, 4],
        metavar="N,..",
        help="with how many threads each pair runs (2,4), as far as there are processors",
    )
    add(
        "--runs",
        type=int,
        default=15,
        metavar="N",
        help="how many runs of each form nothing must have disturbed (15)",
    )
    add("--only", type=read_names, default=[], metavar="NAME,..", help="these pairs alone")
    add("--line", type=int, default=64, metavar="N", help="the line's length, for padding (64)")
    add("--step", type=float, default=0.4, metavar="NS", help="nanoseconds of a step (0.4)")
    add("--no-recording", action="store_true", help="without valgrind")
    add("--count-only", action="store_true", help="count, on any machine, and measure nothing")
    add(
        "--counted",
        default="",
        metavar="FOLDER",
        help="measure, with the counts of an earlier call",
    )
    add("--disturbed", action="store_true", help="take runs whose threads were switched, too")
    add(
        "--out",
        default=os.path.join(HERE, "out"),
        metavar="FOLDER",
        help="where the study goes (bench/clock/out)",
    )
    call = parser.parse_args(words, Call())
    call.cpus = call.cpus or sorted(os.sched_getaffinity(0))
    call.threads = [it for it in call.threads if it <= len(call.cpus)]
    if not call.threads or any(it % 2 for it in call.threads) or call.runs < 1:
        parser.error(
            "--threads are even numbers, none above that of the processors, and --runs is 1 or more"
        )
    return call


def warn(text: str) -> None:
    print(text, file=sys.stderr, flush=True)


def describe_machine(call: Call) -> dict[str, str]:
    """What the measured times are of."""
    with open("/proc/cpuinfo", encoding="utf-8") as text:
        models = [it.partition(": ")[2].strip() for it in text if it.startswith("model name")]
    return {
        "date": time.strftime("%Y-%m-%d %H:%M"),
        "processor": (
            f"{models[0] if models else os.uname().machine}, of which"
            f" {','.join(map(str, call.cpus))} were used"
        ),
        "system": f"{os.uname().sysname} {os.uname().release}",
        "compiler": run_command(["gcc", "--version"]).splitlines()[0],
        "runs": f"{call.runs} of each form, padded to {call.line} bytes",
    }


def pair_forms(built: Sequence[Built]) -> Iterator[tuple[Built, Built]]:
    """Both forms of each."""
    return zip(built[::2], built[1::2])


def measure_pairs(call: Call, built: Sequence[Built]) -> list[Row]:
    """The times, one pair after the other. A pair that fails is reported, and left out."""
    rows: list[Row] = []
    for at, pair in enumerate(pair_forms(built), 1):
        name = (
            f"{at:>3} of {len(built) // 2}  {pair[0].program.name} with {pair[0].threads} threads"
        )
        try:
            timed = time_pair(pair, call.cpus, call.runs, call.disturbed)
        except Trouble as error:
            warn(f"{name}: left out: {error}")
            continue
        except KeyboardInterrupt:
            warn("stopped: the study is of the pairs so far")
            break
        rows.append(Row(pair[0].program, pair[0].threads, default_rounds(pair[0]), timed, {}, {}))
        kept_runs = (
            f", disturbed: {', '.join(f'{it.kept} of {it.runs} runs are left' for it in timed)}"
        )
        warn(f"{name}: {rows[-1].slowdown():.2f}{'' if rows[-1].is_quiet() else kept_runs}")
    return rows


def count_outcome(job: "Future[Count]") -> Count | None:
    """What a count gave; where it failed that is said, and the study goes on without it."""
    try:
        return job.result()
    except Trouble as error:
        warn(str(error))
        return None


def count_all(call: Call, built: Sequence[Built]) -> Counted:
    """What predator counts of each, as many at a time as there are processors. Trouble where both forms
    compute otherwise."""
    made: Counted = {}
    with ThreadPoolExecutor(os.cpu_count()) as pool:
        jobs = [
            (form, quantum, pool.submit(count_guest, form, quantum))
            for form in built
            if form.guest
            for quantum in QUANTA
        ]
        jobs += [
            (form, RECORDED, pool.submit(count_recording, form))
            for form in built
            if form.guest and not call.no_recording
        ]
        for task, quantum, job in jobs:
            found = count_outcome(job)
            if found:
                made.setdefault(count_key(task), {})[task.form, quantum] = found
    for key, own in made.items():
        results = {it.result for it in own.values()}
        if len(results) > 1:
            raise Trouble(f"{key} computes {sorted(results)}")
    warn(f"counted {len(jobs)} runs" if jobs else "nothing was counted")
    return made


def put_counts(counted: Counted, pairs: Sequence[Built], rows: Sequence[Row]) -> None:
    """Puts its counts to each row. A row without counts is reported: the sources changed, or
    the count failed."""
    keys = {(it.program.name, it.threads): count_key(it) for it in pairs}
    for row in rows:
        found = counted.get(keys[row.program.name, row.threads], {})
        if not found:
            warn(
                f"nothing was counted of {row.program.name} with {row.threads} threads as it is now"
            )
        row.counts.update({key: it for key, it in found.items() if key[1] != RECORDED})
        row.recorded.update(
            {form: it for (form, quantum), it in found.items() if quantum == RECORDED}
        )


def read_file(folder: str, name: str) -> str:
    with open(os.path.join(folder, name), encoding="utf-8") as text:
        return text.read()


def read_study(folder: str) -> Study:
    return parse_study(read_file(folder, STUDY))


def store_text(text: str, folder: str, name: str) -> None:
    os.makedirs(folder, exist_ok=True)
    with open(os.path.join(folder, name), "w", encoding="utf-8") as file:
        file.write(text)


def write_study(study: Study, out: str) -> None:
    """The four files, and what was found on standard output."""
    text = study_markdown(study)
    seen = page({study.machine.get("date", "this study"): study})
    made = {
        STUDY: study_json(study),
        "study.tsv": study_values(study),
        "study.md": text,
        "study.html": seen,
    }
    for name, own in made.items():
        if own is None:
            warn(
                f"{name} wants python3-jinja2: apt-get install python3-jinja2, and then --again"
                f" {out}"
            )
        else:
            store_text(own, out, name)
    print(text)
    warn(f"written to {out}")


def make_study(call: Call) -> Study:
    """Measures and counts."""
    chosen = find_programs(call.only)
    guests = not call.counted and can_run()
    if not guests and not call.counted:
        warn(
            "bin/predator has no program for these sources (PREDATOR_PROGRAM names one), so nothing"
            " is counted"
        )
    with tempfile.TemporaryDirectory() as folder:
        warn(f"building {len(chosen)} pairs for {' and '.join(map(str, call.threads))} threads")
        built = build_all(chosen, call.threads, call.line, folder, guests)
        counted = (
            parse_counts(read_file(call.counted, COUNTS))
            if call.counted
            else count_all(call, built)
        )
        store_text(counts_json(counted), call.out, COUNTS)
        if call.count_only:
            return Study({}, {}, call.step, [])
        before, began = read_steal_seconds(), time.monotonic()
        lines = {
            f"{a} and {b}": ns
            for (a, b), ns in measure_latencies(call.cpus[: max(call.threads)], folder).items()
        }
        warn(
            "from one processor to another, in nanoseconds: "
            + ", ".join(f"{it} {ns:.0f}" for it, ns in lines.items())
        )
        rows = measure_pairs(call, built)
        machine = describe_machine(call)
        machine["timing"] = (
            f"{time.monotonic() - began:.0f} s, in which the host kept the processors for others"
            f" for {read_steal_seconds() - before:.1f} s"
        )
        put_counts(counted, built, rows)
    return Study(machine, lines, call.step, rows)


def main(words: Sequence[str]) -> int:
    try:
        call = parse_call(words)
        if call.check:
            from check import check

            return check(call.only)
        elif call.again:
            write_study(read_study(call.again), call.again)
        else:
            study = make_study(call)
            if study.rows:
                write_study(study, call.out)
            else:
                warn(f"{COUNTS} is written to {call.out}")
    except (Trouble, OSError) as error:
        print(f"run.py: {error}", file=sys.stderr)
        return 2
    return 0


if __name__ == "__main__":
    # (forms are named where they are built, by the first and the second of these)
    assert len(FORMS) == 2
    sys.exit(main(sys.argv[1:]))
