"""Allocators of guests, built with each driver for the simulator: has `predator campaign` run them under many
schedules, and measures each run."""

import concurrent.futures
import contextlib
import functools
import glob
import json
import os
import re
import shutil
import subprocess
import tempfile
from collections import Counter
from dataclasses import dataclass
from typing import Callable, Iterable, Iterator, Sequence

from campaign.result_files import read_records
from native.allocators import results
from native.allocators.calls import Call
from native.allocators.driver_builds import DRIVERS, SOURCES, find_driver
from native.allocators.findings import split_misses, worst_pair
from native.allocators.guest_builds import (
    PACKAGES,
    GuestAllocator,
    GuestRun,
    allocator_name,
    build_allocator,
    build_guest,
)
from native.allocators.lives import (
    counts_blocks_noted_by,
    measure_placement,
    read_blocks,
    read_functions,
)
from native.allocators.results import NUMBERS, Results, Row
from view.faults import Fault
from view.names.naming import Naming
from view.names.source_lines import Sources
from view.reading.engine import Predator, launcher
from view.reading.reports import Blame, Misses, Report

# Blocks are noted by functions of these names.
NOTED_BY = "__wrap_"
# Memory for allocators that take it in large pieces, and the steps after which a run is ended.
MEMORY, BUDGET = 1 << 26, 20_000_000
LINE_BYTES, PREDICTED_BYTES = 64, 128
RUNS_PER_JOB = 25
PROGRESS_SECONDS = 1
SHIFT = re.compile(r"^shift (\d+) total (\d+) lines \d+$", re.MULTILINE)


class GuestFailed(Exception):
    """A guest that did not come to its end."""


def program_name(run: GuestRun) -> str:
    """What a run is called in a plan."""
    return f"{run.driver.name}-{run.threads}-{run.size}"


def make_plan(programs: dict[GuestRun, str], call: Call) -> Row:
    """The plan that runs some programs under all seeds."""
    return {
        "programs": {
            program_name(run): {"file": path, "settings": {"harts": max(8, run.threads + 1)}}
            for run, path in programs.items()
        },
        "settings": {"memory": MEMORY, "quantum": call.quantum, "budget": BUDGET},
        "seeds": f"1-{call.seeds}" if call.seeds > 1 else 1,
        "batch": RUNS_PER_JOB,
        "misses": [LINE_BYTES],
        "blame": [LINE_BYTES],
        "sweeps": [PREDICTED_BYTES],
        "traces": "kept",
    }


def count_jobs(plan: Row) -> int:
    seeds = int(str(plan["seeds"]).rpartition("-")[2])
    return len(plan["programs"]) * -(-seeds // RUNS_PER_JOB)


def run_campaign(plan: Row, folder: str, show: Callable[[str], None]) -> None:
    """Has a campaign make all runs, and shows how many of its jobs are done; what was made before stays."""
    path = os.path.join(folder, "plan.yaml")
    with open(path, "w", encoding="utf-8") as file:
        json.dump(plan, file)
    words = [launcher(), "campaign", path, "--to", os.path.join(folder, "to")]
    with tempfile.TemporaryFile() as errors, subprocess.Popen(
        words, stdout=subprocess.DEVNULL, stderr=errors, stdin=subprocess.DEVNULL
    ) as ran:
        while ran.poll() is None:
            done = len(find_files(folder, "results", "**", "*.jsonl.gz"))
            show(f"{done} of {count_jobs(plan)} jobs are done")
            with contextlib.suppress(subprocess.TimeoutExpired):
                ran.wait(PROGRESS_SECONDS)
        errors.seek(0)
        lines = errors.read().decode("utf-8", "replace").splitlines()
    if ran.returncode:
        own = [it for it in lines if it.startswith("predator campaign: ")]
        said = (own or lines or ["no message"])[0].removeprefix("predator campaign: ")
        raise Fault(f"the campaign failed with status {ran.returncode}: {said}", ran.returncode)


@dataclass(frozen=True)
class SeedInputs:
    """What the numbers of one seed are made of."""

    seed: int
    name: str
    texts: dict[str, str]
    trace: str
    program: str
    functions: frozenset[str]


class GuestInstructions:
    """The instructions of a guest: whose they are, and what they are called."""

    def __init__(self, program: str, functions: frozenset[str]) -> None:
        self.sources, self.functions = Sources(program), functions
        self.naming = Naming(None, None, self.sources)

    def is_own(self, pc: int) -> bool:
        frames = self.sources.frames(pc)
        # (a function of a driver may have the same name)
        return (
            bool(frames)
            and frames[-1].function in self.functions
            and not frames[-1].file.startswith(SOURCES)
        )

    def names(self, pcs: Iterable[int]) -> dict[int, str]:
        wanted = sorted(pcs)
        self.naming.find_lines(wanted)
        return {it: self.naming.instruction_name(it) for it in wanted}


@functools.cache
def predator_of_process() -> Predator:
    return Predator()


@functools.cache
def instructions_of(program: str, functions: frozenset[str]) -> GuestInstructions:
    """Those of a guest, whose names are looked up once for all its seeds."""
    return GuestInstructions(program, functions)


def plain_trace(predator: Predator, trace: str, folder: str) -> str:
    """The same trace in version 1."""
    for at in (2, 1):
        path = os.path.join(folder, str(at))
        predator.quiet_output(["convert", "--", trace, path])
        trace = path
    return trace


def measure_seed(inputs: SeedInputs) -> Row:
    """The numbers of one seed."""
    with tempfile.TemporaryDirectory(prefix="predator-allocators-") as folder:
        trace = plain_trace(predator_of_process(), inputs.trace, folder)
        is_counted = counts_blocks_noted_by(read_functions(trace), NOTED_BY.encode())
        placement = measure_placement(read_blocks(trace, is_counted))
    instructions = instructions_of(inputs.program, inputs.functions)
    misses, blame = (
        Misses(inputs.texts[f"misses --size {LINE_BYTES} --shift 0"]),
        Blame(inputs.texts[f"blame --size {LINE_BYTES} --shift 0"]),
    )
    bases = sorted(line.base for line in misses.lines.values() if line.useless)
    pairs = [worst_pair(blame, base) for base in bases]
    # (all addresses are looked up in one call)
    instructions.sources.find(
        pc for pair in pairs if pair for pc in (pair.invalidator, pair.victim)
    )
    findings = split_misses(misses, blame, placement.lines, instructions.is_own, instructions.names)
    sweep = SHIFT.findall(inputs.texts[f"sweep --size {PREDICTED_BYTES}"])
    numbers = results.numbers_of(placement, findings)
    return {
        "run": f"{inputs.name} seed {inputs.seed}",
        "seed": inputs.seed,
        **numbers,
        "sweep": {shift: int(total) for shift, total in sweep},
    }


def find_files(folder: str, *names: str) -> list[str]:
    """The files that a campaign has of a program."""
    return sorted(glob.glob(os.path.join(glob.escape(folder), "to", *names), recursive=True))


def read_seeds(run: GuestRun, folder: str, program: str, count: int) -> list[SeedInputs]:
    """What a campaign has printed of a run, seed by seed; seeds without a good end are a fault."""
    found, bad = [], dict[int, str]()
    name = program_name(run)
    traces = {
        int(os.path.basename(path).partition(".")[0]): path
        for path in find_files(folder, "traces", name, "**", "*.*")
    }
    for path in find_files(folder, "results", name, "**", "*.jsonl.gz"):
        for record in read_records(path):
            texts = {call: it["text"] for call, it in record["results"].items()}
            seed, outcome = record["seed"], Report(texts["run"]).outcome
            if outcome != "exit 0":
                bad[seed] = outcome
                continue
            functions = run.allocator.functions
            found.append(SeedInputs(seed, run.name(), texts, traces[seed], program, functions))
    if bad:
        first = min(bad)
        raise GuestFailed(
            f"{describe_end(bad[first])} under seed {first}; {len(bad)} of {count} seeds failed"
        )
    return sorted(found, key=lambda it: it.seed)


def describe_end(outcome: str) -> str:
    if outcome == "budget":
        return f"it did not end within {BUDGET:,} steps"
    if outcome == "exit 3":
        return "it gave no memory"
    return f"it ended by `{outcome}`"


def median(values: Iterable[int]) -> int:
    """The middle value, the lesser of two."""
    ordered = sorted(values)
    return ordered[(len(ordered) - 1) // 2]


def join_seeds(seeds: Sequence[Row]) -> Row:
    """The numbers over all seeds: medians, the greatest, and the worst seed."""
    row: Row = {it: median(seed[it] for seed in seeds) for it in NUMBERS}
    row["greatest"] = {it: max(seed[it] for seed in seeds) for it in NUMBERS}
    row["greatest"]["blocks_and_own"] = max(it["in_blocks"] + it["in_own_data"] for it in seeds)
    worst = max(seeds, key=lambda it: (it["in_blocks"] + it["in_own_data"], -it["seed"]))
    row["worst_seed"], row["own_data"] = worst["seed"], worst["own_data"]
    sweep = {it: median(seed["sweep"][it] for seed in seeds) for it in seeds[0]["sweep"]}
    shift = max(sweep, key=lambda it: (sweep[it], -int(it)))
    row["predicted"] = {"shift": int(shift), "invalidations": sweep[shift], "by_shift": sweep}
    row["by_seed"] = list(seeds)
    return row


def measure_guest(run: GuestRun, call: Call, folder: str, program: str) -> Row:
    """The row of a run that a campaign has made: what each seed comes to."""
    try:
        inputs = read_seeds(run, folder, program, call.seeds)
    except GuestFailed as failure:
        return {**run.head(), "state": "failed", "reason": str(failure)}
    with concurrent.futures.ProcessPoolExecutor(max_workers=os.cpu_count()) as pool:
        seeds = list(pool.map(measure_seed, inputs))
    if call.keeps_traces:
        keep_traces(inputs, call)
    return {**run.head(), "state": "measured", "seeds": call.seeds, **join_seeds(seeds)}


def keep_traces(inputs: Sequence[SeedInputs], call: Call) -> None:
    kept = Results(call.folder)
    for own in inputs:
        shutil.copyfile(own.trace, kept.trace_path(f"{own.name} seed {own.seed}"))


def guest_key(run: GuestRun, call: Call, program: str) -> str:
    inputs = {
        "guest": results.file_sum(program),
        "name": run.name(),
        "seeds": call.seeds,
        "quantum": call.quantum,
        "program": results.file_sum(predator_of_process().direct_command()),
        "counting": results.own_sum(),
        "traces": call.keeps_traces,
    }
    return results.key_of(inputs)


def lacking_functions(run: GuestRun) -> list[str]:
    """What a driver calls and the allocator lacks; the kit's calloc calls malloc."""
    own = run.allocator.functions
    return [it for it in run.driver.functions if it not in own and it != "calloc"]


class GuestRuns:
    """The runs of a call, whose rows are read or made, with a folder for what is built."""

    def __init__(self, call: Call, kept: Results, work: str, show: Callable[[str], None]) -> None:
        self.call, self.kept, self.work, self.show = call, kept, work, show

    def list_runs(self, allocator: GuestAllocator) -> list[GuestRun]:
        chosen = [find_driver(it) for it in self.call.drivers] or list(DRIVERS)
        return [
            GuestRun(allocator, driver, threads, size)
            for driver in chosen
            for threads in self.call.threads
            for size in (self.call.sizes if driver.takes_size else [0])
        ]

    def rows_of(self, allocator: GuestAllocator) -> list[Row]:
        """The rows of an allocator, of which those that aren't there are made by one campaign."""
        runs = self.list_runs(allocator)
        built = {run: build_guest(run, self.work) for run in runs if not lacking_functions(run)}
        keys = {run: guest_key(run, self.call, path) for run, path in built.items()}
        rows = {run: row for run, key in keys.items() if (row := self.kept.read(key))}
        missing = {run: path for run, path in built.items() if run not in rows}
        if missing:
            # (what was made of other programs has another folder)
            sums = [results.file_sum(it) for it in built.values()]
            key = results.key_of([allocator.sum, self.call.seeds, self.call.quantum, sums])
            for run, row in self.make_rows(allocator, missing, f"campaign-{key}"):
                if row["state"] == "measured":
                    self.kept.write(keys[run], row)
                rows[run] = row
        for run in runs:
            if run not in rows:
                reason = f"it lacks {', '.join(lacking_functions(run))}"
                rows[run] = {**run.head(), "state": "left out", "reason": reason}
        return [rows[it] for it in runs]

    def make_rows(
        self, allocator: GuestAllocator, missing: dict[GuestRun, str], name: str
    ) -> Iterator[tuple[GuestRun, Row]]:
        """The rows of some runs. A campaign that was interrupted goes on in its folder, which has the programs too."""
        folder = os.path.abspath(os.path.join(self.kept.folder, name))
        os.makedirs(folder, exist_ok=True)
        programs = {run: os.path.join(folder, f"{program_name(run)}.elf") for run in missing}
        for run, path in missing.items():
            shutil.copyfile(path, programs[run])
        run_campaign(
            make_plan(programs, self.call), folder, lambda it: self.show(f"{allocator.name}: {it}")
        )
        for run in missing:
            yield run, measure_guest(run, self.call, folder, programs[run])
        shutil.rmtree(folder, ignore_errors=True)


def check_tools() -> None:
    for tool in ("clang", "ld.lld", "llvm-ar", "llvm-symbolizer", "snakemake"):
        if shutil.which(tool) is None:
            raise Fault(f"{tool} isn't installed: {PACKAGES} snakemake", 127)


def make_guest_rows(call: Call, kept: Results) -> list[Row]:
    from native.allocators.main import Progress, warn

    check_tools()
    words = list(dict.fromkeys(call.guests))
    for name, count in Counter(map(allocator_name, words)).items():
        if count > 1:
            raise Fault(f"two allocators are called {name}: give one of them another file name")
    rows = list[Row]()
    with tempfile.TemporaryDirectory(prefix="predator-allocators-") as work:
        found = [build_allocator(it, work) for it in words]
        progress = Progress(len(found))
        runs = GuestRuns(call, kept, work, progress.update)
        try:
            for allocator in found:
                progress.show(f"{allocator.name} under {call.seeds} seeds")
                rows += runs.rows_of(allocator)
        except KeyboardInterrupt:
            progress.clear()
            warn("interrupted: the same call goes on")
            raise
        progress.clear()
    for row in rows:
        if row["state"] == "failed":
            warn(f"{row['run']}: {row['reason']}")
    return rows
