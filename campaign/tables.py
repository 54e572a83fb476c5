"""The tables of a campaign: tables.py FOLDER, as the workflow calls it, writes them from the results that
there are."""

import contextlib
import json
import multiprocessing
import os
import sys
import tempfile
from typing import Any, Iterable, Mapping, Sequence

sys.path.insert(0, os.path.dirname(os.path.dirname(os.path.abspath(__file__))))

from campaign import result_files  # noqa: E402
from campaign.campaign_file import (  # noqa: E402
    Record,
    read_campaign,
    seeds_of_batch,
    settings_name,
)  # noqa: E402
from campaign.observations import (  # noqa: E402
    LineRow,
    Number,
    ObjectRow,
    Observations,
    PairRow,
    RowKey,
    RunSummary,
    Spread,
    Summary,
    line_rows,
    object_rows,
    pair_rows,
    sort_keys,
    spread,
)
from campaign.plan import file_sum  # noqa: E402
from campaign.rerun_commands import run_command, settings_text  # noqa: E402
from campaign.run_results import Layout  # noqa: E402
from view.faults import Fault  # noqa: E402
from view.names.naming import Memory  # noqa: E402
from view.names.source_lines import Sources  # noqa: E402
from view.reading.engine import Predator, setting_value, stack_range  # noqa: E402

FORMAT = "predator campaign table 2"
PLACE = ("program", "settings", "size", "shift")
INVALIDATIONS = ("inval min", "inval median", "inval max")
FALSE_SHARING = ("false min", "false median", "false max")
NUMBERS = ("seeds", "listed", *INVALIDATIONS, "with misses", *FALSE_SHARING, "worst seed")
LINE_HEADS = (*PLACE, "kind", "object", "offset", *NUMBERS, "other objects")
OBJECT_HEADS = (*PLACE, "kind", "object", "lines", *NUMBERS)
PAIR_HEADS = (
    *(*PLACE, "object", "offset", "victim", "invalidator", "seeds", "in seeds"),
    *(*INVALIDATIONS, "same word min", "same word median", "same word max", "worst seed"),
)
RUN_HEADS = (
    *("program", "settings", "seed", "outcome", "steps", "accesses", "lines"),
    *("cold", "true", "false"),
)
# Batches from which on processes share the reading.
MIN_PARALLEL_BATCHES = 4

Cells = Sequence[object]


def cell_text(value: object) -> str:
    return "-" if value is None else str(value).replace("\t", "\\t").replace("\n", "\\n")


def tsv_text(heads: Sequence[str], rows: Iterable[Cells]) -> str:
    return "".join("\t".join(cell_text(it) for it in row) + "\n" for row in [heads, *rows])


def row_cells(
    campaign: Record, key: RowKey, row: LineRow | ObjectRow, seeds: Mapping[int, int]
) -> list[Any]:
    """The cells of a line, under LINE_HEADS, or of an object, under OBJECT_HEADS."""
    group, summary = campaign["groups"][key.group], row.summary
    return [
        group["program"],
        settings_name(group),
        *key.layout,
        key.kind,
        row.object,
        row.offset if isinstance(row, LineRow) else row.lines,
        seeds[key.group],
        summary.listed,
        *summary.invalidations,
        summary.with_misses,
        *summary.false_sharing,
        summary.worst_seed,
        *([", ".join(row.others)] if isinstance(row, LineRow) else []),
    ]


def pair_cells(
    campaign: Record, key: tuple[int, Layout], row: PairRow, seeds: Mapping[int, int]
) -> list[Any]:
    """The cells of two instructions, under PAIR_HEADS."""
    group = campaign["groups"][key[0]]
    return [
        group["program"],
        settings_name(group),
        *key[1],
        row.object,
        row.offset,
        row.victim,
        row.invalidator,
        seeds[key[0]],
        row.seeds,
        *row.invalidations,
        *row.same_word,
        row.worst_seed,
    ]


def run_cells(campaign: Record, run: RunSummary) -> list[Any]:
    """The cells of a run, under RUN_HEADS."""
    group = campaign["groups"][run.group]
    return [
        group["program"],
        settings_name(group),
        run.seed,
        run.outcome,
        run.steps,
        run.accesses,
        run.lines,
        run.cold,
        run.true_sharing,
        run.false_sharing,
    ]


def spread_json(values: Spread) -> dict[str, Number]:
    return values._asdict()


def summary_json(summary: Summary) -> Record:
    return {
        "listed": summary.listed,
        "invalidations": spread_json(summary.invalidations),
        "with_misses": summary.with_misses,
        "false_sharing_misses": spread_json(summary.false_sharing),
        "worst_seed": summary.worst_seed,
    }


def line_json(campaign: Record, group: int, row: LineRow) -> Record:
    program = campaign["programs"][campaign["groups"][group]["program"]]
    run = {
        "program": program,
        "schedule": program["schedule"],
        "settings": campaign["groups"][group]["settings"],
        "seed": row.summary.worst_seed,
    }
    return {
        "object": row.object,
        "offset": row.offset,
        "other_objects": row.others,
        **summary_json(row.summary),
        "worst_command": run_command(run),
    }


def object_json(row: ObjectRow) -> Record:
    return {"object": row.object, "lines": row.lines, **summary_json(row.summary)}


def pair_json(row: PairRow) -> Record:
    return {
        "object": row.object,
        "offset": row.offset,
        "victim": row.victim,
        "invalidator": row.invalidator,
        "seeds": row.seeds,
        "invalidations": spread_json(row.invalidations),
        "same_word": spread_json(row.same_word),
        "worst_seed": row.worst_seed,
    }


def outcomes_json(runs: Iterable[RunSummary]) -> list[Record]:
    """The outcomes of a group's runs, the most frequent first."""
    outcomes: dict[str, list[int]] = {}
    for run in sorted(runs, key=lambda run: run.seed):
        outcomes.setdefault(run.outcome, []).append(run.seed)
    return [
        {"outcome": outcome, "seeds": len(seeds), "first": seeds[0]}
        for outcome, seeds in sorted(outcomes.items(), key=lambda entry: -len(entry[1]))
    ]


def sweep_json(call: str, sweeps: Sequence[tuple[dict[int, int], int]]) -> Record:
    """The totals of each shift over the seeds, and in how many seeds it has the least one."""
    shifts: list[Record] = []
    for shift in sweeps[0][0]:
        totals = spread_json(spread(own[shift] for own, _ in sweeps))
        best = sum(least == shift for _, least in sweeps)
        shifts.append({"shift": shift, **totals, "best": best})
    return {"size": int(call.split()[-1]), "seeds": len(sweeps), "shifts": shifts}


def caches_json(call: str, totals: Sequence[tuple[int, ...]]) -> Record:
    names = ("bounded", "unbounded", "evicted")
    spreads = {
        name: spread_json(spread(own[at] for own in totals)) for at, name in enumerate(names)
    }
    return {"shape": call.partition(" ")[2], "seeds": len(totals), **spreads}


class Tables:
    """The rows of all tables, and the texts of the files that they make."""

    def __init__(self, campaign: Record, observations: Observations, missing: list[str]) -> None:
        self.campaign, self.observations, self.missing = campaign, observations, missing
        self.lines, self.objects = line_rows(observations), object_rows(observations)
        self.pairs = pair_rows(observations)
        self.seeds = observations.count_runs()

    def whole_json(self) -> Record:
        groups = range(len(self.campaign["groups"]))
        return {
            "format": FORMAT,
            "predator": self.campaign["predator"],
            "programs": self.campaign["programs"],
            "runs": len(self.observations.runs),
            "failed": self.observations.failed,
            "missing": self.missing,
            "groups": [self.group_json(at) for at in groups],
        }

    def layouts_json(self, group: int) -> list[Record]:
        return [
            {
                "size": key.layout[0],
                "shift": key.layout[1],
                "kind": key.kind,
                "objects": [object_json(row) for row in self.objects[key]],
                "lines": [line_json(self.campaign, group, row) for row in self.lines[key]],
            }
            for key in sort_keys(key for key in self.lines if key.group == group)
        ]

    def group_json(self, at: int) -> Record:
        group = self.campaign["groups"][at]
        runs = [run for run in self.observations.runs if run.group == at]
        sweeps, caches = sorted(self.observations.sweeps.items()), self.observations.caches
        return {
            "program": group["program"],
            "settings": group["settings"],
            "seeds": len(runs),
            "layouts": self.layouts_json(at),
            "outcomes": outcomes_json(runs),
            "blame": [
                {"size": size, "shift": shift, "pairs": [pair_json(row) for row in rows]}
                for (of, (size, shift)), rows in self.pairs.items()
                if of == at
            ],
            "sweeps": [sweep_json(call, own) for (of, call), own in sweeps if of == at],
            "caches": [
                caches_json(call, own) for (of, call), own in sorted(caches.items()) if of == at
            ],
        }

    def rows(self, rows_of: Mapping[RowKey, Sequence[LineRow | ObjectRow]]) -> Iterable[Cells]:
        for key in sort_keys(rows_of):
            for row in rows_of[key]:
                yield row_cells(self.campaign, key, row, self.seeds)

    def files(self, whole: Record) -> dict[str, str]:
        """The text of each file."""
        pairs = (
            pair_cells(self.campaign, key, row, self.seeds)
            for key, rows in self.pairs.items()
            for row in rows
        )
        runs = sorted(self.observations.runs, key=lambda run: (run.group, run.seed))
        return {
            "table.tsv": tsv_text(LINE_HEADS, self.rows(self.lines)),
            "objects.tsv": tsv_text(OBJECT_HEADS, self.rows(self.objects)),
            "pairs.tsv": tsv_text(PAIR_HEADS, pairs),
            "runs.tsv": tsv_text(RUN_HEADS, (run_cells(self.campaign, run) for run in runs)),
            "table.json": json.dumps(whole, indent=1) + "\n",
        }


def group_memory(campaign: Record, group: Record) -> Memory:
    """Where the stacks of a group's runs lie, so that they have names; nothing where the program can't be
    read."""
    os.environ["PREDATOR"] = campaign["predator"]["file"]
    program = campaign["programs"][group["program"]]
    with tempfile.NamedTemporaryFile("w", suffix=".toml") as file:
        file.write(settings_text(group["settings"], 0))
        file.flush()
        words = ["--settings", file.name]
        return Memory(
            stack_range(Predator(), program["file"], words), setting_value(words, "harts")
        )


def group_sources(campaign: Record, group: Record) -> Sources | None:
    """The source lines of a group's program; none where its file isn't that of the campaign any more, or
    llvm-symbolizer is missing."""
    program = campaign["programs"][group["program"]]
    with contextlib.suppress(Fault, OSError):
        if file_sum(program["file"]) == program["sha256"]:
            return Sources(program["file"])
    return None


def read_batch(work: tuple[str, int, list[int], Memory, Sources | None]) -> Observations:
    """The observations of one batch; a seed that two files have counts once."""
    name, group, seeds, memory, sources = work
    observations, wanted = Observations(), set(seeds)
    for record in result_files.read_records(result_files.finished_path(name)):
        if record["seed"] in wanted:
            observations.add_run(group, record, memory, sources)
    return observations


def read_results(campaign: Record) -> tuple[Observations, list[str]]:
    """The observations of all finished batches, and the names of the others."""
    memories = [group_memory(campaign, group) for group in campaign["groups"]]
    lines = [group_sources(campaign, group) for group in campaign["groups"]]
    works, missing = [], []
    for batch in campaign["batches"]:
        if os.path.exists(result_files.finished_path(batch["name"])):
            memory = memories[batch["group"]]
            sources = lines[batch["group"]]
            works.append((batch["name"], batch["group"], seeds_of_batch(batch), memory, sources))
        else:
            missing.append(batch["name"])
    whole = Observations()
    if len(works) < MIN_PARALLEL_BATCHES:
        for part in map(read_batch, works):
            whole.merge(part)
    else:
        with multiprocessing.Pool(len(os.sched_getaffinity(0))) as pool:
            for part in pool.imap(read_batch, works):
                whole.merge(part)
    return whole, missing


def write_tables(campaign: Record) -> Record:
    """Writes the tables, and returns what table.json has."""
    tables = Tables(campaign, *read_results(campaign))
    whole = tables.whole_json()
    for name, text in tables.files(whole).items():
        result_files.write_whole(name, text.encode())
    return whole


if __name__ == "__main__":
    os.chdir(sys.argv[1])
    write_tables(read_campaign("."))
