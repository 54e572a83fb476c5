"""The numbers of lines, objects and pairs of instructions over the seeds: the least, the median and the
greatest of each.

Every number is one that predator printed, or says in how many seeds it printed one."""

import re
from collections import Counter
from dataclasses import dataclass
from typing import Iterable, Iterator, Mapping, NamedTuple, Sequence, cast

from campaign.campaign_file import Record
from campaign.run_results import (
    AddressKey,
    BlockKey,
    Layout,
    LineKey,
    ObjectOffset,
    PairKey,
    RunResults,
)
from view.names.naming import Memory, address_text
from view.names.source_lines import Sources

KINDS = ("observed", "shifted", "doubled")
SHIFT = re.compile(r"^shift (\d+) total (\d+) lines (\d+)$", re.MULTILINE)
LEAST = re.compile(r"^least (\d+) total \d+$", re.MULTILINE)
TOTAL = re.compile(r"^total bounded (\d+) unbounded (\d+) evicted (\d+)$", re.MULTILINE)

# A number that a seed may lack.
Number = int | None


class Spread(NamedTuple):
    """The least, the median and the greatest of some numbers; none where there are no numbers."""

    min: Number
    median: Number
    max: Number


class SeedCounts(NamedTuple):
    """The numbers of a line or an object in one seed."""

    seed: int
    invalidations: Number
    false_sharing: Number


class PairCounts(NamedTuple):
    """How often an instruction invalidates a line in one seed, and how often over the same word."""

    seed: int
    invalidations: int
    same_word: int


class RowKey(NamedTuple):
    """The group, the layout and the kind that rows of the tables belong to."""

    group: int
    layout: Layout
    kind: str


@dataclass(frozen=True, slots=True)
class RunSummary:
    """A run in numbers; its misses are none where they weren't counted."""

    group: int
    seed: int
    outcome: str
    steps: int
    accesses: int
    lines: int
    cold: Number
    true_sharing: Number
    false_sharing: Number


@dataclass(frozen=True)
class Summary:
    """A line or an object over the seeds."""

    # (the number of seeds whose report lists it)
    listed: int
    invalidations: Spread
    # (the number of seeds whose misses name it)
    with_misses: int
    false_sharing: Spread
    worst_seed: int


class LineRow(NamedTuple):
    object: str
    offset: int
    others: list[str]
    summary: Summary


class ObjectRow(NamedTuple):
    object: str
    lines: int
    summary: Summary


@dataclass(frozen=True)
class PairRow:
    """Two instructions of which the second invalidates a line in the first one's cache."""

    object: str
    offset: int
    victim: str
    invalidator: str
    # (the number of seeds in which it does)
    seeds: int
    invalidations: Spread
    same_word: Spread
    worst_seed: int


class NamedLine(NamedTuple):
    """A line with its object, all objects on it by their shares, and its numbers in each seed."""

    key: RowKey
    own: ObjectOffset
    ranked: list[ObjectOffset]
    seeds: list[SeedCounts]


class Observations:
    """The numbers of some batches: of each line by its group, layout, kind and key, of each pair of
    instructions, and of each run."""

    def __init__(self) -> None:
        self.lines: dict[
            tuple[RowKey, LineKey], tuple[Counter[ObjectOffset], list[SeedCounts]]
        ] = {}
        self.pairs: dict[tuple[int, PairKey], list[PairCounts]] = {}
        self.runs: list[RunSummary] = []
        self.failed: list[Record] = []
        self.sweeps: dict[tuple[int, str], list[tuple[dict[int, int], int]]] = {}
        self.caches: dict[tuple[int, str], list[tuple[int, ...]]] = {}

    def add_run(
        self, group: int, record: Record, memory: Memory, sources: Sources | None = None
    ) -> None:
        self.failed += [failed_call(record, call) for call in record["failed"]]
        run = RunResults(record, memory, sources)
        if run.report is None:
            return
        for layout, kind, line in run.lines():
            names, seeds = self.lines.setdefault(
                (RowKey(group, layout, kind), line.key), (Counter(), [])
            )
            # (a Counter adds up shares too)
            names.update(cast(Mapping[ObjectOffset, int], line.objects))
            seeds.append(SeedCounts(run.seed, line.invalidations, line.false_sharing))
        for pair, (total, same) in run.pairs().items():
            self.pairs.setdefault((group, pair), []).append(PairCounts(run.seed, total, same))
        self.runs.append(summarize_run(group, run))
        for call, result in record["results"].items():
            self.add_totals(group, call, result["text"])

    def add_totals(self, group: int, call: str, text: str) -> None:
        """The totals of a sweep or of caches."""
        if call.startswith("sweep"):
            totals = {int(shift): int(total) for shift, total, _ in SHIFT.findall(text)}
            best = int(LEAST.findall(text)[0])
            self.sweeps.setdefault((group, call), []).append((totals, best))
        elif call.startswith("caches"):
            found = tuple(int(it) for it in TOTAL.findall(text)[0])
            self.caches.setdefault((group, call), []).append(found)

    def merge(self, other: "Observations") -> None:
        for key, (names, seeds) in other.lines.items():
            own = self.lines.setdefault(key, (Counter(), []))
            own[0].update(names)
            own[1].extend(seeds)
        for call, sweeps in other.sweeps.items():
            self.sweeps.setdefault(call, []).extend(sweeps)
        for call, caches in other.caches.items():
            self.caches.setdefault(call, []).extend(caches)
        for pair, counts in other.pairs.items():
            self.pairs.setdefault(pair, []).extend(counts)
        self.runs += other.runs
        self.failed += other.failed

    def count_runs(self) -> Counter[int]:
        """The number of runs of each group."""
        return Counter(run.group for run in self.runs)


def failed_call(record: Record, call: Record) -> Record:
    """A call that failed, as table.json has it."""
    return {
        "program": record["program"]["name"],
        "settings": record["settings"],
        "seed": record["seed"],
        "call": call["call"],
        "command": call["command"],
        "status": call["status"],
        "message": call["said"],
    }


def summarize_run(group: int, run: RunResults) -> RunSummary:
    report = run.report
    assert report
    misses = run.misses.get((report.size, report.offset))
    cold, useful, useless = (
        misses.total[kind] if misses else None for kind in ("cold", "useful", "useless")
    )
    return RunSummary(
        group,
        run.seed,
        report.outcome,
        report.steps,
        report.accesses,
        len(report.lines),
        cold,
        useful,
        useless,
    )


def spread(values: Iterable[Number]) -> Spread:
    """The least, the median and the greatest of some numbers; of two in the middle the lesser is the
    median."""
    known = sorted(value for value in values if value is not None)
    return (
        Spread(known[0], known[(len(known) - 1) // 2], known[-1])
        if known
        else Spread(None, None, None)
    )


def worst_seed(seeds: Iterable[SeedCounts]) -> int:
    """The seed with most false-sharing misses; of several the one with most invalidations, then the least
    seed."""

    def rank(counts: SeedCounts) -> tuple[int, int, int]:
        misses, total = counts.false_sharing, counts.invalidations
        return (-1 if misses is None else misses, -1 if total is None else total, -counts.seed)

    return max(seeds, key=rank).seed


def summarize(seeds: Sequence[SeedCounts]) -> Summary:
    invalidations = [counts.invalidations for counts in seeds]
    misses = [counts.false_sharing for counts in seeds]
    return Summary(
        sum(it is not None for it in invalidations),
        spread(invalidations),
        sum(it is not None for it in misses),
        spread(misses),
        worst_seed(seeds),
    )


def row_rank(row: LineRow | ObjectRow) -> tuple[int, int, str, int]:
    """The order of rows: the worst first."""
    most = row.summary.false_sharing.max or 0, row.summary.invalidations.max or 0
    return -most[0], -most[1], row.object, row.offset if isinstance(row, LineRow) else 0


def object_family(name: str) -> str:
    """The name of an object in tables of objects, where all blocks of the same call sites are one."""
    return re.sub(r"^block(?: \d+)? of ", "blocks of ", name)


def line_rows(observations: Observations) -> dict[RowKey, list[LineRow]]:
    """The rows of lines, the worst first."""
    rows: dict[RowKey, list[LineRow]] = {}
    for line in name_lines(observations):
        name, offset = line.own
        others = list(dict.fromkeys(it[0] for it in line.ranked if it[0] != name))
        rows.setdefault(line.key, []).append(LineRow(name, offset, others, summarize(line.seeds)))
    return {key: sorted(own, key=row_rank) for key, own in rows.items()}


def object_rows(observations: Observations) -> dict[RowKey, list[ObjectRow]]:
    """The rows of objects, the worst first."""
    return {
        key: sorted((family.row(name) for name, family in own.items()), key=row_rank)
        for key, own in group_objects(observations).items()
    }


def name_lines(observations: Observations) -> Iterator[NamedLine]:
    """The lines of the tables: a line that no seed lists, and that has no false-sharing miss in any, is left
    out."""
    for (row_key, line_key), (names, seeds) in observations.lines.items():
        if any(it.invalidations or it.false_sharing for it in seeds):
            ranked = rank_objects(names)
            yield NamedLine(row_key, line_object(line_key, ranked), ranked, seeds)


def rank_objects(shares: Mapping[ObjectOffset, float]) -> list[ObjectOffset]:
    """The objects of a line, that with the greatest share of the accesses first."""
    return sorted(shares, key=lambda name: (-shares[name], name))


class ObjectFamily:
    """An object: the number of its lines, and the numbers of its worst line in each seed."""

    def __init__(self) -> None:
        self.lines = 0
        self.seeds: dict[int, SeedCounts] = {}

    def add_line(self, seeds: Iterable[SeedCounts]) -> None:
        self.lines += 1
        for seed, invalidations, misses in seeds:
            own = self.seeds.get(seed, SeedCounts(seed, None, None))
            self.seeds[seed] = SeedCounts(
                seed, greater(own.invalidations, invalidations), greater(own.false_sharing, misses)
            )

    def row(self, name: str) -> ObjectRow:
        return ObjectRow(name, self.lines, summarize(list(self.seeds.values())))


def group_objects(observations: Observations) -> dict[RowKey, dict[str, ObjectFamily]]:
    """The objects of each group, layout and kind, by their names."""
    found: dict[RowKey, dict[str, ObjectFamily]] = {}
    for line in name_lines(observations):
        families = found.setdefault(line.key, {})
        families.setdefault(object_family(line.own[0]), ObjectFamily()).add_line(line.seeds)
    return found


def pair_rows(observations: Observations) -> dict[tuple[int, Layout], list[PairRow]]:
    """The pairs of instructions of each group and layout: those first that invalidate a line most often in
    some seed."""
    names = {
        (row_key.group, row_key.layout, line_key): line_object(line_key, rank_objects(shares))
        for (row_key, line_key), (shares, _) in observations.lines.items()
    }
    rows: dict[tuple[int, Layout], list[PairRow]] = {}
    for (group, pair), seeds in observations.pairs.items():
        line = pair.line
        name, offset = names.get((group, pair.layout, line)) or (
            address_text(line.base) if isinstance(line, AddressKey) else "-",
            0,
        )
        worst = max(seeds, key=lambda counts: (counts.invalidations, -counts.seed))
        row = PairRow(
            name,
            offset,
            pair.victim,
            pair.invalidator,
            len(seeds),
            spread(it.invalidations for it in seeds),
            spread(it.same_word for it in seeds),
            worst.seed,
        )
        rows.setdefault((group, pair.layout), []).append(row)
    return {key: sorted(own, key=pair_rank) for key, own in sorted(rows.items())}


def pair_rank(row: PairRow) -> tuple[int, str, int, str, str]:
    return -(row.invalidations.max or 0), row.object, row.offset, row.victim, row.invalidator


def line_object(key: LineKey, ranked: Sequence[ObjectOffset]) -> ObjectOffset:
    """The object that a line is listed under: the block of its key, or else the object with most of the
    accesses."""
    if isinstance(key, BlockKey):
        which = f"block {key.number} of " if key.number else "block of "
        for name, offset in ranked:
            if name.startswith(which) and offset == key.offset:
                return name, offset
    return ranked[0]


def greater(one: Number, other: Number) -> Number:
    return max((it for it in (one, other) if it is not None), default=None)


def sort_keys(keys: Iterable[RowKey]) -> list[RowKey]:
    return sorted(keys, key=lambda key: (key.group, key.layout, KINDS.index(key.kind)))
