#!/usr/bin/python3
"""A comparison of the usual schedule with the seeds of a campaign.

The folder is that of a campaign whose seeds include 0, the usual schedule. Each of three tables has rows for
every program and settings:
- how many objects the usual schedule lists, and how many of these every seed lists, and fewer than half of
  the seeds; how many objects only other seeds list, and how many of these at least half of the seeds list,
  and at most a tenth;
- the object with the greatest median of invalidations over the seeds;
- the objects in which the two differ: those of the usual schedule that fewer than half of the seeds list, and
  those that only seeds list."""

import argparse
import os
import sys
from collections import Counter
from dataclasses import dataclass
from typing import Any, Iterable, Mapping

HERE = os.path.dirname(os.path.abspath(__file__))
sys.path.insert(0, os.path.dirname(HERE))

from campaign.campaign_file import Record, read_campaign, settings_name  # noqa: E402
from campaign.observations import (  # noqa: E402
    Observations,
    line_object,
    object_family,
    rank_objects,
    spread,
)
from campaign.tables import cell_text, read_results  # noqa: E402

USUAL_SEED = 0
COUNT_HEADS = (
    *("program", "settings", "seeds", "usual", "in every seed", "in fewer than half"),
    *("others", "in half or more", "in a tenth or fewer"),
)
OBJECT_HEADS = (
    *("program", "settings", "object", "usual inval", "seeds"),
    *("inval min", "inval median", "inval max", "worst seed"),
)

# The invalidations of each object, by its seeds.
Objects = dict[str, Counter[int]]
Row = tuple[Any, ...]


@dataclass(frozen=True)
class Comparison:
    """The rows of the three tables, each with its program and settings first."""

    counts: list[Row]
    worst: list[Row]
    different: list[Row]


def find_objects(observations: Observations, groups: int, by_lines: bool) -> dict[int, Objects]:
    """The objects, or the lines, of each group that a seed lists under the run's own layout."""
    found: dict[int, Objects] = {group: {} for group in range(groups)}
    for (row_key, line_key), (shares, seeds) in observations.lines.items():
        counts = {own.seed: own.invalidations for own in seeds if own.invalidations is not None}
        if row_key.kind == "observed" and counts:
            name, offset = line_object(line_key, rank_objects(shares))
            label = f"{name} {offset:+}" if by_lines else object_family(name)
            own_counts = found[row_key.group].setdefault(label, Counter())
            for seed, count in counts.items():
                own_counts[seed] = max(own_counts[seed], count)
    return found


def drawn_seeds(counts: Mapping[int, int]) -> dict[int, int]:
    """The invalidations in all seeds but the usual schedule."""
    return {seed: count for seed, count in counts.items() if seed != USUAL_SEED}


def object_row(name: str, counts: Mapping[int, int]) -> Row:
    """The cells of an object, under OBJECT_HEADS."""
    seeds = drawn_seeds(counts)
    worst = max(seeds, key=lambda seed: (seeds[seed], -seed)) if seeds else None
    return (name, counts.get(USUAL_SEED), len(seeds), *spread(seeds.values()), worst)


def worst_object(objects: Objects) -> str:
    """The object with the greatest median of its invalidations."""

    def rank(name: str) -> tuple[int, str]:
        return spread(drawn_seeds(objects[name]).values()).median or 0, name

    return max(objects, key=rank)


def different_objects(objects: Objects, drawn: int) -> list[str]:
    """The objects that the usual schedule lists and fewer than half of the seeds do, and those that it
    doesn't list."""
    return [
        name
        for name, counts in sorted(objects.items())
        if USUAL_SEED not in counts or 2 * (len(counts) - 1) < drawn
    ]


def count_row(objects: Objects, drawn: int) -> Row:
    """The numbers of objects, under COUNT_HEADS."""
    usual = [len(counts) - 1 for counts in objects.values() if USUAL_SEED in counts]
    others = [len(counts) for counts in objects.values() if USUAL_SEED not in counts]
    return (
        len(usual),
        sum(seeds == drawn for seeds in usual),
        sum(2 * seeds < drawn for seeds in usual),
        len(others),
        sum(2 * seeds >= drawn for seeds in others),
        sum(10 * seeds <= drawn for seeds in others),
    )


def compare_schedules(campaign: Record, observations: Observations, by_lines: bool) -> Comparison:
    runs = observations.count_runs()
    comparison = Comparison([], [], [])
    found = find_objects(observations, len(campaign["groups"]), by_lines)
    for group, objects in found.items():
        own = campaign["groups"][group]
        head, drawn = (own["program"], settings_name(own)), runs[group] - 1
        comparison.counts.append((*head, drawn, *count_row(objects, drawn)))
        for name in [worst_object(objects)] if objects else []:
            comparison.worst.append((*head, *object_row(name, objects[name])))
        for name in different_objects(objects, drawn):
            comparison.different.append((*head, *object_row(name, objects[name])))
    return comparison


def fold_quanta(rows: Iterable[Row]) -> list[Row]:
    """Rows of a program that differ by their quantum alone, as one row."""
    found: dict[Row, list[str]] = {}
    for name, quantum, *rest in rows:
        found.setdefault((name, *rest), []).append(quantum)
    return [(name, ", ".join(own), *rest) for (name, *rest), own in found.items()]


def join_quanta(rows: Iterable[Row]) -> tuple[list[str], list[Row]]:
    """A table of each program's objects, with a column for each quantum: the usual invalidations, and the
    range over the seeds."""
    cells: dict[Row, dict[str, str]] = {}
    for program, quantum, name, usual, _, least, _, greatest, _ in rows:
        own = cells.setdefault((program, f"`{name}`"), {})
        own[quantum] = f"{usual}; {least} to {greatest}"
    quanta = dict.fromkeys(quantum for own in cells.values() for quantum in own)
    return (
        ["Program", "Object", *(f"`quantum` {quantum}" for quantum in quanta)],
        [(*key, *(own.get(quantum, "-") for quantum in quanta)) for key, own in cells.items()],
    )


def renew_document(campaign: Record, observations: Observations) -> None:
    """Puts the numbers of lines, and the objects with the most invalidations, into the tables of
    docs/STUDIES.md."""
    # (only here, since a campaign elsewhere has no page of studies)
    sys.path.append(os.path.join(HERE, "..", "guest", "studies"))
    import report

    def with_quantum(row: Row) -> Row:
        settings = dict(setting.split("=") for setting in row[1].split(","))
        return row[0], settings["quantum"], *(cell_text(cell) for cell in row[2:])

    by_lines = compare_schedules(campaign, observations, True)
    by_objects = compare_schedules(campaign, observations, False)
    numbers = (
        "Program",
        "`quantum`",
        "Usual",
        *COUNT_HEADS[4:6],
        "Seeds alone",
        *COUNT_HEADS[7:],
    )
    counts = [(*row[:2], *row[3:]) for row in fold_quanta(map(with_quantum, by_lines.counts))]
    parts = {
        "usual": report.markdown_table(numbers, counts),
        "worst": report.markdown_table(*join_quanta(map(with_quantum, by_objects.worst))),
    }
    report.renew_document(parts)


def main() -> None:
    parser = argparse.ArgumentParser(
        description=__doc__, formatter_class=argparse.RawDescriptionHelpFormatter
    )
    parser.add_argument("folder", help="the folder of the campaign")
    parser.add_argument(
        "--lines", action="store_true", help="compare each line of an object by itself"
    )
    parser.add_argument(
        "--renew", action="store_true", help="write the tables into docs/STUDIES.md"
    )
    options = parser.parse_args()
    os.chdir(options.folder)
    campaign = read_campaign(".")
    observations, _ = read_results(campaign)
    if options.renew:
        renew_document(campaign, observations)
        return
    found = compare_schedules(campaign, observations, options.lines)
    tables = (
        (COUNT_HEADS, found.counts),
        (OBJECT_HEADS, found.worst),
        (OBJECT_HEADS, found.different),
    )
    for at, (heads, rows) in enumerate(tables):
        if at:
            print()
        for row in (heads, *rows):
            print(*(cell_text(cell) for cell in row), sep="\t")


if __name__ == "__main__":
    main()
