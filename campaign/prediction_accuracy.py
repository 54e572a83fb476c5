#!/usr/bin/python3
"""The accuracy of predicted lines: those that a run predicts beside those that really have false-sharing
misses under other layouts.

The folder is that of a campaign whose `misses` have every shift of 64 and of 128 bytes. A line of one of
these layouts is **real** if its false-sharing misses reach the report's threshold. It is **new** if they
exceed those of the run's own lines that it overlaps, all together, by the threshold or more: the run itself
doesn't show it. A predicted line is **near** a line if it has at least half of that line's bytes.

For each run this prints how many lines are real under layouts other than its own, and how many of them are
predicted exactly and have a predicted line near; the same of the new lines; and how many lines the run
predicts, how many of these are real, and how many are new."""

import argparse
import os
import sys
from typing import Iterable, NamedTuple

sys.path.insert(0, os.path.dirname(os.path.dirname(os.path.abspath(__file__))))

from campaign import result_files  # noqa: E402
from campaign.campaign_file import (  # noqa: E402
    Record,
    read_campaign,
    seeds_of_batch,
    settings_name,
)
from campaign.run_results import RunResults  # noqa: E402
from view.model.predicted_lines import observed_false_sharing  # noqa: E402
from view.names.naming import Memory  # noqa: E402

HEADS = (
    *("program", "settings", "seed", "real", "exactly", "near", "new", "exactly", "near"),
    *("predicted", "real", "new"),
)


class LineRange(NamedTuple):
    size: int
    base: int


class FoundLines(NamedTuple):
    """The lines that are real under layouts other than the run's own, those of them that are new, and the
    predicted lines."""

    real: set[LineRange]
    new: set[LineRange]
    predicted: set[LineRange]


def is_near(line: LineRange, others: Iterable[LineRange]) -> bool:
    """Whether another line has at least half of a line's bytes."""
    end = line.base + line.size
    overlaps = (min(end, other.base + other.size) - max(line.base, other.base) for other in others)
    return any(2 * overlap >= line.size for overlap in overlaps)


def find_lines(run: RunResults) -> FoundLines:
    report = run.report
    assert report  # (a record without a failed call has one)
    own = run.misses[report.size, report.offset]
    misses = {
        LineRange(size, base): line.useless
        for (size, _), layout in run.misses.items()
        for base, line in layout.lines.items()
    }
    threshold = int(report.thresholds[2])
    real = {
        line
        for line, count in misses.items()
        if count >= threshold and (line.size, line.base % line.size) != (own.size, own.offset)
    }
    new = {line for line in real if misses[line] >= observed_false_sharing([line], own) + threshold}
    return FoundLines(real, new, {LineRange(it.size, it.base) for it in report.predicted()})


def count_cells(record: Record) -> list[int]:
    """The numbers of one run, under the heads after `seed`."""
    found = find_lines(RunResults(record, Memory()))
    cells = []
    for lines in (found.real, found.new):
        near = sum(is_near(line, found.predicted) for line in lines)
        cells += [len(lines), len(lines & found.predicted), near]
    return [
        *cells,
        len(found.predicted),
        len(found.predicted & found.real),
        len(found.predicted & found.new),
    ]


def main() -> None:
    parser = argparse.ArgumentParser(
        description=__doc__, formatter_class=argparse.RawDescriptionHelpFormatter
    )
    parser.add_argument("folder", help="the folder of the campaign")
    os.chdir(parser.parse_args().folder)
    campaign = read_campaign(".")
    print(*HEADS, sep="\t")
    for batch in campaign["batches"]:
        group, seeds = campaign["groups"][batch["group"]], set(seeds_of_batch(batch))
        for record in result_files.read_records(result_files.finished_path(batch["name"])):
            if record["seed"] in seeds and not record["failed"]:
                head = group["program"], settings_name(group), record["seed"]
                print(*head, *count_cells(record), sep="\t")


if __name__ == "__main__":
    main()
