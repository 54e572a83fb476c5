"""The study as text: the tables of Markdown, the table of tab-separated values, and the record from which all
is made again."""

import hashlib
import json
import os
from typing import Any, NamedTuple, Sequence

from counts import Count
from judge import EDGES, QUANTA, USUAL, Cell, Row, band_summary, bound_sentences, correlations
from pairs import FORMS, HERE, Built, Program
from timing import Timed


class Study(NamedTuple):
    """What was measured, and where: `machine` has names and texts, `lines` the nanoseconds between each two
    processors."""

    machine: dict[str, str]
    lines: dict[str, float]
    step: float
    rows: list[Row]

    def latency(self) -> float:
        """The middle of the nanoseconds between two processors."""
        found = sorted(self.lines.values())
        return found[len(found) // 2]

    def threads(self) -> list[int]:
        return sorted({it.threads for it in self.rows})

    def quiet_rows(self) -> list[Row]:
        """The rows that nothing disturbed."""
        return [it for it in self.rows if it.is_quiet()]


def study_json(study: Study) -> str:
    """The record of a study."""
    rows = [
        {
            "program": list(row.program[:3]),
            "threads": row.threads,
            "guest_rounds": row.guest_rounds,
            "timed": [own._asdict() for own in row.timed],
            "counts": [
                [form, quantum, own._asdict()] for (form, quantum), own in row.counts.items()
            ],
            "recorded": {form: own._asdict() for form, own in row.recorded.items()},
        }
        for row in study.rows
    ]
    return (
        json.dumps(
            {"machine": study.machine, "lines": study.lines, "step": study.step, "rows": rows},
            indent=1,
        )
        + "\n"
    )


def parse_row(fields: dict[str, Any]) -> Row:
    counts = {(form, quantum): Count(**own) for form, quantum, own in fields["counts"]}
    recorded = {form: Count(**own) for form, own in fields["recorded"].items()}
    timed = [Timed(**own) for own in fields["timed"]]
    name, kind, text = fields["program"]
    return Row(
        Program(name, kind, text, ""),
        fields["threads"],
        fields["guest_rounds"],
        timed,
        counts,
        recorded,
    )


def parse_study(text: str) -> Study:
    """The study of a record."""
    found = json.loads(text)
    return Study(
        found["machine"], found["lines"], found["step"], [parse_row(it) for it in found["rows"]]
    )


# What was counted of each pair with so many threads, by its key; by form and quantum, where RECORDED is the
# recording on this machine.
RECORDED = 0
Counted = dict[str, dict[tuple[str, int], Count]]


def count_key(counted: Built) -> str:
    """What a count belongs to: a pair, its threads, and the sources."""
    made = hashlib.sha256()
    for name in (counted.program.source, os.path.join(HERE, "clock.h")):
        with open(name, "rb") as file:
            made.update(file.read())
    return (
        f"{counted.program.name} with {counted.threads} threads, lines of {counted.line} bytes,"
        f" {made.hexdigest()[:12]}"
    )


def counts_json(counted: Counted) -> str:
    rows = [
        [key, form, quantum, entry._asdict()]
        for key, own in counted.items()
        for (form, quantum), entry in own.items()
    ]
    return json.dumps(rows, indent=1) + "\n"


def parse_counts(text: str) -> Counted:
    made: Counted = {}
    for key, form, quantum, load in json.loads(text):
        made.setdefault(key, {})[form, quantum] = Count(**load)
    return made


def number_text(value: Cell) -> str:
    """A number with two places, or without any from a hundred on; a dash for what isn't there."""
    if value is None:
        return "-"
    if isinstance(value, float):
        return f"{value:.0f}" if abs(value) >= 100 else f"{value:.2f}"
    return str(value)


def table(heads: Sequence[str], rows: Sequence[Sequence[Cell]], texts: int = 1) -> str:
    """A table of Markdown, whose first columns are texts."""
    marks = ["-" if at < texts else "-:" for at in range(len(heads))]
    return "\n".join(
        "| " + " | ".join(cells) + " |"
        for cells in [list(heads), marks, *[[number_text(it) for it in row] for row in rows]]
    )


def percent(part: float | None) -> str:
    return "-" if part is None else f"{100 * part:.0f}%"


def main_table(study: Study) -> str:
    """A line for each pair and count of threads, the greatest slowdown first."""
    heads = [
        "Program",
        "Kind",
        "Threads",
        "Slowdown",
        "quarters",
        *[f"false, {it}" for it in QUANTA],
    ]
    heads += ["padded, 100", "true, 100", "recorded, 100", "at most", "saved"]
    rows: list[list[Cell]] = []
    for own in sorted(study.rows, key=lambda own: -own.slowdown()):
        usual, here = own.counts.get((FORMS[0], USUAL)), own.recorded.get(FORMS[0])
        row: list[Cell] = [
            own.program.name + ("" if own.is_quiet() else " (disturbed)"),
            own.program.kind,
            own.threads,
        ]
        row += [
            own.slowdown(),
            "{:.2f} to {:.2f}".format(*own.range()),
            *[own.rate(quantum) for quantum in QUANTA],
        ]
        row += [
            own.rate(form=FORMS[1]),
            1000 * usual.useful / usual.steps if usual else None,
            here.rate() if here else None,
        ]
        rows.append([*row, percent(own.at_most(study.latency(), study.step)), percent(own.share())])
    return table(heads, rows, 2)


def bands_table(study: Study) -> str:
    """The bands, over all and with each count of threads."""
    heads = [
        "False-sharing misses per 1,000 steps, quantum 100",
        "Cases",
        "Least slowdown",
        "Middle",
        "Greatest",
    ]
    parts = [table(heads, band_summary(study.quiet_rows()))]
    for count in study.threads():
        parts += [
            f"With {count} threads:",
            table(heads, band_summary([it for it in study.quiet_rows() if it.threads == count])),
        ]
    return "\n\n".join(parts)


def ranks_table(study: Study) -> str:
    heads = ["Number", *[f"{it} threads" for it in study.threads()], "all", "without handovers"]
    return table(heads, correlations(study.quiet_rows(), study.threads()))


def exceptional_rows(study: Study) -> list[str]:
    """Rows that the usual rate would mislead on, and those that padding made slower."""
    rows = []
    for own in study.quiet_rows():
        rate, name = own.rate(), f"{own.program.name} with {own.threads} threads"
        if rate is not None and rate < EDGES[1] and own.range()[0] > 1.2:
            rows.append(
                f"{name}: {rate:.2f} false-sharing misses per 1,000 steps, and a slowdown of"
                f" {own.slowdown():.2f}"
            )
        if rate is not None and rate >= EDGES[3] and own.range()[0] < 1.1:
            rows.append(
                f"{name}: {rate:.2f} false-sharing misses per 1,000 steps, and a slowdown of"
                f" {own.slowdown():.2f} alone"
            )
        if own.range()[1] < 0.97:
            rows.append(f"{name}: padding made it slower, {1 / own.slowdown():.2f} times")
    return rows


def study_markdown(study: Study) -> str:
    """The whole text."""
    quiet = (
        f"{len(study.quiet_rows())} of {len(study.rows)} rows are of runs that nothing disturbed;"
        " the bands and ranks are of these."
    )
    steps = sorted(it for row in study.quiet_rows() for it in [row.step()] if it is not None)
    middle = (
        f"A step of the padded forms without handovers took {steps[0]:.2f} to {steps[-1]:.2f} ns,"
        " in the middle "
        if steps
        else ""
    )
    step_text = f"{middle}{steps[len(steps) // 2]:.2f} ns." if steps else ""
    parts = [
        "# What a miss is worth in time",
        "",
        *[f"- {name}: {text}" for name, text in study.machine.items()],
        "",
    ]
    lines = ", ".join(f"{between}: {ns:.0f}" for between, ns in study.lines.items())
    parts += [
        f"A line's way from one processor to another, in nanoseconds: {lines}. {step_text}",
        "",
        quiet,
        "",
    ]
    parts += [
        "## Bands",
        "",
        bands_table(study),
        "",
        "## Rank correlations with the slowdown",
        "",
        ranks_table(study),
        "",
    ]
    parts += [
        "## Upper bound",
        "",
        *bound_sentences(study.quiet_rows(), study.latency(), study.step),
        "",
    ]
    parts += ["## Exceptions", "", *[f"- {it}" for it in exceptional_rows(study)], ""]
    parts += ["## All pairs", "", main_table(study), ""]
    return "\n".join(parts)


def study_values(study: Study) -> str:
    """All numbers as tab-separated values with a head, behind lines that say where they were measured."""
    notes = [
        *study.machine.items(),
        *((f"line {it}", f"{ns:g}") for it, ns in study.lines.items()),
        ("step", f"{study.step:g}"),
    ]
    heads = ["program", "kind", "threads", "quiet", "slowdown", "low", "high", "guest rounds"]
    for form in FORMS:
        heads += [
            f"{form}: {label}"
            for label in ("ns", "kept", "runs", "rounds", "voluntary", "involuntary")
        ]
        heads += [
            f"{form}, quantum {turn}: {what}"
            for turn in QUANTA
            for what in ("steps", "useful", "useless", "listed")
        ]
        heads += [f"{form}, recorded: {it}" for it in ("accesses", "useful", "useless")]
    heads += ["saved ns", "bound ns", "at most", "saved"]
    rows = [heads]
    for entry in study.rows:
        cells: list[Cell] = [
            entry.program.name,
            entry.program.kind,
            entry.threads,
            int(entry.is_quiet()),
            entry.slowdown(),
            *entry.range(),
            entry.guest_rounds,
        ]
        for form, own in zip(FORMS, entry.timed):
            cells += [own.ns, own.kept, own.runs, own.rounds, own.voluntary, own.involuntary]
            for quantum in QUANTA:
                found = entry.counts.get((form, quantum))
                cells += (
                    [found.steps, found.useful, found.useless, found.listed]
                    if found
                    else [None] * 4
                )
            here = entry.recorded.get(form)
            cells += [here.accesses, here.useful, here.useless] if here else [None] * 3
        cells += [
            entry.saved(),
            entry.bound(study.latency()),
            entry.at_most(study.latency(), study.step),
            entry.share(),
        ]
        rows.append(
            [
                "" if cell is None else f"{cell:.6g}" if isinstance(cell, float) else str(cell)
                for cell in cells
            ]
        )
    return "".join(f"# {name}: {text}\n" for name, text in notes) + "".join(
        "\t".join(row) + "\n" for row in rows
    )
