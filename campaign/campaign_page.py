"""The page of a campaign: the numbers of each object over the seeds, and settings and programs side by side.

It is one file of HTML without scripts; its template, campaign_page.html, escapes every name."""

import os
from typing import Iterator, Mapping, NamedTuple, Sequence

from campaign.campaign_file import Record, settings_name
from campaign.observations import (
    ObjectFamily,
    ObjectRow,
    Observations,
    RowKey,
    Spread,
    group_objects,
    row_rank,
    sort_keys,
)
from campaign.rerun_commands import view_command
from view.output.drawings import Given, bar, strip, templates

HERE = os.path.dirname(os.path.abspath(__file__))
# A page stays below 2 MB with at most so many strips, lines about what failed, and letters of a name.
MAX_STRIPS, MAX_FAILURES, MAX_NAME = 160, 24, 160
# A row is drawn where in some seed one in so many accesses is a false-sharing miss, or, where misses aren't counted,
# an invalidation.
MIN_ACCESS_SHARE_DIVISOR = 1000
# The side-by-side table has at most so many objects, programs of each, and columns of settings.
MAX_OBJECTS, MAX_PROGRAMS, MAX_SETTINGS = 24, 6, 8


class PageRow(NamedTuple):
    """An object under some settings: the numbers of each seed, and the row that the table has."""

    key: RowKey
    name: str
    family: ObjectFamily
    row: ObjectRow


def short_name(name: str) -> str:
    return name if len(name) <= MAX_NAME else name[:MAX_NAME] + "…"


def number_text(value: int | None) -> str:
    return "-" if value is None else f"{value:,}"


def spread_text(values: Spread) -> str:
    if all(value is None for value in values):
        return "-"
    return " / ".join(number_text(value) for value in values)


def plural(count: int, noun: str) -> str:
    return f"{count:,} {noun}" if count == 1 else f"{count:,} {noun}s"


def group_name(campaign: Record, group: int) -> str:
    own = campaign["groups"][group]
    return f"{own['program']}, {settings_name(own)}"


def layout_text(key: RowKey) -> str:
    """The lines that a row is of."""
    size, shift = key.layout
    at = f" at offset {shift}" if shift else ""
    return f"{size}-byte lines{at}" + (
        "" if key.kind == "observed" else f", predicted ({key.kind})"
    )


def list_bad_outcomes(campaign: Record, observations: Observations) -> Iterator[Given]:
    """Outcomes other than exit 0: of each group and outcome the number of runs, and the first seed."""
    ends: dict[tuple[int, str], list[int]] = {}
    for run in observations.runs:
        ends.setdefault((run.group, run.outcome), []).append(run.seed)
    runs = observations.count_runs()
    for (group, outcome), seeds in sorted(ends.items(), key=lambda end: (-len(end[1]), end[0])):
        if outcome != "exit 0":
            share = f"{len(seeds):,} of {plural(runs[group], 'run')}"
            name = group_name(campaign, group)
            text = f"{share} of {name} ended with {outcome} instead of exit 0, for example seed {min(seeds)}:"
            yield {"text": text, "command": view_command(campaign, group, min(seeds))}


def list_failures(
    campaign: Record, observations: Observations, missing: Sequence[str]
) -> list[Given]:
    """Everything that went wrong, as far as there is room."""
    found = list(list_bad_outcomes(campaign, observations))
    for call in observations.failed:
        text = (
            f"a call failed three times with status {call['status']}: {short_name(call['message'])}"
        )
        found.append({"text": text, "command": call["command"]})
    found += [{"text": f"job {name} has no result", "command": ""} for name in missing]
    more = len(found) - MAX_FAILURES
    rest = {"text": f"{more:,} more are in runs.tsv and table.json", "command": ""}
    return found[:MAX_FAILURES] + ([rest] if more > 0 else [])


def page_row(campaign: Record, shown: PageRow, seeds: Sequence[int]) -> Given:
    """An object under some settings, and its strip."""
    summary = shown.row.summary
    counts = [shown.family.seeds.get(seed) for seed in seeds]
    invalidations = [own.invalidations if own else None for own in counts]
    misses = [own.false_sharing if own else None for own in counts]
    name, layout = short_name(shown.name), layout_text(shown.key)
    numbers = f"{spread_text(summary.false_sharing)} false-sharing misses"
    numbers += f", {spread_text(summary.invalidations)} invalidations (min / median / max)"
    alt = (
        f"{name}, {layout}: {numbers}; listed in {summary.listed:,} of {plural(len(seeds), 'seed')}"
    )
    return {
        "object": name,
        "lines": shown.row.lines,
        "layout": layout,
        "listed": f"{summary.listed:,} of {len(seeds):,}",
        "misses": spread_text(summary.false_sharing),
        "invalidations": spread_text(summary.invalidations),
        "greatest": [summary.false_sharing.max, summary.invalidations.max],
        "ends": [seeds[0], seeds[-1]],
        "worst": summary.worst_seed,
        "command": view_command(campaign, shown.key.group, summary.worst_seed),
        "alt": f"{alt}; worst in seed {summary.worst_seed}",
        "picture": strip(misses, invalidations, seeds.index(summary.worst_seed)),
    }


def side_by_side(campaign: Record, found: Sequence[PageRow]) -> Given:
    """The greatest numbers of each object, with bars: a row for each program, and a column for each of the
    settings."""
    groups = {
        (group["program"], settings_name(group)): at for at, group in enumerate(campaign["groups"])
    }
    settings = list(dict.fromkeys(name for _, name in groups))
    objects: dict[tuple[object, ...], dict[int, PageRow]] = {}
    for row in found:
        objects.setdefault((row.name, row.key.layout, row.key.kind), {})[row.key.group] = row
    shown = list(objects.values())[:MAX_OBJECTS]
    heads = settings[:MAX_SETTINGS]
    return {
        "heads": [short_name(it.replace(",", ", ")) for it in heads],
        "objects": [compare_groups(own, groups, heads) for own in shown],
        "left": {"objects": len(objects) - len(shown), "settings": len(settings) - len(heads)},
    }


def compare_groups(
    own: Mapping[int, PageRow], groups: Mapping[tuple[str, str], int], settings: Sequence[str]
) -> Given:
    """One object: its programs, those that don't have it, and its cells. Its bars have one scale, and are of
    false-sharing misses where these are known."""
    first = next(iter(own.values()))
    has_misses = any(row.row.summary.false_sharing.max is not None for row in own.values())
    most = max(bar_number(row.row, has_misses) for row in own.values())
    programs = {program: False for program, _ in groups}
    for (program, _), group in groups.items():
        programs[program] |= group in own
    there = [program for program, has_object in programs.items() if has_object]
    absent = [program for program, has_object in programs.items() if not has_object]
    rows = []
    for program in there[:MAX_PROGRAMS]:
        numbers = [groups.get((program, name)) for name in settings]
        cells = [
            None if at is None else bar_cell(own[at].row, has_misses, most) if at in own else {}
            for at in numbers
        ]
        rows.append({"program": program, "cells": cells})
    return {
        "object": short_name(first.name),
        "layout": layout_text(first.key),
        "has_misses": has_misses,
        "rows": rows,
        "more": len(there) - len(rows),
        "absent": absent[:MAX_PROGRAMS],
        "others": max(0, len(absent) - MAX_PROGRAMS),
    }


def bar_number(row: ObjectRow, has_misses: bool) -> int:
    return (row.summary.false_sharing if has_misses else row.summary.invalidations).max or 0


def bar_cell(row: ObjectRow, has_misses: bool, most: int) -> Given:
    """The greatest numbers of a row, and one of them as a bar."""
    length = bar_number(row, has_misses)
    return {
        "misses": row.summary.false_sharing.max,
        "invalidations": row.summary.invalidations.max,
        "bar": bar(length, length, most),
    }


def page_title(campaign: Record, observations: Observations, found: Sequence[PageRow]) -> str:
    """The result in a sentence: the number of runs that didn't end with exit 0, then the worst object."""
    if not observations.runs:
        return "No run has a result"
    runs = plural(len(observations.runs), "run")
    bad = sum(run.outcome != "exit 0" for run in observations.runs)
    begin = f"{bad:,} of {runs} didn't end with exit 0; " if bad else ""
    if not found:
        return f"{begin}{'no' if begin else 'No'} object is contended in {runs}"
    key, name, _, row = found[0]
    seeds = len({run.seed for run in observations.runs if run.group == key.group})
    misses = row.summary.false_sharing.max
    if misses is not None:
        worst = f"{misses:,} false-sharing miss" + ("" if misses == 1 else "es")
    else:
        worst = plural(row.summary.invalidations.max or 0, "invalidation")
    state = "is contended" + (
        "" if key.kind == "observed" else f" on a predicted line ({key.kind})"
    )
    text = f"{short_name(name)} of {group_name(campaign, key.group)} {state}"
    text += f" in {row.summary.listed:,} of {plural(seeds, 'seed')}"
    text += f"; worst is seed {row.summary.worst_seed}, with {worst}"
    programs = [campaign["groups"][it.key.group]["program"] for it in found]
    alike = {(of, it.name) for of, it in zip(programs, found) if it.key.kind == key.kind}
    more = plural(len(alike) - 1, "more object")
    return f"{begin}{text}" + (f"; {more} contended" if len(alike) > 1 else "")


def campaign_page(campaign: Record, observations: Observations, missing: Sequence[str]) -> str:
    """The whole page."""
    found = [
        PageRow(key, name, family, family.row(name))
        for key, own in group_objects(observations).items()
        for name, family in own.items()
    ]
    found.sort(key=lambda shown: (shown.key.kind != "observed", row_rank(shown.row)))
    drawn = rows_worth_drawing(found, observations)
    has_groups = len(campaign["groups"]) > 1 and found
    return (
        templates(HERE)
        .get_template("campaign_page.html")
        .render(
            title=page_title(campaign, observations, found),
            failures=list_failures(campaign, observations, missing),
            runs=plural(len(observations.runs), "run"),
            beside=side_by_side(campaign, drawn) if has_groups else None,
            groups=page_groups(campaign, observations, drawn[:MAX_STRIPS]),
            more=max(0, len(drawn) - MAX_STRIPS),
            minor=len(found) - len(drawn),
            share=f"{MIN_ACCESS_SHARE_DIVISOR:,}",
        )
    )


def rows_worth_drawing(found: Sequence[PageRow], observations: Observations) -> list[PageRow]:
    """The rows of which some seed has enough misses, and the first one of each group."""
    accesses: dict[int, int] = {}
    for run in observations.runs:
        accesses[run.group] = max(accesses.get(run.group, 0), run.accesses)
    first: dict[int, PageRow] = {}
    drawn = []
    for row in found:
        misses = row.row.summary.false_sharing.max
        most = row.row.summary.invalidations.max or 0 if misses is None else misses
        is_first = first.setdefault(row.key.group, row) is row
        if is_first or most * MIN_ACCESS_SHARE_DIVISOR >= accesses.get(row.key.group, 0):
            drawn.append(row)
    return drawn


def page_groups(
    campaign: Record, observations: Observations, drawn: Sequence[PageRow]
) -> list[Given]:
    """The rows of each group of runs, by their layouts and kinds."""
    groups = []
    for group in range(len(campaign["groups"])):
        seeds = sorted({run.seed for run in observations.runs if run.group == group})
        own = [row for row in drawn if row.key.group == group]
        keys = sort_keys({row.key for row in own})
        rows = [page_row(campaign, row, seeds) for key in keys for row in own if row.key == key]
        if rows:
            name = group_name(campaign, group)
            groups.append({"name": name, "seeds": plural(len(seeds), "seed"), "rows": rows})
    return groups
