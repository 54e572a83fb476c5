"""The page of some studies, side by side: false-sharing misses per 1,000 steps against the slowdown that padding took
away, each program a named point. One file of HTML, which needs no network and no script; its template, which
extends that of view/, escapes every name."""

import math
from typing import Any, Iterator, Mapping, NamedTuple, Sequence

from judge import EDGES, Row, band_summary, bound_sentences
from pairs import HERE, KINDS
from tables import Study, number_text

from view.model.rate_bands import BANDS

Given = dict[str, Any]
# The picture: its width and height, and what is kept free at the left and below, and at the other sides.
WIDTH, HEIGHT, LEFT, LOWER, EDGE = 640, 600, 44, 44, 14
# A point is within so many points of its place, a line of text is so high, and letters are so wide.
POINT, LINE, LETTER = 5, 11, 6.9
LETTERS = {**dict.fromkeys("ijl", 3.2), "f": 4.0, "t": 4.4, "r": 4.6, "_": 5.6, "w": 9.1, "m": 10.8}
# A rate per 1,000 steps below this is drawn at it.
LEAST = 0.01
COLOURS = {
    "false": "#d55e00",
    "mixed": "#0072b2",
    "handover": "#009e73",
    "true": "#1b1b1b",
    "none": "#5c5c5c",
}
SHAPES = {
    "false": "M-5 0a5 5 0 1 0 10 0a5 5 0 1 0 -10 0z",
    "mixed": "M-4.5 -4.5h9v9h-9z",
    "handover": "M0 -6l5.5 10h-11z",
    "true": "M0 -6l6 6l-6 6l-6 -6z",
    "none": "M-5 -5l10 10M-5 5l10 -10",
}


class Box(NamedTuple):
    left: float
    top: float
    right: float
    bottom: float

    def meets(self, other: "Box") -> bool:
        return (
            self.left < other.right
            and other.left < self.right
            and self.top < other.bottom
            and other.top < self.bottom
        )


class Scale(NamedTuple):
    """A logarithmic axis, from one number to another, on which these stand at two places."""

    first: float
    last: float
    begin: float
    end: float

    def place(self, value: float) -> float:
        part = math.log(value / self.first) / math.log(self.last / self.first)
        return round(self.begin + part * (self.end - self.begin), 1)


def label_width(name: str) -> float:
    """How wide a name is drawn."""
    return sum(LETTERS.get(it, LETTER) for it in name)


def label_places(x: float, y: float, wide: float) -> Iterator[tuple[float, float]]:
    """Where a name of that width may begin, its baseline below its text, the nearest places first."""
    for far in (9, 14, 22, 32, 44, 58, 74, 92, 112):
        for turn in (0, 8, 2, 6, 1, 7, 3, 5, 4, 9, 10, 11, 12, 13, 14, 15):
            angle = turn * math.pi / 8
            at = x + far * math.cos(angle)
            if math.cos(angle) < -0.3:
                at -= wide
            elif abs(math.cos(angle)) <= 0.3:
                at -= wide / 2
            yield at, y + far * math.sin(angle) + LINE / 3


def place_labels(points: Sequence[tuple[float, float, str]]) -> list[Given]:
    """A place for the name of each point, where it covers no point and no other name if there is one; a line
    leads to it from afar."""
    taken = [Box(x - POINT, y - POINT, x + POINT, y + POINT) for x, y, _ in points]
    made = []
    for x, y, name in points:
        wide = label_width(name)
        best = None
        for left, base in label_places(x, y, wide):
            box = Box(left - 1, base - LINE + 2, left + wide + 1, base + 3)
            inside = (
                box.left > LEFT
                and box.right < WIDTH - 2
                and box.top > 2
                and box.bottom < HEIGHT - LOWER
            )
            if inside and not any(box.meets(it) for it in taken):
                best = box
                break
        box = best or Box(x + 8, y - LINE + 4, x + 8 + wide, y + 4)
        taken.append(box)
        near = min(max(x, box.left), box.right), min(max(y, box.top), box.bottom)
        is_far = math.dist(near, (x, y)) > 12
        made.append({"x": round(box.left + 1, 1), "y": round(box.bottom - 3, 1), "text": name})
        made[-1]["line"] = f"M{x} {y}L{near[0]:.1f} {near[1]:.1f}" if is_far else ""
    return made


def shared_scales(rows: Sequence[Row]) -> tuple[Scale, Scale]:
    """Of all pictures, so that they can be compared."""
    rates = [it.rate() or LEAST for it in rows]
    slow = [it.slowdown() for it in rows]
    along = Scale(LEAST, max([*rates, 10]) * 1.4, LEFT + 12, WIDTH - EDGE)
    up = Scale(min([*slow, 0.8]) / 1.1, max([*slow, 2]) * 1.1, HEIGHT - LOWER, EDGE)
    return along, up


def picture(rows: Sequence[Row], along: Scale, up: Scale) -> Given:
    """The points of one count of threads, with their names and the ticks of both axes."""
    places = [(along.place(max(it.rate() or 0.0, LEAST)), up.place(it.slowdown())) for it in rows]
    names = place_labels([(x, y, it.program.name) for (x, y), it in zip(places, rows)])
    points = [
        {
            "x": x,
            "y": y,
            "shape": SHAPES[point.program.kind],
            "colour": COLOURS[point.program.kind],
            "name": name,
            "title": point_text(point),
        }
        for (x, y), point, name in zip(places, rows, names)
    ]
    ticks = [0.01, 0.03, 0.1, 0.3, 1, 3, 10, 30, 100, 300]
    steps = [0.1, 0.2, 0.3, 0.5, 0.7, 1, 1.5, 2, 3, 5, 7, 10, 15, 20, 30, 50]
    return {
        "points": points,
        "across": [
            {"x": along.place(tick), "text": f"{tick:g}" if tick > LEAST else f"{tick:g} or less"}
            for tick in ticks
            if tick <= along.last
        ],
        "up": [
            {"y": up.place(step), "text": f"{step:g}", "is_one": step == 1}
            for step in steps
            if up.first <= step <= up.last
        ],
        "edges": [along.place(it) for it in EDGES[1:] if it <= along.last],
    }


def point_text(row: Row) -> str:
    low, high = row.range()
    how = f"slowdown {number_text(row.slowdown())} ({low:.2f} to {high:.2f})"
    return (
        f"{row.program.name}, {row.threads} threads: {how}, {number_text(row.rate())} false-sharing"
        f" misses per 1,000 steps; {row.program.text}"
    )


def page_title(studies: Mapping[str, Study]) -> str:
    """What is seen, in a sentence."""
    parts = []
    for name, study in studies.items():
        found = band_summary(study.quiet_rows())
        if found[0][1] and found[-1][1]:
            most, fewest = number_text(found[-1][3]), number_text(found[0][3])
            parts.append(f"{most} times as fast, and {fewest} times with the fewest ({name})")
    if not parts:
        return "What padding is worth, by false-sharing misses"
    return f"With the most false-sharing misses, padding made the middle program {'; '.join(parts)}"


def page_pictures(studies: Mapping[str, Study]) -> list[Given]:
    """A picture for each count of threads and study, all with the same axes."""
    drawn = {
        (count, name): [
            row for row in study.quiet_rows() if row.threads == count and row.rate() is not None
        ]
        for count in sorted({it for study in studies.values() for it in study.threads()})
        for name, study in studies.items()
    }
    along, up = shared_scales([it for own in drawn.values() for it in own])
    return [
        {"threads": count, "study": name, **picture(own, along, up)}
        for (count, name), own in drawn.items()
        if own
    ]


def page_rows(studies: Mapping[str, Study]) -> list[Given]:
    """All pairs, with what each study has of them, the greatest slowdown first."""
    found: dict[tuple[int, str], dict[str, Row]] = {}
    for name, study in studies.items():
        for pair_row in study.rows:
            found.setdefault((pair_row.threads, pair_row.program.name), {})[name] = pair_row
    made: list[Given] = []
    for (threads, _), own in sorted(
        found.items(),
        key=lambda entry: (-max(row.slowdown() for row in entry[1].values()), entry[0]),
    ):
        program = next(iter(own.values())).program
        cells = []
        for name in studies:
            row = own.get(name)
            low, high = row.range() if row else (0.0, 0.0)
            slowdown = (
                f"{number_text(row.slowdown())} ({low:.2f} to"
                f" {high:.2f}{'' if row.is_quiet() else '; disturbed'})"
                if row
                else "-"
            )
            cells.append({"rate": number_text(row.rate()) if row else "-", "slowdown": slowdown})
        made.append({"program": program, "threads": threads, "cells": cells})
    return made


def page(studies: Mapping[str, Study]) -> str | None:
    """The page, or None where jinja2 isn't installed."""
    from view.output.drawings import templates
    from view.faults import Fault

    try:
        found = templates(HERE)
    except Fault:
        return None
    given = {
        "title": page_title(studies),
        "studies": studies,
        "pictures": page_pictures(studies),
        "width": WIDTH,
        "height": HEIGHT,
        "left": LEFT,
        "lower": LOWER,
        "edge": EDGE,
        "kinds": [{"name": it, "shape": SHAPES[it], "colour": COLOURS[it]} for it in KINDS],
        "bands": {
            name: [[number_text(cell) for cell in row] for row in band_summary(study.quiet_rows())]
            for name, study in studies.items()
        },
        "advice": [band.advice for band in BANDS],
        "bound": {
            name: bound_sentences(study.quiet_rows(), study.latency(), study.step)
            for name, study in studies.items()
        },
        "rows": page_rows(studies),
    }
    return found.get_template("study.html").render(given)
