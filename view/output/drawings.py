"""Pages and the pictures on them: numbers as SVG, in whole points, for templates that escape every name."""

import os
from typing import TYPE_CHECKING, Any, Sequence

from view.faults import Fault, plain
from view.names.source_lines import PACKAGES

if TYPE_CHECKING:
    import jinja2

TEMPLATES = os.path.join(os.path.dirname(os.path.abspath(__file__)), "templates")
# What a template is given of something: texts, numbers and others of its kind, by name.
Given = dict[str, Any]
Number = int | None
# A strip: so many columns of so many points, which go up so far for the first number and down so far for the second.
COLUMNS, UP, DOWN = 125, 36, 24
# A column is so wide, as far as the strip gets no wider than this.
LEAST, MOST, STRIP = 3, 12, 360
# A bar is at most so wide.
BAR = 110
# A curve: its width and height, what is kept free on each side, and at most so many names below it.
WIDTH, HEIGHT, EDGE, NAMED = 640, 200, 12, 8


def templates(*folders: str) -> "jinja2.Environment":
    """The templates of some folders and of this one: what they are given is escaped, and what they aren't given is a fault."""
    try:
        import jinja2
    except ImportError as missing:
        raise Fault(f"python3-jinja2 isn't installed: {PACKAGES}", 127) from missing
    loader = jinja2.FileSystemLoader([*folders, TEMPLATES])
    return jinja2.Environment(
        loader=loader,
        autoescape=True,
        undefined=jinja2.StrictUndefined,
        trim_blocks=True,
        finalize=visible,
    )


def visible(value: object) -> object:
    """What a template is given: control characters, which HTML has no place for, become `\\x` and their digits."""
    if type(value) is not str or value.isprintable():
        return value
    return "".join(it if it in "\t\n" else plain(it) for it in value)


def spread(count: int) -> list[range]:
    """The numbers from 0 on, as many as there are, in columns of as many each as can be."""
    columns = min(count, COLUMNS)
    return [range(at * count // columns, (at + 1) * count // columns) for at in range(columns)]


def strip(upper: Sequence[Number], lower: Sequence[Number], marked: int) -> Given:
    """Two rows of numbers, one above the other, in columns that each show the greatest of theirs; a tick for each column whose second
    number is there, half as long if some of it isn't; and the place of one that is marked. A row without a number takes no room.
    """
    columns = spread(len(upper))
    wide = min(MOST, max(LEAST, STRIP // max(len(columns), 1)))
    most = [max((it for it in row if it is not None), default=None) for row in (upper, lower)]
    up, down = (0 if of is None else high for of, high in zip(most, (UP, DOWN)))
    bars = ["", ""]
    ticks, mark = "", 0
    for at, own in enumerate(columns):
        middle = at * wide + wide // 2
        for which, (row, high) in enumerate(((upper, -up), (lower, down))):
            great = max((row[it] or 0 for it in own), default=0)
            if great:
                length = round(high * great / (most[which] or great)) or (1 if high > 0 else -1)
                bars[which] += f"M{middle} {up}v{length}"
        there = sum(lower[it] is not None for it in own)
        if there:
            ticks += f"M{middle} {up + down + 2}v{5 if there == len(own) else 2}"
        if marked in own:
            mark = middle
    size = {
        "width": len(columns) * wide,
        "wide": 2 * wide // 3,
        "height": up + down + 8,
        "middle": up,
    }
    each = len(columns[0]) if columns else 0
    return {
        **size,
        "each": each,
        "upper": bars[0],
        "lower": bars[1],
        "ticks": ticks,
        "mark": mark,
        "most": most,
    }


def bar(part: int, whole: int, most: int) -> Given:
    """A number as a frame, as wide as it is large beside the greatest one, and a part of it as what fills the frame: something unless it is
    0, and all only where it is the whole, but in a frame of one point."""
    frame, fill = (max(round(BAR * it / most), 1) if it else 0 for it in (whole, part))
    return {
        "width": BAR,
        "frame": frame,
        "fill": min(fill, max(frame - 1, 1)) if 0 < part < whole else fill,
    }


def curve(
    values: Sequence[int], marked: Sequence[tuple[int, str]], names: Sequence[object]
) -> Given:
    """Numbers as a line, from 0 at the lower edge up to the greatest, with some of them marked by a shape and a text each; at the lower
    edge a tick for each, some of which have their names."""
    most, last = max([*values, 1]), max(len(values) - 1, 1)
    each = 1
    while each * NAMED < len(values):
        each *= 2

    def place(at: int) -> tuple[int, int]:
        return (
            EDGE + at * (WIDTH - 2 * EDGE) // last,
            HEIGHT - EDGE - values[at] * (HEIGHT - 2 * EDGE) // most,
        )

    points = " ".join("{},{}".format(*place(it)) for it in range(len(values)))
    marks = [{"x": place(at)[0], "y": place(at)[1], "text": text} for at, text in marked]
    ticks = [
        {"x": place(at)[0], "text": name if at % each == 0 else ""} for at, name in enumerate(names)
    ]
    # (what its greatest number takes at the right)
    size = {
        "room": 12 * len(str(most)),
        "width": WIDTH,
        "height": HEIGHT,
        "edge": EDGE,
        "most": most,
    }
    return {**size, "points": points, "marks": marks, "ticks": ticks}
