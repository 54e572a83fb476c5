"""Parts of a repair that come from far apart, kept apart where they go: a filtered trace says nothing of lines that have words of both."""

from collections import deque
from typing import Sequence

from view.reading.filtered_traces import MOVED_NEAR, USUAL_NEAR
from view.repairs.layouts import MovedRange

# Why a layout was left out.
FAR_LAYOUTS = "layouts that bring far data together (--whole counts them)"
# What lies so far apart is in regions that aren't neighbours; and a hole keeps the places of lines in pages.
APART_BYTES, HOLE_BYTES = 2 * MOVED_NEAR, 4 * MOVED_NEAR


def is_far(one: MovedRange, other: MovedRange) -> bool:
    """Whether two parts may come from regions that aren't neighbours."""
    first, last = min(one.begin, other.begin), max(one.begin + one.size, other.begin + other.size)
    return last - first > USUAL_NEAR


def keep_far_apart(
    parts: Sequence[MovedRange], room: int, line: int
) -> tuple[list[MovedRange], int]:
    """The parts of a repair, with holes before lines whose parts come from far away from those of the lines before, and the room that they
    take then. No two parts share a line that didn't, and none that did come apart."""
    found: list[MovedRange] = []
    recent: deque[MovedRange] = deque()
    hole = 0
    for part in sorted(parts, key=lambda it: it.to):
        while recent and recent[0].to + recent[0].size + APART_BYTES <= part.to:
            recent.popleft()
        begins_line = part.to % line == 0 and all(it.to + it.size <= part.to for it in recent)
        if begins_line and any(is_far(it, part) for it in recent):
            hole += HOLE_BYTES
            recent.clear()
        recent.append(part)
        found.append(part._replace(to=part.to + hole))
    return found, room + hole
