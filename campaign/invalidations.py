"""The text of `predator blame`: which instruction invalidates which other one's copy of each line."""

import re
from typing import NamedTuple

LAYOUT = re.compile(r"^layout (\d+) (\d+)$", re.MULTILINE)
ROW = re.compile(
    r"^line (-?0x[0-9a-f]+) |^pair (0x[0-9a-f]+) (0x[0-9a-f]+) taken (\d+) same (\d+)$",
    re.MULTILINE,
)


class PairCount(NamedTuple):
    """How often the second of two instructions invalidates the first one's copy, and how often over the same
    word."""

    victim: str
    invalidator: str
    invalidations: int
    same_word: int


class Blame:
    """The layout of a text, and the pairs of instructions of each line by its address."""

    def __init__(self, text: str) -> None:
        size, offset = LAYOUT.findall(text)[0]
        self.size, self.offset = int(size), int(offset)
        self.lines: dict[int, list[PairCount]] = {}
        for base, victim, invalidator, total, same in ROW.findall(text):
            if base:
                pairs = self.lines.setdefault(int(base, 16), [])
            else:
                pairs.append(PairCount(victim, invalidator, int(total), int(same)))
