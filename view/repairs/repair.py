"""A repair: other declarations of some objects, as code and as the places of their words."""

from bisect import bisect_right
from typing import Iterator, NamedTuple, Sequence

from view.repairs.layouts import MovedRange, round_up
from view.repairs.patches import Edit
from view.repairs.reassignment import Reassignment


class Repair(NamedTuple):
    """One way to lay out some objects anew."""

    # What to do, a sentence for each change.
    hows: list[str]
    # Words, and where they go behind the beginning of an area of `room` bytes.
    parts: list[MovedRange]
    room: int
    # None where more than declarations changes.
    edits: list[Edit] | None
    # The bytes of what is moved, before and after.
    sizes: tuple[int, int] = (0, 0)
    # Whether the parts go to places of the object itself.
    is_in_place: bool = False
    # Whether the parts are bytes, not whole words.
    is_bytewise: bool = False
    # How many declarations change.
    changes: int = 1
    # Which elements threads have then, where they use those beside their own too. (The parts are moved after that.)
    reassignments: tuple[Reassignment, ...] = ()

    def movable(self, line: int) -> "Repair":
        """The same with its parts behind the beginning of an area, where they went to places of the object itself."""
        if not self.is_in_place:
            return self
        if not self.parts:
            return self._replace(is_in_place=False)
        base = min(it.to for it in self.parts) // line * line
        parts = [it._replace(to=it.to - base) for it in self.parts]
        return self._replace(
            parts=parts, room=max(it.to + it.size for it in parts), is_in_place=False
        )

    def key(self) -> tuple[object, ...]:
        """What no other repair of the same objects has."""
        return (self.is_in_place, *(it.key() for it in self.reassignments), *self.parts)

    def moved(self) -> set[tuple[int, int]]:
        """What it moves, as places and sizes."""
        elements = {(it, of.wide) for of in self.reassignments for it in of.begins}
        return {it[:2] for it in self.parts} | elements

    def sentence(self) -> str:
        """What to do, in a sentence."""
        return "; ".join(self.hows)

    def memory_growth(self) -> int:
        return self.sizes[1] - self.sizes[0]

    def sizes_text(self) -> str:
        """The memory of what is moved, before and after, where that differs; or nothing."""
        before, after = self.sizes
        return f", {before:,} → {after:,} bytes" if before != after else ""


def join_repairs(repairs: Sequence[Repair], line: int) -> Repair:
    """Several repairs as one; words that several would move go where the first of them puts them."""
    parts: list[MovedRange] = []
    room = 0
    moved = [it for it in repairs if not it.is_in_place]
    for own in (it.movable(line) for it in repairs):
        parts = sorted(
            [
                *parts,
                *(
                    MovedRange(rest.begin, rest.size, rest.to + room)
                    for one in own.parts
                    for rest in parts_outside(one, parts)
                ),
            ]
        )
        room = round_up(room + own.room, line)
    return Repair(
        list(dict.fromkeys(how for it in repairs for how in it.hows)),
        parts,
        room,
        None,
        # (what is put in another order takes no more memory)
        (sum(it.sizes[0] for it in moved), sum(it.sizes[1] for it in moved)),
        is_bytewise=any(it.is_bytewise for it in repairs),
        changes=sum(it.changes for it in repairs),
        reassignments=tuple({of.key(): of for it in repairs for of in it.reassignments}.values()),
    )


def parts_outside(part: MovedRange, others: Sequence[MovedRange]) -> Iterator[MovedRange]:
    """What of a part lies in none of the others, which rise and don't overlap."""
    begin, end, by = part.begin, part.begin + part.size, part.to - part.begin
    at = max(bisect_right(others, begin, key=lambda part: part.begin) - 1, 0)
    while at < len(others) and others[at].begin < end:
        if begin < others[at].begin:
            yield MovedRange(begin, others[at].begin - begin, begin + by)
        begin = max(begin, others[at].begin + others[at].size)
        at += 1
    if begin < end:
        yield MovedRange(begin, end - begin, begin + by)
