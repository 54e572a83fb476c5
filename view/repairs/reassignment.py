"""Elements of an array for other threads: neighbouring ones for one thread, where threads have them in turn.

A thread that works on an element may use those beside it. Then each of its accesses goes to where the element that it works on comes to
lie, and on from there as far as before."""

from collections import Counter
from typing import NamedTuple, Sequence

from view.reading.byte_traces import (
    HART_MASK,
    HART_SHIFT,
    SIZE_SHIFT,
    WORD,
    access_at,
    key_address,
    read_keys,
    write_accesses,
)
from view.reading.trace_files import READ, WordUses

# An element so near to one that a thread writes is used for that.
NEAR_ELEMENTS = 2
# A thread uses elements beside its own if so many of its accesses to those of others are near to what it wrote last.
MIN_NEAR_SHARE = 0.75
KIND_MASK = 0xFF


class Reassignment(NamedTuple):
    """Elements of arrays and where they come to lie; elements are numbered through all arrays of a length, and have so many bytes."""

    begins: Sequence[int]
    wide: int
    length: int
    # The thread that writes an element, and where that comes to lie.
    owners: dict[int, int]
    places: dict[int, int]

    def key(self) -> tuple[int, ...]:
        """What no other one of the same objects has."""
        return self.begins[0], self.wide, self.length

    def extent(self) -> tuple[int, int]:
        """Where the first of the elements begins and the last one ends."""
        return min(self.begins), max(self.begins) + self.wide

    def elements(self) -> dict[int, int]:
        """The element of each word."""
        return {
            word: number
            for number, begin in enumerate(self.begins)
            for word in range(begin, begin + self.wide, WORD)
        }

    def owned(self) -> dict[int, list[int]]:
        """The elements of each thread."""
        found: dict[int, list[int]] = {}
        for number, hart in sorted(self.owners.items()):
            found.setdefault(hart, []).append(number)
        return found

    def place_for(self, hart: int, element: int, own: Sequence[int]) -> int:
        """Where an element comes to lie for a thread: its own, or as far from its nearest one as before."""
        if self.owners.get(element) == hart:
            return self.places[element]
        beside = [it for it in own if it // self.length == element // self.length]
        nearest = min(beside, key=lambda it: abs(it - element), default=None)
        if nearest is None or abs(nearest - element) > NEAR_ELEMENTS:
            return element
        to = self.places[nearest] + element - nearest
        return to if to // self.length == element // self.length else element

    def words_by_hart(self) -> dict[int, dict[int, int]]:
        """Where each word of the arrays comes to lie for each thread that has elements."""
        found: dict[int, dict[int, int]] = {}
        for hart, own in self.owned().items():
            words: dict[int, int] = {}
            for element, begin in enumerate(self.begins):
                to = self.begins[self.place_for(hart, element, own)]
                if to != begin:
                    words.update({begin + at: to + at for at in range(0, self.wide, WORD)})
            found[hart] = words
        return found


def is_used_by_others(begin: int, wide: int, hart: int, uses: WordUses) -> bool:
    """Whether other threads than its own use an element."""
    return any(
        hart != other for at in range(begin, begin + wide, WORD) for other in uses.users_of(at)
    )


def uses_neighbours(trace: str, of: Reassignment) -> bool:
    """Whether threads use elements of others for those beside them that they write, and not for all; by a trace of version 1."""
    elements, written = of.elements(), dict[int, int]()
    count = Counter[bool]()
    for key in read_keys(trace):
        element = elements.get(key_address(key) // WORD * WORD)
        if element is None:
            continue
        hart, own = key >> HART_SHIFT & HART_MASK, of.owners.get(element)
        index = element % of.length
        if own == hart and key & KIND_MASK != READ:
            written[hart] = index
        elif own not in (None, hart) and hart in written:
            count[abs(written[hart] - index) <= NEAR_ELEMENTS] += 1
    return count[True] >= MIN_NEAR_SHARE * sum(count.values())


def write_reassigned(trace: str, out: str, reassignments: Sequence[Reassignment]) -> None:
    """Writes a trace of version 1 whose threads use the elements that they have then."""
    by_hart: dict[int, dict[int, int]] = {}
    for of in reassignments:
        for hart, words in of.words_by_hart().items():
            by_hart.setdefault(hart, {}).update(words)

    def spell(key: int) -> list[int] | None:
        words, addr = by_hart.get(key >> HART_SHIFT & HART_MASK), key_address(key)
        to = words.get(addr // WORD * WORD) if words else None
        return None if to is None else [access_at(key, to + addr % WORD, key >> SIZE_SHIFT)]

    write_accesses(trace, out, spell, True)
