"""The search for the best repair of an object: single units, all together, and from there unit by unit."""

import contextlib
from typing import Callable, Iterable, Iterator, NamedTuple, Sequence

from view.names.fields import value_or_default
from view.repairs.candidates import (
    Choice,
    combine_units,
    other_orders,
    other_repairs,
    separate_words,
)
from view.repairs.layouts import MAX_MEMBERS, Unmovable, wide_records
from view.repairs.repair import Repair, join_repairs
from view.repairs.subjects import Subject
from view.repairs.units import Unit, units_of
from view.reading.filtered_traces import USUAL_NEAR
from view.reading.trace_files import WordUses

# So many layouts of one object are counted, units looked at, and times that the best one is varied.
MAX_LAYOUTS, MAX_UNITS, MAX_ROUNDS = 48, 20, 3
# Two repairs are about as good whose savings differ by less than one in so many; or by less than one in ten, where what they leave does
# too.
ALIKE_DIVISOR, SIMILAR_DIVISOR = 50, 10

# Two repairs take about as much memory that differ by fewer bytes.
LITTLE_BYTES = 512

# So many layouts more are counted with another order of elements.
MAX_ORDERS = 8


class Counting(NamedTuple):
    """What counts the misses of some repairs, none of one that can't be counted; and what says how a repair that gives elements to other
    threads is counted, or none where it can't be."""

    misses: Callable[[Sequence[Repair]], Sequence[int | None]]
    resolve: Callable[[Repair], Repair | None]


class Counted(NamedTuple):
    """A repair, the misses that it leaves, how many things it changes, and the units that it is made of, or none."""

    repair: Repair
    misses: int
    changes: int
    choice: Choice | None


class SearchResult(NamedTuple):
    """What a search has found: the best repair, and the best of the other kind (another order of elements in place of another layout, or
    the reverse), each none where there is none; the best separation of all words by their threads; how many layouts were counted, and
    what was left out."""

    best: Repair | None
    other: Repair | None
    bound: Repair | None
    # (what the best one leaves)
    misses: int
    layouts: int
    left_out: list[str]


def is_alike(counted: Counted, best: Counted, before: int) -> bool:
    """Whether a repair is about as good as the best one."""
    saved, most = before - counted.misses, before - best.misses
    lost = most - saved
    return lost * ALIKE_DIVISOR <= most or (
        lost * SIMILAR_DIVISOR <= most and lost * SIMILAR_DIVISOR <= best.misses
    )


def choose(found: Iterable[Counted], before: int) -> Counted | None:
    """The repair that leaves the fewest misses, and of those that are about as good the one that takes the least memory."""
    counted = list(found)
    if not counted:
        return None
    best = min(counted, key=lambda it: it.misses)
    if best.misses >= before:
        return best
    alike = [it for it in counted if is_alike(it, best, before)]
    return min(alike, key=cost_of_change)


def cost_of_change(counted: Counted) -> tuple[int, int, int, int]:
    """What a repair costs beside its misses: memory where it is much, then changes, and then memory where it is little."""
    growth = counted.repair.memory_growth()
    return growth // LITTLE_BYTES, counted.changes, growth, counted.misses


class Search:
    """The layouts of an object and those beside it that were counted."""

    def __init__(
        self,
        subjects: Sequence[Subject],
        uses: WordUses,
        line: int,
        before: int,
        counting: Counting,
    ) -> None:
        self.subjects, self.uses, self.line = subjects, uses, line
        self.before, self.counting = before, counting
        self.left_out: list[str] = []
        self.units: list[Unit] = []
        for subject in subjects:
            own: list[Unit] = value_or_default(lambda: list(units_of(subject, uses, line)), [])
            self.units += own[: max(MAX_UNITS - len(self.units), 0)]
            if len(self.units) == MAX_UNITS and own:
                self.left_out.append(f"parts of {subject.name}")
            for name in wide_records(subject.shape) if subject.shape else ():
                self.left_out.append(f"fields of {name}, which are more than {MAX_MEMBERS}")
        self.found: dict[tuple[object, ...], Counted] = {}
        self.seen: set[tuple[object, ...]] = set()

    def add(
        self, made: Iterable[tuple[Repair, int, Choice | None]], most: int = MAX_LAYOUTS
    ) -> None:
        """Counts some repairs that aren't counted yet."""
        new = []
        for repair, changes, choice in made:
            key = repair.key()
            if key in self.seen:
                continue
            if len(self.seen) >= most:
                self.left_out.append("further layouts")
                break
            self.seen.add(key)
            new.append((key, repair, changes, choice))
        counts = self.counting.misses([it[1] for it in new])
        for (key, repair, changes, choice), misses in zip(new, counts):
            if misses is not None:
                self.found[key] = Counted(repair, misses, changes, choice)

    def build(self, choices: Iterable[Choice]) -> Iterable[tuple[Repair, int, Choice]]:
        for choice in choices:
            with contextlib.suppress(Unmovable):
                yield combine_units(self.subjects, self.units, choice, self.line), len(
                    choice
                ), choice

    def singles(self) -> list[Choice]:
        return [
            ((at, option),)
            for at, unit in enumerate(self.units)
            for option in range(len(unit.options))
        ]

    def is_inner(self, at: int) -> bool:
        return self.units[at].options[0].kind != "line"

    def wholes(self) -> list[Choice]:
        """Everything at once: all variables on their own lines, what is in them apart too, and the first subject alone likewise."""
        last = {at: len(unit.options) - 1 for at, unit in enumerate(self.units)}
        inner = [at for at in last if self.is_inner(at)]
        lines = [at for at in last if not self.is_inner(at)]
        arrays = [at for at in inner if self.units[at].options[0].kind == "elements"]
        own = [at for at in inner if self.units[at].subject is self.subjects[0]]
        ways = [inner, [*inner, *lines], [*arrays, *lines], lines, own, [*own, *lines]]
        return [tuple((at, last[at]) for at in sorted(way)) for way in ways if way]

    def variations(self, choice: Choice) -> list[Choice]:
        """The choices that differ from one in one unit."""
        found: list[Choice] = []
        by_unit = dict(choice)
        for at, unit in enumerate(self.units):
            if at in by_unit:
                found.append(tuple(it for it in choice if it[0] != at))
            for option in range(len(unit.options)):
                if by_unit.get(at) != option:
                    found.append(tuple(sorted({**by_unit, at: option}.items())))
        return [it for it in found if it]

    def others(self) -> Iterable[tuple[Repair, int, None]]:
        for repair in self.make(other_repairs(self.subjects, self.uses, self.line)):
            yield repair, repair.changes, None

    def make(self, repairs: Iterable[Callable[[], Repair | None]]) -> Iterator[Repair]:
        """Those of some repairs that can be counted."""
        for make in repairs:
            with contextlib.suppress(Unmovable):
                repair = value_or_default(make, None)
                resolved = self.counting.resolve(repair) if repair is not None else None
                if resolved is not None:
                    yield resolved

    def with_other_orders(self) -> Iterable[tuple[Repair, int, None]]:
        """The best layouts so far, each with another order of the elements of an array."""
        chosen = (self.best_choice(), choose(self.found.values(), self.before))
        best = [it.repair for it in chosen if it and it.misses < self.before]
        for subject in self.subjects:
            for order in self.make(other_orders(subject, self.uses)):
                for repair in (it for it in best if not it.is_in_place):
                    joined = join_repairs([repair, order], self.line)
                    yield joined, joined.changes, None

    def best_choice(self) -> Counted | None:
        return choose((it for it in self.found.values() if it.choice), self.before)

    def run(self) -> SearchResult:
        self.add([*self.others(), *self.build([*self.wholes(), *self.singles()])])
        for _ in range(MAX_ROUNDS):
            best = self.best_choice()
            if best is None or best.choice is None or len(self.seen) >= MAX_LAYOUTS:
                break
            self.add(self.build(self.variations(best.choice)))
            if self.best_choice() is best:
                break
        self.add(self.with_other_orders(), len(self.seen) + MAX_ORDERS)
        best = choose(self.found.values(), self.before)
        # (the best repair of the other kind, in place or not)
        others = [
            one
            for one in self.found.values()
            if best and one.repair.is_in_place != best.repair.is_in_place
        ]
        other = choose(others, self.before)
        return SearchResult(
            best.repair if best else None,
            other.repair if other and other.misses < self.before else None,
            self.bound(),
            best.misses if best else self.before,
            len(self.found),
            list(dict.fromkeys(self.left_out)),
        )

    def bound(self) -> Repair | None:
        """All words of the objects apart by their threads, the better of two ways. (Words from far apart stay on lines of their own, so
        that a filtered trace can say what that comes to.)"""
        made = []
        for is_each in (False, True):
            with contextlib.suppress(Unmovable):
                repair = separate_words(self.subjects, self.uses, self.line, is_each, USUAL_NEAR)
                if repair is not None:
                    made.append(repair)
        counts = zip(self.counting.misses(made), made)
        counted = [(misses, it) for misses, it in counts if misses is not None]
        return min(counted, key=lambda own: own[0])[1] if counted else None
