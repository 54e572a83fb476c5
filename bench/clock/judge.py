"""Numbers of measured pairs: slowdowns beside counts, rank correlations, bands, and whether a bound
held. Nothing is measured here."""

import functools
from statistics import median, quantiles
from typing import Callable, NamedTuple, Sequence

from counts import Count
from pairs import FORMS, Program
from timing import Timed

from view.model.rate_bands import BANDS, at_most, band_of, is_worth

QUANTA = (1, 10, 100, 1000)
USUAL = 100
# False-sharing misses per 1,000 steps under the usual quantum: where the bands begin.
EDGES = tuple(it.least for it in BANDS)
Cell = str | int | float | None


class Row(NamedTuple):
    """A pair with so many threads: what both forms took, what each has under each quantum, and as recorded on
    this machine."""

    program: Program
    threads: int
    guest_rounds: int
    timed: list[Timed]
    counts: dict[tuple[str, int], Count]
    recorded: dict[str, Count]

    def slowdown(self) -> float:
        """How many times as long the pair takes as it is as it does padded."""
        return self.timed[0].ns / self.timed[1].ns

    def range(self) -> tuple[float, float]:
        """The slowdown between the nearer and between the farther quarters of both."""
        return self.timed[0].low / self.timed[1].high, self.timed[0].high / self.timed[1].low

    def is_quiet(self) -> bool:
        return all(it.is_quiet() for it in self.timed)

    def rate(self, quantum: int = USUAL, form: str = FORMS[0]) -> float | None:
        """False-sharing misses per 1,000 steps."""
        found = self.counts.get((form, quantum))
        return found.rate() if found else None

    def saved(self) -> float:
        """The nanoseconds of all threads that padding saved, for as much work as the guest does."""
        return (
            (self.timed[0].ns - self.timed[1].ns)
            * self.threads
            * self.guest_rounds
            / self.timed[0].rounds
        )

    def share(self) -> float:
        """The part of the time that padding saved; below 0 where it cost some."""
        return 1 - 1 / self.slowdown()

    def step(self) -> float | None:
        """The nanoseconds that a thread of the padded form takes for what is a step of the guest's, where
        none waits for another."""
        found = self.counts.get((FORMS[1], USUAL))
        if not found or self.program.kind == "handover":
            return None
        return (
            self.timed[1].ns * self.threads * self.guest_rounds / self.timed[1].rounds / found.steps
        )

    def bound(self, latency: float) -> float | None:
        """False-sharing misses under quantum 1 times the nanoseconds of one."""
        found = self.counts.get((FORMS[0], 1))
        return found.useless * latency if found else None

    def at_most(self, latency: float, step: float) -> float | None:
        """The part of the time that view calls the most, where a step takes so many nanoseconds."""
        rates = self.rate(1), self.rate()
        return (
            None
            if rates[0] is None or rates[1] is None
            else at_most(max(rates[0], rates[1]), latency, step)
        )


def ranks(values: Sequence[float]) -> list[float]:
    """The place of each value in their order, from 1 on; equal ones share the middle of theirs."""
    order = sorted(values)
    first = {value: at for at, value in reversed(list(enumerate(order, 1)))}
    return [first[value] + (order.count(value) - 1) / 2 for value in values]


def correlation(one: Sequence[float], other: Sequence[float]) -> float | None:
    """Pearson's, or None where one of both is the same throughout."""
    means = [sum(it) / len(it) for it in (one, other)] if one else [0.0, 0.0]
    products = sum((a - means[0]) * (b - means[1]) for a, b in zip(one, other))
    squares = [sum((it - mean) ** 2 for it in row) for row, mean in zip((one, other), means)]
    return products / (squares[0] * squares[1]) ** 0.5 if all(squares) else None


def spearman(pairs: Sequence[tuple[float, float]]) -> float | None:
    return correlation(*[ranks(it) for it in zip(*pairs)]) if len(pairs) > 2 else None


def band_name(at: int) -> str:
    if at == 0:
        return f"below {EDGES[1]:g}"
    return (
        f"{EDGES[at]:g} and more" if at + 1 == len(EDGES) else f"{EDGES[at]:g} to {EDGES[at + 1]:g}"
    )


def band_summary(rows: Sequence[Row]) -> list[list[Cell]]:
    """For each band: its cases, and the least, the middle and the greatest slowdown in it."""
    found: list[list[float]] = [[] for _ in EDGES]
    for case in rows:
        rate = case.rate()
        if rate is not None:
            found[band_of(rate)].append(case.slowdown())
    made: list[list[Cell]] = []
    for at, own in enumerate(found):
        least: list[Cell] = [min(own), median(own), max(own)] if own else [None, None, None]
        made.append([band_name(at), len(own), *least])
    return made


# A pair gains by padding from this slowdown on.
GAIN = 1.05


class RuleSummary(NamedTuple):
    """How the rule of view did: cases, those in which it was right, the slowdowns of those that it advises,
    and how many of the others gained."""

    cases: int
    right: int
    advised: list[float]
    gained_otherwise: int

    def tenths(self) -> list[float]:
        return quantiles(self.advised, n=10) if len(self.advised) > 1 else []


def rule_summary(rows: Sequence[Row], is_recorded: bool = False) -> RuleSummary:
    """The rule over some pairs, by the guests' counts or by those recorded here."""
    advised: list[float] = []
    others: list[float] = []
    for row in rows:
        found = row.recorded.get(FORMS[0]) if is_recorded else row.counts.get((FORMS[0], USUAL))
        rate = found.rate() if found else None
        if found and rate is not None:
            own = advised if is_worth(rate, found.useless, found.useful) else others
            own.append(row.slowdown())
    gained = sum(it >= GAIN for it in others)
    right = sum(it >= GAIN for it in advised) + len(others) - gained
    return RuleSummary(len(advised) + len(others), right, advised, gained)


def false_sharing_rate(row: Row, quantum: int) -> float | None:
    return row.rate(quantum)


# The numbers that are correlated with the slowdown, by their names, each as a function of a row.
def numbers() -> dict[str, Callable[[Row], float | None]]:
    found: dict[str, Callable[[Row], float | None]] = {}
    for quantum in QUANTA:
        name = f"false-sharing misses per 1,000 steps, quantum {quantum}"
        found[name] = functools.partial(false_sharing_rate, quantum=quantum)
    found["false-sharing misses less those of the padded form, quantum 100"] = miss_difference
    found["true-sharing and false-sharing misses per 1,000 steps, quantum 100"] = total_misses
    found[
        "true-sharing and false-sharing misses less those of the padded form, quantum 100"
    ] = saved_time
    found["the report's invalidations per 1,000 steps, quantum 100"] = invalidation_rate
    found["recorded here: false-sharing misses per 1,000 accesses, quantum 100"] = recorded_rate
    return found


def miss_difference(row: Row) -> float | None:
    own, padded = row.rate(), row.rate(form=FORMS[1])
    return None if own is None or padded is None else own - padded


def total_misses(row: Row) -> float | None:
    found = row.counts.get((FORMS[0], USUAL))
    return 1000 * (found.useless + found.useful) / found.steps if found else None


def saved_time(row: Row) -> float | None:
    own, padded = (row.counts.get((form, USUAL)) for form in FORMS)
    return (
        1000 * (own.useless + own.useful - padded.useless - padded.useful) / own.steps
        if own and padded
        else None
    )


def invalidation_rate(row: Row) -> float | None:
    found = row.counts.get((FORMS[0], USUAL))
    return found.listed_rate() if found else None


def recorded_rate(row: Row) -> float | None:
    found = row.recorded.get(FORMS[0])
    return found.rate() if found else None


def rank_correlation(rows: Sequence[Row], number: Callable[[Row], float | None]) -> float | None:
    return spearman(
        [(value, row.slowdown()) for row in rows for value in [number(row)] if value is not None]
    )


def correlations(rows: Sequence[Row], threads: Sequence[int]) -> list[list[Cell]]:
    """For each number its rank correlation with the slowdown: with each count of threads, over all, and over
    all that hand nothing over."""
    free = [it for it in rows if it.program.kind != "handover"]
    return [
        [
            name,
            *[
                rank_correlation([it for it in rows if it.threads == count], number)
                for count in threads
            ],
        ]
        + [rank_correlation(rows, number), rank_correlation(free, number)]
        for name, number in numbers().items()
    ]


def bound_sentences(rows: Sequence[Row], latency: float, step: float) -> list[str]:
    """Sentences on the upper bound."""
    sentences, held, above = [], 0, []
    much = []
    for row in rows:
        bound = row.bound(latency)
        if bound is None:
            continue
        if row.saved() <= bound:
            held += 1
        else:
            above.append(f"{row.program.name} with {row.threads}")
        if bound > 0 and row.slowdown() > 1.05 and row.saved() > 0:
            much.append(bound / row.saved())
    if held or above:
        sentences.append(
            f"False-sharing misses under quantum 1 times {latency:.0f} ns, over all threads, were"
            f" at least what padding saved in {held} of {held + len(above)} cases"
            + (f", not in {', '.join(above)}." if above else ".")
        )
    if much:
        sentences.append(
            f"Where padding saved a twentieth or more, the bound was {min(much):.1f} to"
            f" {max(much):.1f} times what it saved, in the middle {median(much):.1f} times."
        )
    shares = [(row, row.at_most(latency, step)) for row in rows]
    over = [
        row.program.name for row, most in shares if most is not None and row.share() > most + 0.02
    ]
    sentences.append(
        f"As a part of the time, with {step:g} ns for a step, it was passed by more than 2 percent"
        f" in {len(over)} cases" + (f": {', '.join(over)}." if over else ".")
    )
    return sentences
