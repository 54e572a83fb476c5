"""How severe false-sharing misses are, by the studies in bench/clock/results: the one table of it, for view and for bench/clock/."""

from typing import NamedTuple


class Band(NamedTuple):
    """The severity of a rate: from so many false-sharing misses per 1,000 instructions on, at quantum 100."""

    least: float
    severity: str
    advice: str


# The numbers are the least and the greatest of the medians of the three studies: how many times faster padding made the programs of a band.
BANDS = (
    Band(0.0, "low", "padding usually gains nothing"),
    Band(0.05, "moderate", "padding typically makes such programs 1.1 to 1.2 times faster"),
    Band(3.0, "high", "padding typically makes such programs 1.2 to 1.5 times faster"),
    Band(8.0, "severe", "padding typically makes such programs 1.8 to 2.6 times faster"),
)
# Where padding pays: from the first rate on, and from the second on as long as most misses that aren't cold are false sharing. So it was
# in 70 to 72 of the 92 cases of each study. Of those that the rule advises, the middle six of ten gained this, and one in five nothing.
SURE_RATE, LEAST_RATE = 3.0, 0.05
WORTH = "such programs ran 1.1 to 4.1 times as fast once padded; one in five gained nothing"
NOT_WORTH = "two in three such programs gained nothing by padding"
# The nanoseconds of a line's way from one core to another, and those of an instruction, where nothing else is said.
LATENCY, STEP = 140, 0.4


def band_of(rate: float) -> int:
    """The number of a rate's band: the last one that begins at or below the rate."""
    return max(at for at, it in enumerate(BANDS) if rate >= it.least)


def is_worth(rate: float, useless: int, useful: int) -> bool:
    """Whether padding usually pays, by false-sharing misses per 1,000 instructions or accesses, and by misses of both kinds."""
    return rate >= SURE_RATE or rate >= LEAST_RATE and useless >= useful


def at_most(rate: float, latency: float, step: float) -> float:
    """An upper bound on the part of the time that so many false-sharing misses per 1,000 instructions take, if each waits alone."""
    waits = rate * latency
    return waits / (waits + 1000 * step) if waits else 0.0
