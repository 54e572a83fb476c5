"""How long the pairs take on this machine: pinned, one form after the other, in many short runs; and how long
a line takes to go over."""

import os
import re
from itertools import combinations
from statistics import median, quantiles
from typing import NamedTuple, Sequence

from pairs import HERE, Built, Trouble, run_command

SAID = re.compile(r"^result (\d+)\nns (\d+)\nswitches (\d+) (\d+) away (-?\d+)\n$")
# A run takes at least so long in its slower form and in its faster one, in seconds, as far as that keeps the
# slower one below the last.
SLOWER, FASTER, LONGEST = 0.1, 0.03, 0.6
# A run is disturbed if a thread was switched of itself, or if all together had no processor for more than so
# much of the time.
AWAY = 0.01
# A form of a pair has at least so many runs that nothing disturbed, or it is marked as disturbed.
LEAST = 5


class Once(NamedTuple):
    """A run: what it computed, its nanoseconds, how often its threads were switched, of themselves and not,
    and the nanoseconds of all threads without a processor."""

    result: int
    ns: int
    voluntary: int
    involuntary: int
    away: int

    def is_quiet(self) -> bool:
        return self.voluntary == 0 and self.away <= AWAY * self.ns


class Timed(NamedTuple):
    """A form's runs: how much each thread did, the middle of those that nothing disturbed, the quarters, and
    how many of them were kept."""

    rounds: int
    ns: float
    low: float
    high: float
    kept: int
    runs: int
    result: int
    voluntary: int
    involuntary: int

    def is_quiet(self) -> bool:
        return self.kept >= min(LEAST, self.runs)


def run_once(built: Built, rounds: int, cpus: Sequence[int], seconds: float = 60) -> Once:
    """A run, whose threads are pinned to the first of the processors, or to none if there are none."""
    text = run_command([built.native, str(rounds), *map(str, cpus[: built.threads])], seconds)
    found = SAID.match(text)
    if not found:
        raise Trouble(f"{built.native} printed {text!r}")
    return Once(*map(int, found.groups()))


def default_rounds(built: Built) -> int:
    """How much a thread does where nothing else is said: the last number of the source's RUN."""
    with open(built.program.source, encoding="utf-8") as text:
        found = re.search(
            r"^RUN\(\w+, \w+, \w+, (\d+)(?: / THREADS)?\)$", text.read(), re.MULTILINE
        )
    if not found:
        raise Trouble(f"{built.program.source} has no RUN at its end")
    return int(found[1]) // (built.threads if "THREADS" in found[0] else 1)


def choose_rounds(pair: Sequence[Built], cpus: Sequence[int]) -> int:
    """So many rounds that both forms take long enough."""
    rounds = default_rounds(pair[0])
    for _ in range(12):
        took = sorted(min(run_once(it, rounds, cpus).ns for _ in range(2)) / 1e9 for it in pair)
        wanted = max(SLOWER / took[1], FASTER / took[0])
        if wanted <= 1 or took[1] * wanted > LONGEST and took[1] >= SLOWER:
            break
        rounds = min(int(rounds * min(1.25 * wanted, 30)) + 1, 2**31)
    return rounds


def summarize_runs(found: Sequence[Once], rounds: int, takes_all: bool) -> Timed:
    """The middle of the runs, without those that were disturbed where enough are left, or with them."""
    quiet = [it for it in found if it.is_quiet()]
    if takes_all or len(quiet) < 2:
        quiet = list(found) if takes_all else sorted(found, key=lambda run: run.away)[:2]
    took = [it.ns for it in quiet]
    low, _, high = quantiles(took, n=4, method="inclusive") if len(took) > 1 else (took[0],) * 3
    kept = len(found) if takes_all else sum(it.is_quiet() for it in found)
    switches = [sum(it.voluntary for it in found), sum(it.involuntary for it in found)]
    return Timed(rounds, median(took), low, high, kept, len(found), found[0].result, *switches)


def time_pair(
    pair: Sequence[Built], cpus: Sequence[int], runs: int, takes_all: bool
) -> list[Timed]:
    """Both forms of a pair, one after the other, so often that each has as many quiet runs as are wanted, but
    at most twice as often. Trouble where both don't compute the same."""
    rounds = choose_rounds(pair, cpus)
    found: list[list[Once]] = [[], []]
    for at in range(2 * runs):
        for own, built in zip(found, pair):
            own.append(run_once(built, rounds, cpus))
        if at + 1 >= runs and (
            takes_all or all(sum(it.is_quiet() for it in own) >= runs for own in found)
        ):
            break
    results = {it.result for own in found for it in own}
    if len(results) > 1:
        raise Trouble(
            f"{pair[0].program.name} with {pair[0].threads} threads computes {sorted(results)}"
        )
    return [summarize_runs(own, rounds, takes_all) for own in found]


def measure_latencies(cpus: Sequence[int], folder: str) -> dict[tuple[int, int], float]:
    """For each two processors how many nanoseconds a line takes from one to the other."""
    program = os.path.join(folder, "pingpong")
    run_command(["gcc", "-O2", "-pthread", os.path.join(HERE, "pingpong.c"), "-o", program])
    return {(a, b): float(run_command([program, str(a), str(b)])) for a, b in combinations(cpus, 2)}


def read_steal_seconds() -> float:
    """How many seconds the host has kept this machine's processors for others, since it was started."""
    with open("/proc/stat", encoding="ascii") as text:
        return int(text.readline().split()[8]) / os.sysconf("SC_CLK_TCK")
