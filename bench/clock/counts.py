"""What predator counts of the pairs: as guests under several quanta, and recorded on this machine."""

import os
import re
import tempfile
from typing import NamedTuple

from pairs import TOP, Built, Trouble, run_command

PREDATOR = os.path.join(TOP, "bin", "predator")
# (a study waits for no proof)
os.environ.setdefault("PREDATOR_BUILD", "no")
TOTAL = re.compile(
    r"^accesses (\d+)\n(?:.*\n)*total cold (\d+) useful (\d+) useless (\d+)$", re.MULTILINE
)
HEAD = re.compile(r"^predator report 1\noutcome exit 0\nsteps (\d+)$", re.MULTILINE)
LISTED = re.compile(r"^line observed \S+ \d+ start \d+ count (\d+) ", re.MULTILINE)


class Count(NamedTuple):
    """What a run or a recording has: steps (0 in a recording), accesses, its misses, and the sum of the
    report's observed counts."""

    steps: int
    accesses: int
    # (named as in the text of `misses`, and in the stored studies)
    useful: int
    useless: int
    listed: int
    result: int

    def rate(self) -> float:
        """False-sharing misses per 1,000 steps, or per 1,000 accesses of a recording."""
        return 1000 * self.useless / (self.steps or self.accesses)

    def listed_rate(self) -> float:
        return 1000 * self.listed / (self.steps or self.accesses)


def count_trace(trace: str) -> tuple[int, int, int]:
    """The accesses of a trace, and its true-sharing and false-sharing misses on lines of 64 bytes."""
    found = TOTAL.search(run_command([PREDATOR, "misses", trace]))
    if not found:
        raise Trouble(f"{trace}: `misses` has no total")
    return int(found[1]), int(found[3]), int(found[4])


def parse_result(text: str, of: str) -> int:
    found = re.search(r"^result (\d+)$", text, re.MULTILINE)
    if not found:
        raise Trouble(f"{of} put out no result, but {text[-200:]!r}")
    return int(found[1])


def count_guest(built: Built, quantum: int) -> Count:
    """A run of the guest under a quantum, eight harts or one more than it has threads."""
    with tempfile.TemporaryDirectory() as folder:
        trace, output = os.path.join(folder, "trace"), os.path.join(folder, "output")
        settings = f"quantum={quantum},harts={built.threads + 1},budget=1000000000"
        text = run_command(
            [PREDATOR, "run", built.guest, "--set", settings, "--trace", trace, "--output", output]
        )
        head = HEAD.search(text)
        if not head:
            raise Trouble(f"{built.guest} doesn't end by exit 0: {text[:100]}")
        with open(output, encoding="ascii") as said:
            result = parse_result(said.read(), built.guest)
        listed = sum(int(it) for it in LISTED.findall(text))
        return Count(int(head[1]), *count_trace(trace), listed, result)


def count_recording(built: Built, quantum: int = 100) -> Count:
    """A recording of the program of this machine, with its usual amount of work."""
    with tempfile.TemporaryDirectory() as folder:
        trace = os.path.join(folder, "trace")
        text = run_command(
            [PREDATOR, "native", "--quantum", str(quantum), "--trace", trace, "--", built.native],
            900,
        )
        return Count(0, *count_trace(trace), 0, parse_result(text, built.native))


def can_run() -> bool:
    """Whether there is a program to count with; it isn't built for this."""
    try:
        run_command([PREDATOR, "check", os.path.join(TOP, "guest", "built", "apart.elf")])
    except Trouble:
        return False
    return True
