"""The invalidations of a trace under every shift of its lines: `predator view sweep TRACE --size N`. The program counts; this draws."""

import contextlib
import os
import re
from typing import Iterator, NamedTuple, Sequence

from view.model.line_borders import BorderCrossing, find_crossings
from view.reading.calls import Call
from view.output.drawings import Given, curve, templates
from view.faults import Fault, plain
from view.reading.pipes import copy_whole
from view.reading.engine import Predator
from view.reading.filtered_traces import read_filter
from view.output.screen import counted

SHIFT = re.compile(r"^shift (\d+) total (\d+) lines (\d+)$", re.MULTILINE)
# So many objects are shown where the call doesn't say.
OBJECTS = 10


class Shift(NamedTuple):
    """Where lines begin, and then the invalidations of all lines, and how many lines have some."""

    shift: int
    total: int
    lines: int


class Sweep:
    """The output of `sweep`; `own` is the layout of the trace as placed, and `most` and `least` are those that count most and least: `own`
    where none differs from it."""

    def __init__(self, text: str, of: str = "sweep") -> None:
        head = re.match(r"sweep (\d+)\naccesses (\d+)\n(?:whole (\d+)\n)?shift ", text)
        least = re.search(r"^least (\d+) total (\d+)\nend\n", text, re.MULTILINE)
        self.shifts = [Shift(*map(int, it)) for it in SHIFT.findall(text)]
        if not head or not least or not self.shifts or self.shifts[0].shift != 0:
            raise Fault(f"{of}: unexpected output of `predator sweep`")
        # (of a filtered trace all accesses that the program made)
        self.size, self.accesses = int(head[1]), int(head[3] or head[2])
        self.own = self.shifts[0]
        self.least = next((it for it in self.shifts if it.shift == int(least[1])), self.own)
        self.most = max(self.shifts, key=lambda shift: shift.total)
        self.objects: list[BorderCrossing] = []

    def ends(self) -> list[Shift]:
        """The shifts that are shown by objects: the trace's own, the one that counts most and the one that counts least, each once."""
        return [*{it.shift: it for it in (self.own, self.most, self.least)}.values()]

    def look(self, trace: str) -> None:
        """Finds the objects on the contended lines under these shifts."""
        if self.most.total:
            totals = {it.shift: it.total for it in self.ends()}
            self.objects = find_crossings(
                trace, self.size, totals, self.most.shift, self.least.shift
            )

    def title(self) -> str:
        """The result in a sentence."""
        text = f"{self.size}-byte lines: {counted(self.own.total, 'invalidation')} as placed"
        if self.least.total == self.most.total:
            return f"{text}, and under every shift"
        text += self.extremes()
        if not self.objects:
            return text
        first = self.objects[0]
        differs = first.differs(self.ends().index(self.most), self.ends().index(self.least))
        is_most = 2 * differs >= self.most.total - self.least.total
        return f"{text}; {'most of the difference is in' if is_most else 'the largest difference is in'} {first.name}"

    def extremes(self) -> str:
        """The totals that aren't the trace's own."""
        if self.least.total == self.own.total:
            return f", the fewest; {self.most.total:,} at worst (shift {self.most.shift})"
        return f", {self.least.total:,} at best (shift {self.least.shift})"

    def mark(self, shift: Shift) -> str:
        """What a shift is marked as."""
        marks = ["as placed"] if shift is self.own else []
        marks += ["most"] if shift is self.most and self.most.total > self.least.total else []
        return ", ".join([*marks, *(["fewest"] if shift is self.least else [])])

    def heading(self, shift: Shift) -> str:
        mark = self.mark(shift)
        return f"shift {shift.shift}" + (f" ({mark})" if mark else "")


@contextlib.contextmanager
def trace_of(call: Call) -> Iterator[str]:
    """The trace as a file: from a pipe a copy of it, since it is read for each of the shifts that are looked at."""
    if call.reads_trace_once():
        with copy_whole(call.subject) as path:
            yield path
    else:
        yield call.subject


def sweep_of(call: Call) -> Sweep:
    with trace_of(call) as trace:
        words = [trace if it == call.subject else it for it in call.words]
        sweep = Sweep(Predator().output(["sweep", *words]))
        filtered = read_filter(trace)
        # (a report also looks at lines of twice the size)
        if filtered is None or 2 * sweep.size <= filtered.near:
            sweep.look(trace)
        return sweep


def rows(sweep: Sweep, most: int) -> Iterator[str]:
    """The screen."""
    yield f"{sweep.title()} ({counted(sweep.accesses, 'access')})"
    yield ""
    wide = max(8, *(len(f"{it.total:,}") for it in sweep.shifts))
    yield f"   shift {'inval':>{wide}}  lines"
    for shift in sweep.shifts:
        yield f"{shift.shift:>8} {shift.total:>{wide},} {shift.lines:>6,}  {sweep.mark(shift)}".rstrip()
    if not sweep.objects:
        return
    ends = sweep.ends()
    widths = [max(11, len(f"{it.total:,}") + 2) for it in ends]
    heads = "".join(f"{f'shift {it.shift}':>{width}}" for it, width in zip(ends, widths))
    yield ""
    yield f"{heads}  object (and its worst line at shift {sweep.most.shift})"
    for own in sweep.objects[:most]:
        cells = "".join(f"{it:>{width},}" for it, width in zip(own.counts, widths))
        yield f"{cells}  {own.name}" + (f" ({own.border})" if own.border else "")
    more = len(sweep.objects) - most
    if more > 0:
        yield f"{counted(more, 'more object')} (--top {len(sweep.objects)} shows all)"


def marks(sweep: Sweep) -> list[tuple[str, int, str]]:
    """The marks on the curve: a shape, the place of the shift, and its text."""
    found = [("square", sweep.own, "as placed")]
    if sweep.most.total > sweep.least.total:
        found += [
            (shape, shift, what)
            for shape, shift, what in (
                ("triangle", sweep.most, "most"),
                ("circle", sweep.least, "fewest"),
            )
        ]
    places = {it.shift: at for at, it in enumerate(sweep.shifts)}
    drawn: list[tuple[str, int, str]] = []
    for shape, shift, what in found:
        if shift is not sweep.own or shape == "square":
            where = "" if shape == "square" else f", shift {shift.shift}"
            drawn.append((shape, places[shift.shift], f"{what}{where}: {shift.total:,}"))
    return drawn


def page(sweep: Sweep, name: str, most: int = OBJECTS) -> str:
    """The page: the invalidations over the shifts as a curve, on which the trace's own shift, the greatest and the least are marked; the
    objects that make them; and all as a table."""
    found = marks(sweep)
    shifts = [it.shift for it in sweep.shifts]
    given: Given = curve(
        [it.total for it in sweep.shifts], [(at, text) for _, at, text in found], shifts
    )
    for mark, (shape, _, _) in zip(given["marks"], found):
        mark["shape"] = shape
    return (
        templates()
        .get_template("sweep.html")
        .render(
            title=f"{os.path.basename(name)}: {sweep.title()}",
            sweep=sweep,
            picture=given,
            objects=sweep.objects[:most],
            more=max(len(sweep.objects) - most, 0),
            heads=[sweep.heading(it) for it in sweep.ends()],
        )
    )


def show(call: Call) -> tuple[list[str], str | None]:
    """The lines of the screen, and the page where one is asked for."""
    if "html" in call.options:
        templates()
    most = call.number_option("top", OBJECTS)
    sweep = sweep_of(call)
    lines: Sequence[str] = [plain(it) for it in rows(sweep, most)]
    return [*lines], page(sweep, call.named, most) if "html" in call.options else None
