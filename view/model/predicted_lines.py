"""Which predicted lines say more than the observed ones, and could come to be."""

from typing import Iterable, NamedTuple, Protocol

from view.model.object_keys import Key
from view.names.naming import Naming
from view.model.objects import object_key
from view.reading.passes import Layout
from view.reading.reports import Block, Line, Misses, Report, Symbol

# Of so many layouts the misses are counted for a first screen; each takes a pass over the trace.
MAX_COUNTED_LAYOUTS = 4
UNCOUNTED, UNALIGNED = "its misses weren't counted", "the data's alignment rules it out"

# How the kit's allocator aligns blocks.
BLOCK_ALIGNMENT_BYTES = 16


class PredictedLine(NamedTuple):
    """A predicted line: its objects by their keys, its false-sharing misses, those of the observed lines that it meets, and whether
    it is shown."""

    line: Line
    keys: dict[Key, Symbol | Block]
    useless: int | None
    observed_useless: int | None
    is_shown: bool
    reason: str


class LineRange(Protocol):
    """What has a line's base and size."""

    @property
    def base(self) -> int:
        ...

    @property
    def size(self) -> int:
        ...


def line_layout(line: LineRange) -> Layout:
    return line.size, line.base % line.size


def predicted_layouts(report: Report) -> list[Layout]:
    return sorted({line_layout(it) for it in report.predicted()})


def choose_layouts(report: Report, naming: Naming, is_all: bool) -> list[Layout]:
    """The layouts of predicted lines whose misses are to be counted: all, or those of the lines that are taken most and can come to be."""
    if is_all:
        return predicted_layouts(report)
    found: list[Layout] = []
    for line in sorted(
        report.predicted(), key=lambda candidate: (-candidate.count, candidate.base)
    ):
        if len(found) == MAX_COUNTED_LAYOUTS:
            break
        if line_layout(line) not in found and can_begin_there(line, naming):
            found.append(line_layout(line))
    return found


def object_alignment(obj: Symbol | Block, naming: Naming) -> int:
    """How an object's declaration or its allocator aligns it, as far as that is known."""
    if isinstance(obj, Symbol):
        variable = naming.program.variable(obj.addr) if naming.program else None
        return variable.alignment() if variable else 1
    # What the allocator gives is not known beyond what its blocks show.
    return min(BLOCK_ALIGNMENT_BYTES, obj.addr & -obj.addr) if obj.addr else BLOCK_ALIGNMENT_BYTES


def can_begin_there(line: Line, naming: Naming) -> bool:
    """Whether data aligned as they are could lie so that a line begins where this one does."""
    if line.kind == "doubled":
        return True
    return all(
        (obj.addr - line.base) % min(object_alignment(obj, naming), line.size) == 0
        for obj in line.objects()
        if isinstance(obj, (Symbol, Block))
    )


def observed_false_sharing(lines: Iterable[LineRange], misses: Misses) -> int:
    """The false-sharing misses of the observed lines that some predicted ones meet, each line once."""
    met: set[int] = set()
    for line in lines:
        first = (line.base - misses.offset) // misses.size * misses.size + misses.offset
        met.update(range(first, line.base + line.size, misses.size))
    return sum(misses.lines[it].useless for it in met if it in misses.lines)


def judge_predicted_lines(
    report: Report, misses: Misses | None, by_layout: dict[Layout, Misses], naming: Naming
) -> list[PredictedLine]:
    """Each predicted line of a report, those that are shown first, the worst of them first."""
    found = []
    for line in report.predicted():
        keys = {object_key(it, naming, line.base): it for it in line.objects()}
        counted = by_layout.get(line_layout(line))
        if misses is None or counted is None:
            found.append(
                PredictedLine(
                    line,
                    keys,
                    None,
                    None,
                    False,
                    UNCOUNTED if misses is None or can_begin_there(line, naming) else UNALIGNED,
                )
            )
            continue
        own = counted.lines[line.base].useless if line.base in counted.lines else 0
        seen = observed_false_sharing([line], misses)
        if own <= seen:
            why = "it adds no false sharing to that of the observed lines"
        else:
            why = "" if can_begin_there(line, naming) else UNALIGNED
        found.append(PredictedLine(line, keys, own, seen, not why, why))
    return sorted(
        found,
        key=lambda predicted: (
            not predicted.is_shown,
            (predicted.observed_useless or 0) - (predicted.useless or 0),
            -predicted.line.count,
            predicted.line.base,
        ),
    )


def group_predicted_lines(found: Iterable[PredictedLine]) -> list[list[PredictedLine]]:
    """The predicted lines of one kind, layout and reason that have the same objects, in the order of their firsts."""
    groups: dict[tuple[object, ...], list[PredictedLine]] = {}
    for predicted in found:
        groups.setdefault(
            (
                tuple(predicted.keys),
                predicted.line.kind,
                line_layout(predicted.line),
                predicted.reason,
            ),
            [],
        ).append(predicted)
    return list(groups.values())
