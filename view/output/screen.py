"""The first screen as text. Colours on a terminal only help the eye."""

import os
import shutil
import sys
import textwrap
from typing import Iterator, NamedTuple, Sequence, TextIO

from view.repairs.advice import attribute, listing
from view.reading.calls import TOP
from view.faults import plain
from view.model.instruction_pairs import ATOMIC, LOAD, STORE, UNKNOWN, pair_kind, describe_kinds
from view.model.object_keys import BlocksKey
from view.model.fine_grain import FINE_QUANTUM, fine_objects
from view.model.foreign_objects import row_of
from view.model.view import RARE_MISS_DIVISOR, ObjectDetails, View
from view.model.object_fixes import ObjectFixes
from view.model.objects import DataObject
from view.model.stack_overflow import is_outside_code
from view.model.word_owners import describe_owners
from view.model.worst_line import MAX_ROWS, wholes, worst_line_rows
from view.model.predicted_lines import (
    UNCOUNTED,
    PredictedLine,
    observed_false_sharing,
    group_predicted_lines,
)
from view.reading.engine import setting_value
from view.reading.reports import InstructionPair
from view.model.miss_rates import settings_of

BOLD, RED, DIM, END = "1", "1;31", "2", "0"
# So many rows are looked at first, and so many objects of a predicted line or of those without a row are named.
MOST = 3
# The width where no terminal says one, and the least and greatest of a terminal that is used.
WIDTH, LEAST_WIDTH, GREATEST_WIDTH = 100, 60, 120
# A field in the table of a line is cut to so many letters.
MAX_FIELD = 32
# The column of numbers is so wide at least, and a label below a row, from the edge of the first column on.
NUMBER, LABEL = 8, 8
# How a pair of instructions invalidates a line.
BY = {
    ATOMIC: " (atomic instruction)",
    LOAD: " (write after read)",
    STORE: " (write after write)",
    UNKNOWN: "",
}


class Paint:
    """Colours where they are wanted."""

    def __init__(self, out: TextIO = sys.stdout) -> None:
        self.is_on = (
            out.isatty() and not os.environ.get("NO_COLOR") and os.environ.get("TERM") != "dumb"
        )

    def __call__(self, code: str, text: str) -> str:
        return f"\033[{code}m{text}\033[{END}m" if self.is_on else text


def width_of_screen(out: TextIO = sys.stdout) -> int:
    """The columns of a terminal, as far as lines of that length read well, and else the usual number."""
    if not out.isatty():
        return WIDTH
    return max(LEAST_WIDTH, min(shutil.get_terminal_size().columns, GREATEST_WIDTH))


def counted(number: int, what: str) -> str:
    """A number of things, as `1 line` or `1,024 lines`."""
    return f"{number:,} {what}" + ("" if number == 1 else "es" if what.endswith("s") else "s")


def fold(text: str, first: str, rest: str, width: int) -> list[str]:
    return textwrap.wrap(
        plain(text),
        width,
        initial_indent=first,
        subsequent_indent=rest,
        break_long_words=False,
        break_on_hyphens=False,
    )


def outcome_of(view: View) -> str:
    """How the run ended, with the source line of a trap."""
    outcome, naming = view.report.outcome, view.naming
    if outcome.startswith("trap") and naming.sources:
        return f"{outcome}, at {naming.instruction_name(int(outcome.split(' ')[4], 16))}"
    return outcome


def interleaving(view: View) -> str:
    """The quantum, seed or schedule of a run, or nothing where that isn't known."""
    if view.call.recorded_quantum is not None:
        return f", quantum {view.call.recorded_quantum:,}"
    if view.call.action != "run":
        return ""
    schedule = view.call.option_value("--schedule")
    if schedule:
        return f", schedule {os.path.basename(schedule)}"
    seed = setting_value(view.call.settings_words(), "seed")
    return f", quantum {settings_of(view.call)[1]:,}" + (f", seed {seed}" if seed else "")


def summary(view: View) -> str:
    """What was run, how it ended, how much it did, and under which layout and interleaving it was counted."""
    report = view.report
    name = "standard input" if view.call.named == "-" else os.path.basename(view.call.named)
    did = [counted(view.accesses, "access")]
    if report.steps:
        did.insert(0, counted(report.steps, "instruction"))
    offset = f" at offset {report.offset}" if report.offset else ""
    layout = f"{report.size}-byte lines{offset}{interleaving(view)}"
    parts = len(view.part_begins())
    if parts:
        what = (
            "a part of the run, which"
            if parts == 1
            else f"{parts:,} parts of the run, each of which"
        )
        layout += f"; {what} begins with cold misses"
    return f"{name}: {outcome_of(view)}, {', '.join(did)}; {layout}"


def totals(view: View) -> str:
    """The misses of the whole trace, with the rate of false sharing and its severity."""
    total = view.misses.total if view.misses else {}
    rate = view.worth.total()
    numbers = (
        f"{counted(total['useless'], 'false-sharing miss')}, "
        f"{total['useful']:,} true-sharing, {total['cold']:,} cold"
    )
    first = (
        f"; {view.first_misses:,} of these misses are a thread's first access of a line in a part, which"
        " the gap may have caused"
        if view.first_misses is not None
        else ""
    )
    return numbers + (f": {rate}" if rate else "") + first


def outcome(view: View, paint: Paint, width: int) -> Iterator[str]:
    """The first lines: how the run ended, loudly where that isn't exit 0, and all its misses."""
    is_part = view.report.outcome == "part"
    if not view.report.ended_well():
        ended = (
            "THE RECORDING IS INCOMPLETE"
            if is_part
            else f"THE RUN DID NOT END WITH EXIT 0: {outcome_of(view)}"
        )
        yield from (
            paint(RED, row)
            for text in (ended, next_step(view))
            for row in fold(f"!! {text}", "", "   ", width)
        )
    yield from fold(summary(view), "", "  ", width)
    if view.misses:
        yield from fold(totals(view), "", "  ", width)
        if view.is_clean() and not is_part:
            yield from fold(
                (
                    f"no change is worth it: fewer than one in {RARE_MISS_DIVISOR:,} accesses is a"
                    " sharing miss"
                ),
                "",
                "  ",
                width,
            )


def shared(view: View, rows: Sequence[DataObject]) -> str:
    """That most misses are true sharing of one object, where that doesn't stand among the first; or nothing."""
    most = max(rows, key=lambda obj: obj.useful, default=None)
    if most is None or most in rows[:MOST] or 2 * most.useful <= view.total():
        return ""
    name = view.naming.names.shorten(view.label(most))
    row = rows.index(most) + 1
    return (
        f"{most.useful:,} of all {view.total():,} sharing misses are true sharing of one object, in"
        f" row {row}: {name}"
    )


def next_step(view: View) -> str:
    """What to do about a run that didn't end with exit 0."""
    outcome, sources = view.report.outcome, view.naming.sources
    if view.overflow:
        return view.overflow.sentence()
    if outcome.endswith(("load-misaligned", "store-misaligned")):
        return (
            "the address isn't a multiple of the access size: use `memcpy`, or a type with"
            " `__attribute__((packed))`"
        )
    if sources and is_outside_code(outcome, sources.code):
        return (
            "the program jumped to an address without code, through a bad function pointer or an"
            " overwritten return address; a larger stack may help (`--set stack=1048576`)"
        )
    advice = {
        "budget": "the run used up its budget of instructions: raise the setting `budget`",
        "deadlock": "no thread could run any more",
        "part": end_of_recording(view),
    }
    return advice.get(outcome, "the report covers the run up to that point")


# Why a recording ended before its program did, by the words of its address map, and what to do.
ENDS_OF_RECORDING = {
    "signal": "a signal ended the program",
    "exec": (
        "the program became another one (`exec`), which is not recorded: name that one in its place"
    ),
    "for": "recording stopped after the time of `--for`, and the program went on",
    "most": "recording stopped after as many accesses as `--for` or `--most` allows, and the program went on",
    "max-disk": (
        "recording stopped at `--max-disk` bytes of trace (2G where the call has none), and the"
        " program went on: raise `--max-disk`, or record less with `--most` or `--marked`"
    ),
    "disk": (
        "recording stopped when its trace had half of what was free on the disk, and the program"
        " went on: set TMPDIR to a disk with more room, or record less with `--most` or `--marked`"
    ),
    "threads": (
        "recording stopped at more than 256 threads at a time, and the program went on: run it with"
        " fewer threads"
    ),
    "addresses": (
        "recording stopped at 4,080 MiB of touched addresses, and the program went on: run it on a"
        " smaller input"
    ),
    "error": "the trace could not be written further, and the program went on",
}


def end_of_recording(view: View) -> str:
    """Why a trace ends before its program did, and what to do."""
    from view.names.fields import Program

    program = view.naming.program
    end = None if program is None or isinstance(program, Program) else program.map.end
    usual = "the program was killed, or the trace was cut"
    return ENDS_OF_RECORDING.get(end[1], usual) if end else usual


def type_and_place(view: View, obj: DataObject, seen: ObjectDetails) -> str:
    """The type of an object and where it is declared, or how many blocks a call site has; or nothing."""
    parts = [view.type_of(obj)]
    if isinstance(obj.key, BlocksKey):
        many = f" ({len(obj.block_ids):,} blocks)" if len(obj.block_ids) > 1 else ""
        return (f": {parts[0]}" if parts[0] else "") + many
    if seen.declared:
        parts.append(f"{os.path.basename(seen.declared[0])}:{seen.declared[1]}")
    found = ", ".join(filter(None, parts))
    return f": {found}" if found else ""


def same_words(view: View, pair: InstructionPair) -> str:
    """How often the two instructions of a pair used the same word; or nothing where the trace may not have the victim's last access."""
    if view.filtered is not None:
        return ""
    if not pair.same_word_times:
        return ", always different words"
    if pair.same_word_times == pair.times:
        return ", always the same word"
    return f", {pair.same_word_times:,} of them on the same word"


def conflict(view: View, pair: InstructionPair) -> str:
    """A pair of instructions that conflict on a line."""
    victim, invalidator = (view.naming.instruction_name(it) for it in pair[:2])
    times = counted(pair.times, "time")
    return (
        f"{invalidator} invalidates {victim}: {times}"
        f"{same_words(view, pair)}{BY[pair_kind(pair, view.effects)]}"
    )


def where(view: View, obj: DataObject) -> list[str]:
    """The instructions that conflict most on an object's worst line, with `--words` all, and the invalidations of the line by kind."""
    pairs = view.details(obj).conflicts()[: None if "words" in view.call.options else 1]
    rows = [conflict(view, it) for it in pairs]
    kinds = describe_kinds(view.invalidation_kinds(obj) or {})
    if rows and kinds:
        rows[0] += f"; in all {kinds}"
    return rows


def details(view: View, obj: DataObject) -> Iterator[tuple[str, str]]:
    """The rows below an object's, each with its label."""
    seen = view.details(obj)
    for text in where(view, obj):
        yield "where", text
    for label, text in (
        ("who", describe_owners(view, obj)),
        ("fix", seen.fix),
        ("tried", seen.tried),
    ):
        if text:
            yield label, text


class Table(NamedTuple):
    """The columns of the table: the widths of a row's rank and of each number, and whether misses are known."""

    rank: int
    widths: tuple[int, ...]
    has_misses: bool

    def head(self) -> str:
        names = ("false", "true", "inval", "lines") if self.has_misses else ("inval", "lines")
        cells = "".join(f"{it:>{width}}" for it, width in zip(names, self.widths))
        return f"{'':{self.rank}}{cells}  object"

    def cells(self, rank: object, numbers: Sequence[int]) -> str:
        cells = "".join(f"{it:>{width},}" for it, width in zip(numbers, self.widths))
        return f"{rank!s:>{self.rank}}{cells}  "


def numbers_of(view: View, obj: DataObject) -> list[int]:
    """The numbers of an object's row."""
    misses = [obj.useless, obj.useful] if view.misses else []
    return [*misses, view.invalidations(obj), len(obj.lines)]


def numbers_together(view: View, objects: Sequence[DataObject]) -> list[int]:
    """The numbers of a row that objects share."""
    return [sum(own) for own in zip(*(numbers_of(view, it) for it in objects))]


def table_of(view: View, rows: Sequence[DataObject]) -> Table:
    """The columns that have room for the numbers of some rows and of the library's."""
    found = [numbers_of(view, it) for it in rows]
    if view.folded_objects():
        found.append(numbers_together(view, view.folded_objects()))
    wide = [max(NUMBER, *(len(f"{it:,}") + 2 for it in own)) for own in zip(*found)]
    rank = len(str(len(rows)))
    # (the rank and the first number share eight columns, as long as these do)
    wide[0] = max(wide[0] - rank, *(len(f"{own[0]:,}") + 1 for own in found))
    return Table(rank, tuple(wide), view.misses is not None)


def row(
    view: View, place: int, obj: DataObject, paint: Paint, width: int, table: Table
) -> list[str]:
    """One object: its numbers and name, and below it where it is contended, who uses it, the fix, and what that was counted to save."""
    seen, short = view.details(obj), view.naming.names.shorten
    cells = table.cells(place, numbers_of(view, obj))
    name = short(view.label(obj) + type_and_place(view, obj, seen) + obj.note)
    first, *rest = fold(name, cells, " " * len(cells), max(width, len(cells) + MOST * LABEL))
    rows = [cells + paint(BOLD, first[len(cells) :]), *(paint(BOLD, it) for it in rest)]
    indent = table.rank + 2
    for label, text in details(view, obj):
        head = f"{'':{indent}}{label:<{LABEL}}"
        rows += fold(short(text.replace("`", "")), head, " " * len(head), width)
    return rows


def line_table(view: View, obj: DataObject, indent: str) -> Iterator[str]:
    """The worst line of an object: the offset and the field of each word, and the threads that write it and that only read it."""
    rows = worst_line_rows(view, obj)
    if len(rows) < 2 or not any(it.writers for it in rows):
        return
    short = view.naming.names.shorten
    shown = rows[:MAX_ROWS]
    fields = [plain(short(it.field)) for it in shown]
    fields = [it if len(it) <= MAX_FIELD else it[: MAX_FIELD - 2] + ".." for it in fields]
    wide = max(len("field"), *map(len, fields))
    writers = max(len("written by"), *(len(it.writers) for it in shown))
    yield f"{indent}{'offset':>6}  {'field':<{wide}}  {'written by':<{writers}}  only read by"
    for word, field in zip(shown, fields):
        text = f"{indent}{word.offset:>6}  {field:<{wide}}  {word.writers or '-':<{writers}}  {word.readers or '-'}"
        yield text.rstrip()
    if len(rows) > MAX_ROWS:
        yield f"{indent}{'':>6}  {len(rows) - MAX_ROWS} more (--words shows all)"


def words_table(view: View, obj: DataObject, paint: Paint, indent: str) -> Iterator[str]:
    """The words of an object's lines."""
    short, words = view.naming.names.shorten, [*wholes(view.details(obj).words)]
    if not words:
        return
    owners = {it: it.owner.removeprefix("several ") for it in words}
    wide = max(len("thread"), *map(len, owners.values()))
    alone = "" if view.word_misses is None else "    alone"
    yield paint(DIM, f"{indent}{'address':<10}    reads   writes{alone}  {'thread':<{wide}}  field")
    for word in words:
        needed = "" if word.useful is None else f"{word.useful:>9,}"
        other = (
            ""
            if word.key == obj.key
            else (
                f"  ({plain(short(view.objects_by_key[word.key].name)) if word.key in view.objects_by_key else 'another object'})"
            )
        )
        numbers = f"{word.reads:>9,}{word.writes:>9,}{needed}"
        name = plain(short(word.name))
        yield f"{indent}0x{word.addr:08x}{numbers}  {owners[word]:<{wide}}  {name}{other}"


def prediction(view: View, group: Sequence[PredictedLine]) -> str:
    """Some predicted lines of one kind, in a sentence."""
    first, bases = group[0], [f"0x{it.line.base:08x}" for it in group]
    names = [view.name_of(key) for key in first.keys]
    what = (
        ", ".join(names[:MOST]) + (f" and {len(names) - MOST} more" if len(names) > MOST else "")
    ) or "memory"
    size, at = first.line.size, listing(bases)
    how = (
        f"{size}-byte lines at {at}" if first.line.kind == "doubled" else f"lines starting at {at}"
    )
    if first.useless is None or view.misses is None:
        much = counted(sum(it.line.count for it in group), "invalidation")
    else:
        seen = observed_false_sharing([it.line for it in group], view.misses)
        much = f"{sum(it.useless or 0 for it in group):,} false-sharing misses instead of {seen:,}"
    objects = [view.objects_by_key[key] for key in first.keys if key in view.objects_by_key]
    is_cpp = any(map(ObjectFixes(view).is_cpp, objects))
    apart = f"; {attribute(size, is_cpp)} separates the threads' words"
    return f"{what}: with {how}, {much}" + (
        f" (not expected: {first.reason})" if first.reason else apart
    )


def predictions(view: View, paint: Paint, width: int) -> Iterator[str]:
    """The predicted lines that are shown, and how many aren't."""
    found, is_all = view.chosen_predictions(), "predicted" in view.call.options
    # (of a filtered trace only their misses are known)
    chosen = [
        line
        for line in found
        if line.is_shown or is_all and (line.useless is not None or not view.filtered)
    ]
    folded = len(found) - len(chosen)
    if chosen:
        yield ""
        by = " (found by the recorded accesses)" if view.filtered else ""
        yield paint(BOLD, f"predicted, if data were placed otherwise or lines were longer{by}:")
    for group in group_predicted_lines(chosen):
        yield from fold(view.naming.names.shorten(prediction(view, group)), "   ", "      ", width)
    if folded:
        reasons = "add no false sharing or can't occur with the data's alignment"
        if view.misses and any(it.reason == UNCOUNTED for it in found):
            reasons = f"weren't counted, {reasons}"
        text = (
            f"{counted(folded, 'predicted line')} not shown, as they {reasons} (--predicted shows"
            " all)"
        )
        yield from (paint(DIM, it) for it in fold(text, "", "  ", width))


def minors(view: View, rows: Sequence[DataObject]) -> str:
    """The objects that aren't worth a change, and their misses, or nothing."""
    if not rows:
        return ""
    names = [view.naming.names.shorten(view.label(it)) for it in rows]
    more = len(names) - MOST
    listed = ", ".join(names[:MOST]) + f" and {more} more" if more > 0 else ", ".join(names)
    much = sum(it.useless + it.useful for it in rows)
    together = " together" if len(rows) > 1 else ""
    return f"not worth a change: {listed} ({counted(much, 'miss')}{together})"


def screen(view: View, paint: Paint, width: int = WIDTH) -> Iterator[str]:
    """The whole screen, as lines."""
    yield from outcome(view, paint, width)
    listed, top = view.listed_objects(), view.call.number_option("top", TOP)
    rows = [it for it in listed if not view.is_minor(it)]
    for note in filter(None, (*view.notes, shared(view, rows))):
        yield from fold(f"note: {note}", "", "  ", width)
    name = view.call.options.get("object")
    if not view.chosen_objects():
        yield f"{plain(name)} is not contended" if name else "no line is contended"
    else:
        yield from table_rows(view, rows, top, paint, width)
    yield from fine_rows(view, len(rows[:top]), paint, width)
    rest = minors(view, [it for it in listed if view.is_minor(it)])
    if rest:
        yield ""
        yield from fold(rest, "", "  ", width)
    yield from predictions(view, paint, width)


def fine_rows(view: View, before: int, paint: Paint, width: int) -> Iterator[str]:
    """The objects that are contended only at a fine interleaving, with the numbers and fixes of that run."""
    found, fine = fine_objects(view)[:TOP], view.fine
    if not found or fine is None:
        return
    table = table_of(fine, found)
    yield ""
    yield paint(
        BOLD,
        f"only at fine interleaving (quantum {FINE_QUANTUM}), typical of queues and spinning:",
    )
    yield paint(DIM, table.head())
    for place, obj in enumerate(found, before + 1):
        yield from row(fine, place, obj, paint, width, table)


def table_rows(
    view: View, rows: Sequence[DataObject], top: int, paint: Paint, width: int
) -> Iterator[str]:
    """The table: its head, the first rows, that of the library's objects, and how many more there are."""
    shown = rows[:top]
    table = table_of(view, shown)
    yield ""
    yield paint(DIM, table.head())
    for place, obj in enumerate(shown, 1):
        yield from row(view, place, obj, paint, width, table)
        if place == 1 and "words" not in view.call.options:
            yield from (
                paint(DIM, text) for text in line_table(view, obj, " " * (table.rank + 2 + LABEL))
            )
        if "words" in view.call.options:
            yield from words_table(view, obj, paint, " " * (table.rank + 2 + LABEL))
    if view.folded_objects():
        numbers = numbers_together(view, view.folded_objects())
        yield table.cells("", numbers) + paint(
            DIM, row_of(view.folded_objects(), bool(view.runtime_keys))
        )
    if len(rows) > top:
        more = counted(len(rows) - top, "more object")
        yield paint(DIM, f"{more} (--top {len(rows)} shows all)")
