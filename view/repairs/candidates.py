"""The repairs of an object and of those beside it: several units declared otherwise together, and words in another order."""

import functools
import re
from typing import Callable, Iterator, Sequence

from view.names.fields import alignment_of
from view.repairs.advice import all_of, attribute
from view.repairs.layouts import (
    ADDRESS_END,
    Array,
    LayoutChange,
    MovedRange,
    Shape,
    Unmovable,
    arrays_in,
    lay_out,
    record_members,
    records_in,
    round_up,
    to_parts,
    to_whole_words,
)
from view.repairs.patches import Edit
from view.repairs.reassignment import Reassignment, is_used_by_others
from view.repairs.repair import Repair
from view.repairs.subjects import Sharing, Subject, field_declaration, sharing_of
from view.repairs.units import (
    Option,
    Unit,
    aligned_alloc_text,
    element_option,
    line_option,
    move_words,
)
from view.reading.trace_files import WordUses

# Which option of which unit.
Choice = tuple[tuple[int, int], ...]
# So many words may be laid out one by one: a table of `move` has a megabyte at most.
MAX_SINGLE_WORDS = 30_000
# So many elements of an array may belong to one of another.
MAX_SEVERAL = 64


def type_changes(options: Sequence[Option], line: int) -> LayoutChange:
    """What changes in types, wherever these are used. Two orders of the fields of one record exclude each other."""
    change = LayoutChange(line)
    for option in options:
        change.aligned_records |= option.change.aligned_records
        for record, groups in option.change.grouped_fields.items():
            if change.grouped_fields.setdefault(record, groups) != groups:
                raise Unmovable("two orders of one record")
    return change


def is_changed(subject: Subject, change: LayoutChange) -> bool:
    """Whether a change of types changes an object."""
    shape = subject.shape
    return shape is not None and not lay_out(shape, change).is_as_before(shape.size())


def combine_units(
    subjects: Sequence[Subject], units: Sequence[Unit], choice: Choice, line: int
) -> Repair:
    """Some options of units as one repair."""
    chosen = [(units[unit].subject, units[unit].options[option]) for unit, option in choice]
    types = type_changes([it for _, it in chosen], line)
    if any(option.kind == "line" and not of.is_blocks() for of, option in chosen):
        chosen = with_all_variables(subjects, chosen, types, line)
    parts: list[MovedRange] = []
    before = room = 0
    for subject in subjects:
        own = [option for of, option in chosen if of is subject]
        if not own and not is_changed(subject, types):
            continue
        change = LayoutChange(line)
        change.aligned_records, change.grouped_fields = types.aligned_records, types.grouped_fields
        for option in own:
            change.wrapped_arrays |= option.change.wrapped_arrays
        moved, size = move_words(subject, change)
        room = round_up(room, line)
        parts += [MovedRange(it.begin, it.size, it.to + room) for it in moved]
        before, room = before + subject.size(), room + size
    edits: list[Edit] | None = []
    for _, option in chosen:
        edits = None if edits is None or option.edits is None else [*edits, *option.edits]
    moved_parts, is_bytewise = to_parts(parts)
    return Repair(
        how_texts(chosen, line),
        moved_parts,
        room,
        edits,
        (before, round_up(room, 4)),
        is_bytewise=is_bytewise,
    )


def with_all_variables(
    subjects: Sequence[Subject],
    chosen: Sequence[tuple[Subject, Option]],
    types: LayoutChange,
    line: int,
) -> list[tuple[Subject, Option]]:
    """The same with each variable on its own line that isn't changed otherwise: a linker may put others behind one that is aligned."""
    inner = [it for it in chosen if it[1].kind != "line" or it[0].is_blocks()]
    changed = [of for of, _ in inner]
    plain = [
        subject
        for subject in subjects
        if not subject.is_blocks() and subject not in changed and not is_changed(subject, types)
    ]
    plain.sort(key=lambda it: it.ranges[0])
    return [*inner, *((it, line_option(it, line)) for it in plain)]


def how_texts(chosen: Sequence[tuple[Subject, Option]], line: int) -> list[str]:
    """What to do, the variables that get lines of their own in one sentence."""
    names = [it.how for of, it in chosen if it.kind == "line" and not of.is_blocks()]
    hows = [it.how for of, it in chosen if it.kind != "line" or of.is_blocks()]
    if names:
        several = len(names) > 1
        hows.append(
            f"give {all_of(names)} {'each its own line' if several else 'its own line'}:"
            f" `{attribute(line)}` after {'each name' if several else 'its name'}"
        )
    return list(dict.fromkeys(hows))


def words_of(subjects: Sequence[Subject], uses: WordUses) -> Iterator[tuple[int, Sharing]]:
    """The words of some objects that are used while threads run, each with whose it is."""
    seen: set[int] = set()
    for subject in subjects:
        for word in subject.words():
            own = sharing_of(uses, word, 4)
            if word not in seen and own.kind != "none":
                seen.add(word)
                yield word, own


def separate_words(
    subjects: Sequence[Subject],
    uses: WordUses,
    line: int,
    is_each: bool,
    region: int = ADDRESS_END,
) -> Repair | None:
    """The words of some objects apart by their threads: those of each thread and region together, those that are only read together, and
    the shared ones each alone or by their threads. None where they are too many."""
    groups: dict[object, list[int]] = {}
    count = 0
    for word, own in words_of(subjects, uses):
        users = tuple(sorted(uses.users_of(word)))
        key: object = own if own.kind != "shared" else (word if is_each else users)
        groups.setdefault((key, word // region), []).append(word)
        count += 1
        if count > MAX_SINGLE_WORDS:
            return None
    parts, to = [], 0
    for words in groups.values():
        parts += [MovedRange(word, 4, to + 4 * at) for at, word in enumerate(words)]
        to = round_up(to + 4 * len(words), line)
    return Repair([], to_whole_words(parts), to, None, (4 * count, to)) if parts else None


def arenas_repair(subject: Subject, uses: WordUses, line: int) -> Repair | None:
    """Each thread's words together, on lines of their own, of bytes from which an allocator cuts, of blocks that threads make for
    themselves, and of records whose fields can't be put in another order."""
    how, shape = "", subject.shape
    if is_cut(subject, uses):
        how = (
            f"give each thread its own arena, with start and size rounded up to multiples of {line}"
        )
    elif shape is not None and not subject.is_blocks():
        record = shape.record()
        if record is not None and record_members(record) is None:
            how = f"give each thread's words their own line: `{attribute(line)}`"
    harts = {min(own.harts) for _, own in words_of([subject], uses) if own.kind == "own"}
    found = separate_words([subject], uses, line, False) if how and len(harts) > 1 else None
    return found._replace(hows=[how]) if found else None


def is_cut(subject: Subject, uses: WordUses) -> bool:
    """Whether an arena for each thread is a repair of some memory."""
    shape = subject.shape
    if shape is not None:
        return bool(shape.dims()) and shape.element().size() < 4
    if not subject.is_blocks() or subject.is_bytes:
        return subject.is_bytes
    owners = [sharing_of(uses, begin, size) for begin, size in subject.ranges]
    return len(owners) > 1 and all(it.kind in ("own", "none") for it in owners)


def writer_of(begin: int, size: int, uses: WordUses) -> int | None:
    """The only thread that writes an element, or none."""
    users = (uses.users_of(it) for it in range(begin // 4 * 4, begin + size, 4))
    writers = {hart for own in users for hart, use in own.items() if use.writes}
    return min(writers) if len(writers) == 1 else None


def is_in_turns(harts: Sequence[int]) -> bool:
    """Whether threads have elements in turn."""
    changes = sum(one != other for one, other in zip(harts, harts[1:]))
    return changes >= len(set(harts)) > 1


def neighbouring_repair(subject: Subject, array: Array, uses: WordUses) -> Repair | None:
    """Neighbouring elements of an array to one thread: in each array the elements that threads write in the order of their threads."""
    wide = array.shape.size()
    if wide * len(array.begins) > 4 * MAX_SINGLE_WORDS:
        return None
    owners: dict[int, int] = {}
    places: dict[int, int] = {}
    for first in range(0, len(array.begins), array.length):
        owned = []
        for at in range(first, first + array.length):
            hart = writer_of(array.begins[at], wide, uses)
            if hart is None and sharing_of(uses, array.begins[at], wide).kind == "shared":
                return None
            if hart is not None:
                owned.append(at)
                owners[at] = hart
        if owned and not is_in_turns([owners[it] for it in owned]):
            return None
        places.update(zip(sorted(owned, key=lambda it: owners[it]), owned))
    if all(it == to for it, to in places.items()):
        return None
    parts = [MovedRange(array.begins[it], wide, array.begins[to]) for it, to in places.items()]
    how = f"assign neighbouring elements{elements_name(subject, array)} to one thread"
    size = subject.size()
    is_read = any(
        is_used_by_others(array.begins[it], wide, own, uses) for it, own in owners.items()
    )
    of = Reassignment(array.begins, wide, array.length, owners, places)
    return Repair(
        *([how], to_whole_words(parts), 0, None, (size, size)),
        is_in_place=True,
        reassignments=(of,) if is_read else (),
    )


def elements_name(subject: Subject, array: Array) -> str:
    if subject.is_blocks() and not array.path.removesuffix("[]"):
        return ""
    return f" of {subject.path_name(array.path).replace('[]', '[..]')}"


def transposed_repair(subject: Subject, uses: WordUses, line: int) -> Repair | None:
    """A matrix whose columns are threads', with the indices in the other order, from the beginning of a line on."""
    shape = subject.shape
    if subject.is_blocks() or shape is None or len(shape.dims()) != 2:
        return None
    (rows, columns), wide, begin = (
        shape.dims(),
        shape.element().element().size(),
        subject.ranges[0][0],
    )
    owners = [
        sharing_of(uses, begin + (row * columns + column) * wide, wide)
        for row in range(rows)
        for column in range(columns)
    ]
    if min(rows, columns) < 2 or rows * columns > MAX_SINGLE_WORDS or wide < 4:
        return None
    by_column = [
        {min(it.harts) for it in owners[column::columns] if it.kind == "own"}
        for column in range(columns)
    ]
    if any(len(it) > 1 for it in by_column) or len({min(it, default=-1) for it in by_column}) < 2:
        return None
    parts = [
        MovedRange(begin + (row * columns + column) * wide, wide, (column * rows + row) * wide)
        for row in range(rows)
        for column in range(columns)
    ]
    room = round_up(rows * columns * wide, line)
    how = (
        f"transpose {subject.name} to {subject.name}[{columns}][{rows}], with"
        f" `{attribute(line)}` after its dimensions, so that a thread's elements are neighbours"
    )
    return Repair([how], to_whole_words(parts), room, None, (subject.size(), room))


class Column:
    """An array that may become a field of another array's elements: its name, its element's type, and where each element begins. In each
    of those it has `several`, in turn or side by side."""

    def __init__(self, subject: Subject, path: str, shape: Shape, begins: list[int]) -> None:
        self.subject, self.path, self.shape, self.begins = subject, path, shape, begins
        self.several, self.is_in_turns = 1, False

    def divided(self, count: int, is_in_turns: bool) -> "Column":
        """The same as a field of fewer elements."""
        found = Column(self.subject, self.path, self.shape, self.begins)
        found.several, found.is_in_turns = len(self.begins) // count, is_in_turns
        return found

    def name(self) -> str:
        last = self.path.rpartition(".")[2].removesuffix("[]") or self.subject.path_name("")
        return re.sub(r"\W", "_", last)

    def full_name(self) -> str:
        return self.subject.path_name(self.path)

    def size(self) -> int:
        return self.shape.size() * self.several

    def field(self) -> str:
        """The field as it is declared."""
        dimension = f"[{self.several}]" if self.several > 1 else ""
        return f"{field_declaration(self.shape, self.name() + dimension)};"

    def place(self, element: int) -> tuple[int, int]:
        """In which element of the new array one of this lies, and as which one there."""
        count = len(self.begins) // self.several
        return (
            (element % count, element // count)
            if self.is_in_turns
            else (element // self.several, element % self.several)
        )

    def index_text(self) -> str:
        """How its elements are named then, where they are several in each new element."""
        name, by = self.name(), len(self.begins) // self.several
        if self.several == 1:
            return ""
        index = f"[i % {by}].{name}[i / {by}]" if self.is_in_turns else ""
        return f"{name}[i] as {index or f'[i / {self.several}].{name}[i % {self.several}]'}"


def used_arrays(subjects: Sequence[Subject], uses: WordUses) -> Iterator[Column]:
    """The arrays of some objects, each used and in one place alone."""
    for subject in subjects:
        if subject.shape is None or len(subject.ranges) != 1:
            continue
        begins = subject.begins()
        if len(begins) > 1:
            yield Column(subject, "", subject.shape, begins)
            continue
        for array in arrays_in(subject.shape, subject.begins()):
            wide = array.shape.size()
            is_used = sum(sharing_of(uses, it, wide).kind != "none" for it in array.begins) > 1
            if len(array.begins) == array.length and is_used:
                yield Column(subject, array.path, array.shape, array.begins)


def columns_of(subjects: Sequence[Subject], uses: WordUses) -> Iterator[list[Column]]:
    """The arrays that may be one array of a struct: those of one length, and with them those that have several elements for each."""
    by_count: dict[int, list[Column]] = {}
    for column in used_arrays(subjects, uses):
        by_count.setdefault(len(column.begins), []).append(column)
    for count, own in by_count.items():
        if len(own) > 1:
            yield own
        longer = [
            it
            for other, columns in by_count.items()
            if other % count == 0 and 1 < other // count <= MAX_SEVERAL
            for it in columns
        ]
        for is_in_turns in (True, False) if longer else ():
            yield [*own, *(it.divided(count, is_in_turns) for it in longer)]


def joined_arrays(columns: Sequence[Column], line: int) -> Repair:
    """Arrays as one array of a struct, each element of which has its own line."""
    columns = sorted(columns, key=lambda it: it.begins[0])
    offsets, at = [], 0
    for column in columns:
        at = round_up(at, alignment_of(column.shape.die))
        offsets.append(at)
        at += column.size()
    stride, count = round_up(at, line), len(columns[0].begins) // columns[0].several
    parts = []
    for column, offset in zip(columns, offsets):
        wide = column.shape.size()
        for element, begin in enumerate(column.begins):
            place, inner = column.place(element)
            parts.append(MovedRange(begin, wide, place * stride + offset + inner * wide))
    fields = " ".join(it.field() for it in columns)
    names = [it.full_name() for it in columns]
    indices = [text for it in columns if (text := it.index_text())]
    name = columns[0].subject.new_name(
        "_".join(dict.fromkeys(it.name() for it in columns)), (*names, *indices)
    )
    how = (
        f"join {all_of(names)} to one array of {count:,} elements of"
        f" `struct {attribute(line)} {name} {{ {fields} }};`"
        f"{f', with {all_of(indices)}' if indices else ''}"
        f"{next((aligned_alloc_text(it.subject, line) for it in columns if it.subject.is_blocks()), '')}"
    )
    before = sum(it.size() * count for it in columns)
    moved, is_bytewise = to_parts(parts)
    room = stride * count
    return Repair(
        *([how], moved, room, None, (before, room)),
        is_bytewise=is_bytewise,
        changes=len(columns),
    )


def other_repairs(
    subjects: Sequence[Subject], uses: WordUses, line: int
) -> Iterator[Callable[[], Repair | None]]:
    """The repairs that aren't made of units: of memory without a type, of the order of elements, and arrays as one."""
    first = subjects[0]
    yield lambda: arenas_repair(first, uses, line)
    yield lambda: transposed_repair(first, uses, line)
    yield from other_orders(first, uses)
    for columns in columns_of(subjects, uses):
        yield functools.partial(joined_arrays, columns, line)


def other_orders(subject: Subject, uses: WordUses) -> Iterator[Callable[[], Repair | None]]:
    """The repairs of the order of elements."""
    if subject.shape is not None:
        for array in arrays_in(subject.shape, subject.begins()):
            if array.shape.size() >= 4:
                yield functools.partial(neighbouring_repair, subject, array, uses)


def bytewise_fix(subject: Subject, uses: WordUses, line: int) -> str:
    """The fix where threads use different bytes of words, so that nothing can be tried by words."""
    mixed = {it for it in subject.words() if uses.is_mixed(it)}
    if subject.shape is not None:
        for array in arrays_in(subject.shape, subject.begins()):
            if array.shape.size() % 4 and any(it // 4 * 4 in mixed for it in array.begins):
                return element_option(subject, array, line).how.rpartition(", ")[0]
        for record in records_in(subject.shape, subject.begins()):
            own = [
                member.name
                for member in record.members
                if any((at + member.begin) // 4 * 4 in mixed for at in record.begins)
            ]
            if len(own) > 1:
                return f"put `{attribute(line)}` after each of {', '.join(own)}"
    return f"give each thread's bytes their own line with `{attribute(line)}`"
