"""What can be declared otherwise by itself in some objects: the elements of an array, the fields of a record, where an object begins."""

from typing import Callable, Iterator, Literal, NamedTuple, Sequence

from view.names.fields import RUST_LANGUAGE, is_cpp, language_of, type_name
from view.repairs.advice import attribute
from view.repairs.groupings import Pattern, field_groupings
from view.repairs.layouts import (
    Array,
    LayoutChange,
    Member,
    MovedRange,
    Record,
    Shape,
    arrays_in,
    lay_out,
    records_in,
    round_up,
)
from view.repairs.patches import AlignRecord, AlignVariable, Edit, OrderFields
from view.repairs.subjects import (
    Declaration,
    Sharing,
    Subject,
    field_declaration,
    field_patterns,
    record_name,
    sharing_of,
    user_declaration,
)
from view.reading.trace_files import WordUses


# How the names of Rust's library's types begin.
RUST_LIBRARIES = ("std::", "core::", "alloc::")
# Arrays of more elements smaller than a word aren't laid out anew.
MAX_SMALL_ELEMENTS = 1024


class Option(NamedTuple):
    """One way to declare a unit otherwise: what changes, as code, and as edits where declarations alone change."""

    kind: Literal["elements", "fields", "line"]
    how: str
    change: LayoutChange
    edits: list[Edit] | None


class Unit(NamedTuple):
    """A part of an object that can be declared otherwise, the option that separates most last."""

    subject: Subject
    options: list[Option]


def place_text(place: Declaration | None) -> str:
    return f" ({place.file.rpartition('/')[2]}:{place.line})" if place else ""


def move_words(subject: Subject, change: LayoutChange) -> tuple[list[MovedRange], int]:
    """Where the bytes of an object go under a change, one value behind the other, and how many bytes that takes."""
    parts: list[MovedRange] = []
    to = 0
    if subject.shape is None:
        for begin, size in subject.ranges:
            parts.append(MovedRange(begin, size, to))
            to = round_up(to + size, change.line)
        return parts, to
    found = lay_out(subject.shape, change)
    wide, own = subject.shape.size(), subject.is_blocks()
    is_wrapped = own and "" in change.wrapped_arrays
    for begin, size in subject.ranges:
        # (a block is an array of what it holds)
        for value in range(begin, begin + size - wide + 1, wide) if own else (begin,):
            parts += [MovedRange(value + it.begin, it.size, to + it.to) for it in found.parts]
            to = round_up(to + found.size, change.line if is_wrapped else found.alignment)
        to = round_up(to, change.line)
    return parts, to


def aligned_alloc_text(subject: Subject, line: int) -> str:
    """How blocks come to begin on a line. The libraries of C++ and Rust align what they allocate as its type is."""
    is_plain = subject.is_blocks() and (subject.is_body() or subject.name.startswith("block "))
    is_plain = is_plain and not subject.is_aligned_by_type
    is_plain = is_plain and not (subject.shape and is_rust(subject.shape))
    return f", allocated with `aligned_alloc({line}, ..)`" if is_plain else ""


def size_change_text(old: int, new: int, is_whole: bool) -> str:
    """The size of a type before and after."""
    text = f"{old:,} → {new:,} bytes" if old != new else f"{old:,} bytes as before"
    return text if is_whole else f"{text} each"


def is_rust(shape: Shape) -> bool:
    """Whether a type is one of Rust."""
    if shape.die is None:
        return False
    return language_of(shape.die) == RUST_LANGUAGE


def own_lines_code(shape: Shape, line: int, wrapper: str) -> str:
    """The code that gives each value of a type its own line: its own struct, or one around it where that isn't the program's."""
    record = shape.record()
    place = user_declaration(record) if record is not None else None
    if is_rust(shape):
        name = type_name(shape.die)
        is_own = record is not None and not name.startswith(RUST_LIBRARIES)
        own = f"struct {name.rpartition('::')[2]}" if is_own else f"struct OwnLine({name});"
        return f"{'' if is_own else 'wrap it in '}`#[repr(align({line}))] {own}`{place_text(place)}"
    if place:
        keyword, name = record_name(shape)
        return (
            f"`{keyword} {attribute(line)} {name.partition('<')[0]}".rstrip()
            + f"`{place_text(place)}"
        )
    return (
        f"wrap it in `struct {attribute(line)} {wrapper} {{"
        f" {field_declaration(shape, 'value')}; }};`"
    )


def element_option(subject: Subject, array: Array, line: int) -> Option:
    """Each element of an array on its own line."""
    change, held = LayoutChange(line), array.shape.held()
    record = held.record()
    how = own_lines_code(held, line, subject.wrapper_name(array.path))
    place = user_declaration(record) if record is not None else None
    edits: list[Edit] | None = None
    if record is not None and place:
        change.aligned_records.add(record.offset)
        if subject.is_patchable():
            edits = [AlignRecord(place, *record_name(held), line, is_cpp(record))]
    else:
        change.wrapped_arrays.add(array.path)
    wide = array.shape.size()
    new = round_up(lay_out(array.shape, change).size, line)
    sizes = size_change_text(wide, new, subject.size() == wide)
    return Option(
        "elements",
        f"give {elements_text(subject, array)} its own line: {how}"
        f"{aligned_alloc_text(subject, line)}, {sizes}",
        change,
        edits,
    )


def elements_text(subject: Subject, array: Array) -> str:
    if subject.is_blocks() and not array.path and not subject.is_body():
        is_one = len(subject.begins()) == len(subject.ranges)
        return f"each {'block' if is_one else 'element'}{subject.of_text()}"
    return f"each element of {subject.path_name(array.path).replace('[]', '[..]')}"


def sharing_text(own: Sequence[Sharing], owner: Callable[[int], str]) -> str:
    """Whose a group is, over all the records that it lies in; `owner` gives a thread's name."""
    known = [it for it in own if it.kind != "none"]
    if not known:
        return "unused"
    if all(it.kind == "read" for it in known):
        return "read-only"
    if any(it.kind == "shared" for it in known):
        writers = {hart for it in known for hart in it.harts}
        return f"written by {owner(min(writers))}" if len(writers) == 1 else "several threads"
    harts = {hart for it in known for hart in it.harts}
    return owner(min(harts)) if len(harts) == 1 else "one thread each"


def groups_text(
    subject: Subject, groups: Sequence[Sequence[Member]], found: dict[str, Pattern]
) -> str:
    """The fields of each group, and whose they are."""
    return "; ".join(
        f"{', '.join(it.name for it in own)}"
        f" ({sharing_text([one for it in own for one in found[it.name]], subject.owner)})"
        for own in groups
    )


def fields_option(
    subject: Subject,
    record: Record,
    groups: list[list[Member]],
    found: dict[str, Pattern],
    line: int,
) -> Option:
    """The fields of a record in groups, each of which begins on a line of its own."""
    change = LayoutChange(line)
    change.grouped_fields[record.die.offset] = groups
    keyword, name = record_name(record.shape)
    place = user_declaration(record.die)
    firsts = [f"`{own[0].name}`" for own in groups[1:]]
    after = (
        f"put `{attribute(line)}` after"
        f" {', '.join(firsts[:-1])}{' and ' if len(firsts) > 1 else ''}{firsts[-1]}"
    )
    what = f"`{keyword} {name}`" if name else f"the {keyword} of {subject.name}{record.path}"
    how = (
        f"group the fields of {what}{place_text(place)}, each group on its own lines:"
        f" {groups_text(subject, groups, found)}; {after}{aligned_alloc_text(subject, line)}"
    )
    old, new = record.shape.size(), lay_out(record.shape, change).size
    edits: list[Edit] | None = (
        [OrderFields(place, name, groups, line, is_cpp(record.die))]
        if place and subject.is_patchable()
        else None
    )
    return Option(
        "fields", f"{how}, {size_change_text(old, new, subject.size() == old)}", change, edits
    )


def line_option(subject: Subject, line: int) -> Option:
    """A variable, or each block of a call site, on lines of its own."""
    if subject.is_body():
        how = f"allocate {subject.path_name('')} on its own lines: `aligned_alloc({line}, ..)`"
        return Option("line", how, LayoutChange(line), None)
    if subject.is_aligned_by_type:
        which = (
            f"each block made at {subject.site()}" if subject.is_beside else "each of these blocks"
        )
        how = f"allocate {which} on its own lines: `new (std::align_val_t({line}))`, or an allocator that does"
        return Option("line", how, LayoutChange(line), None)
    if subject.is_blocks():
        how = (
            f"allocate each {'block made at ' + subject.site() if subject.is_beside else 'of these blocks'}"
            f" on its own lines: `aligned_alloc({line}, ..)` with sizes rounded up to multiples of"
            f" {line}"
        )
        return Option("line", how, LayoutChange(line), None)
    place = user_declaration(subject.die) if subject.die is not None else None
    edits: list[Edit] | None = (
        [AlignVariable(place, subject.name, line, is_cpp(subject.die))] if place else None
    )
    return Option("line", subject.name + place_text(place), LayoutChange(line), edits)


def is_declared(shape: Shape) -> bool:
    """Whether a type is a record that the program declares, or a library's that keeps one."""
    record = shape.held().record()
    return record is not None and user_declaration(record) is not None


def array_units(subject: Subject, shape: Shape, uses: WordUses, line: int) -> Iterator[Unit]:
    """The arrays of an object of which several elements are used, the outermost first."""
    begins = subject.begins()
    is_several = len(begins) > len(subject.ranges) or len(begins) > 1 and is_declared(shape)
    if subject.is_blocks() and is_several:
        array = Array("", shape, begins, len(begins))
        yield Unit(subject, [element_option(subject, array, line)])
    for array in arrays_in(shape, begins):
        if array.length > MAX_SMALL_ELEMENTS and array.shape.size() < 4:
            continue
        wide = array.shape.size()
        used = sum(sharing_of(uses, it, wide).kind != "none" for it in array.begins)
        if used > 1:
            yield Unit(subject, [element_option(subject, array, line)])


def units_of(subject: Subject, uses: WordUses, line: int) -> Iterator[Unit]:
    """All units of an object."""
    shape = subject.shape
    if shape is not None:
        yield from array_units(subject, shape, uses, line)
        for record in records_in(shape, subject.begins()):
            if user_declaration(record.die) is None:
                continue
            found = field_patterns(record.members, record.begins, uses)
            options = [
                fields_option(subject, record, way, found, line)
                for way in field_groupings(record.members, found)
            ]
            if options:
                yield Unit(subject, options)
    # (all variables get lines of their own together, and blocks that are aligned by their type by this)
    is_by_type = subject.is_aligned_by_type and shape is not None and is_declared(shape)
    if subject.is_blocks() and not is_by_type or not (subject.is_blocks() or subject.is_beside):
        yield Unit(subject, [line_option(subject, line)])
