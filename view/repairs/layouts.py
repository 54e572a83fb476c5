"""Where the words of an object come to lie once its types are declared otherwise: as a compiler lays them out."""

from typing import Iterable, Iterator, NamedTuple, Sequence

from view.names.cpp_storage import StoredValue, held_type, is_empty, stored_value
from view.names.debug_entries import Die
from view.names.fields import (
    RECORDS,
    alignment_of,
    bare_type,
    declared_alignment,
    die_name,
    element_counts,
    member_place,
    size_of,
    type_name,
    type_of,
)

# So many ranges are moved at most, and so many bytes one by one.
MAX_MOVED_RANGES, MAX_MOVED_BYTES = 100_000, 1 << 16
# Addresses are below it.
ADDRESS_END = 1 << 32
# What the allocator of a value is called that a library keeps as bytes.
ALLOCATOR = "(allocator)"
# A structure of more fields is left in its order.
MAX_MEMBERS = 256
STRUCTS = ("DW_TAG_structure_type", "DW_TAG_class_type")


class Unmovable(Exception):
    """An object that can't be laid out anew by words."""


class Shape(NamedTuple):
    """A type, or what is left of an array's once its first dimensions are indexed."""

    die: Die | None
    skip: int = 0

    def dims(self) -> list[int]:
        kind = bare_type(self.die)
        return (
            [*element_counts(kind)][self.skip :]
            if kind is not None and kind.tag == "DW_TAG_array_type"
            else []
        )

    def element(self) -> "Shape":
        return (
            Shape(self.die, self.skip + 1)
            if len(self.dims()) > 1
            else Shape(type_of(bare_type(self.die)))
        )

    def size(self) -> int:
        dims = self.dims()
        if not dims:
            return size_of(self.die)
        size = size_of(type_of(bare_type(self.die)))
        for count in dims:
            size *= count
        return size

    def record(self) -> Die | None:
        """The record that it is, or none."""
        kind = bare_type(self.die)
        return kind if kind is not None and kind.tag in RECORDS else None

    def held(self) -> "Shape":
        """The value that a library of C++ keeps in it as bytes, or itself."""
        return Shape(held_type(self.die)) if self.die is not None and not self.skip else self


class Member(NamedTuple):
    """A field of a record: its place and size in bytes."""

    name: str
    begin: int
    size: int
    shape: Shape
    die: Die

    def path(self) -> str:
        """What it adds to a path: nothing if it has no name of its own."""
        return f".{self.name}" if self.name else ""

    def alignment(self) -> int:
        return max(declared_alignment(self.die), alignment_of(self.shape.die))


def is_wide(record: Die) -> bool:
    """Whether a structure has too many fields for other orders of them."""
    members = (it for it in record.iter_children() if it.tag == "DW_TAG_member")
    return any(at >= MAX_MEMBERS for at, _ in enumerate(members))


def record_members(record: Die) -> list[Member] | None:
    """The fields of a structure, or none where these can't be put in another order: bit fields, base classes, a union's, and too many."""
    found: list[Member] = []
    if record.tag not in STRUCTS or is_wide(record):
        return None
    stored = stored_value(record)
    if stored is not None:
        return storage_members(record, stored)
    for child in record.iter_children():
        if child.tag == "DW_TAG_inheritance":
            return None
        if child.tag == "DW_TAG_member" and "DW_AT_external" not in child.attributes:
            start, bits = member_place(child)
            if bits is not None or start % 8 or not die_name(child):
                return None
            found.append(
                Member(
                    die_name(child),
                    start // 8,
                    size_of(type_of(child)),
                    Shape(type_of(child)),
                    child,
                )
            )
    return found if all(it.size for it in found) else None


def storage_members(record: Die, stored: StoredValue) -> list[Member] | None:
    """The bases of a record that keeps a value as bytes, its allocator and the value; none where something else lies in it too."""
    found: list[Member] = []
    for child in record.iter_children():
        kind = type_of(child)
        if child.tag == "DW_TAG_inheritance" and not is_empty(kind):
            begin = member_place(child)[0] // 8
            found.append(
                Member(die_name(kind) if kind else "", begin, size_of(kind), Shape(kind), child)
            )
        elif child.tag == "DW_TAG_member" and child != stored.member:
            return None
    for begin, die in stored.values():
        name = "" if die is stored.die else ALLOCATOR
        found.append(Member(name, begin, size_of(die), Shape(die), stored.member))
    return found


def wide_records(shape: Shape, depth: int = 0) -> Iterator[str]:
    """The names of structures in a value that have too many fields."""
    record = shape.record()
    if depth > 4:
        return
    if shape.dims():
        yield from wide_records(shape.element(), depth + 1)
    elif record is not None and is_wide(record):
        yield type_name(shape.die)
    elif record is not None:
        for member in record_members(record) or []:
            yield from wide_records(member.shape, depth + 1)


class LayoutChange:
    """What is declared otherwise. A record is named by its place in the debug information, an array by the path to its elements, as
    `.slots[]`."""

    def __init__(self, line: int) -> None:
        self.line = line
        # Records that begin on a line and fill it.
        self.aligned_records: set[int] = set()
        # Of records their fields in a new order, each group of which begins on a line.
        self.grouped_fields: dict[int, list[list[Member]]] = {}
        # Arrays whose elements have a struct around each.
        self.wrapped_arrays: set[str] = set()


class MovedRange(NamedTuple):
    """Some bytes of a value, and where they come to lie in it."""

    begin: int
    size: int
    to: int


class NewLayout(NamedTuple):
    """A value as it is laid out anew."""

    size: int
    alignment: int
    parts: list[MovedRange]

    def is_as_before(self, size: int) -> bool:
        return self.size == size and all(it.begin == it.to for it in self.parts)


def round_up(number: int, by: int) -> int:
    return -(-number // by) * by


def lay_out(shape: Shape, change: LayoutChange, path: str = "") -> NewLayout:
    """A value of a type as the change lays it out."""
    if shape.dims():
        return lay_out_array(shape, change, path)
    record = shape.record()
    size, alignment = shape.size(), alignment_of(shape.die)
    whole = NewLayout(size, alignment, [MovedRange(0, size, 0)])
    if record is None:
        return whole
    members = record_members(record)
    found = lay_out_record(record, members, change, path) if members else whole
    if found.is_as_before(size):
        found = whole
    if record.offset in change.aligned_records or record.offset in change.grouped_fields:
        return NewLayout(
            round_up(found.size, change.line), max(found.alignment, change.line), found.parts
        )
    return found


def lay_out_record(
    record: Die, members: Sequence[Member], change: LayoutChange, path: str
) -> NewLayout:
    groups = change.grouped_fields.get(record.offset)
    own = [(it, lay_out(it.shape, change, path + it.path())) for it in members]
    by_name = {member.name: inner for member, inner in own}
    at, parts, most = 0, [], declared_alignment(record)
    for group in groups or [list(members)]:
        for first, member in enumerate(group):
            inner = by_name[member.name]
            alignment = max(
                member.alignment(), inner.alignment, change.line if groups and not first else 1
            )
            at, most = round_up(at, alignment), max(most, alignment)
            parts += [
                MovedRange(member.begin + part.begin, part.size, at + part.to)
                for part in inner.parts
            ]
            at += inner.size
    return NewLayout(round_up(at, most), most, parts)


def lay_out_array(shape: Shape, change: LayoutChange, path: str) -> NewLayout:
    element, count = shape.element(), shape.dims()[0]
    wide, inner = element.size(), lay_out(element, change, f"{path}[]")
    stride, alignment = (
        round_up(inner.size, inner.alignment) if inner.alignment else inner.size,
        inner.alignment,
    )
    if f"{path}[]" in change.wrapped_arrays:
        stride, alignment = round_up(stride, change.line), max(alignment, change.line)
    if stride == wide and inner.is_as_before(wide):
        return NewLayout(count * wide, alignment, [MovedRange(0, count * wide, 0)])
    if count * len(inner.parts) > MAX_MOVED_RANGES:
        raise Unmovable("it has too many elements")
    parts = [
        MovedRange(at * wide + part.begin, part.size, at * stride + part.to)
        for at in range(count)
        for part in inner.parts
    ]
    return NewLayout(count * stride, alignment, parts)


def to_whole_words(parts: Iterable[MovedRange]) -> list[MovedRange]:
    """The same in whole words, neighbours that stay so as one."""
    found: list[MovedRange] = []
    for begin, size, to in sorted(parts):
        if not size:
            continue
        low, high, by = begin // 4 * 4, round_up(begin + size, 4), to - begin
        if by % 4:
            raise Unmovable("fields would lie at other bytes of a word")
        last = found[-1] if found else None
        if last and last.to - last.begin == by and low <= last.begin + last.size:
            found[-1] = MovedRange(
                last.begin, max(high, last.begin + last.size) - last.begin, last.to
            )
        elif last and low < last.begin + last.size:
            raise Unmovable("several fields lie in one word")
        else:
            found.append(MovedRange(low, high - low, low + by))
    return found


def to_parts(parts: Iterable[MovedRange]) -> tuple[list[MovedRange], bool]:
    """The same in whole words where that can be, and else in bytes; with it whether it is in bytes."""
    own = [it for it in parts if it.size]
    try:
        return to_whole_words(own), False
    except Unmovable:
        if sum(it.size for it in own) > MAX_MOVED_BYTES:
            raise
        return sorted(own), True


class Array(NamedTuple):
    """An array in a value: the path to its elements, what these are, where each begins, and how many of them are one array's."""

    path: str
    shape: Shape
    begins: list[int]
    length: int


def arrays_in(shape: Shape, begins: list[int], path: str = "", depth: int = 0) -> Iterator[Array]:
    """The arrays of a value that lies at some places, the outermost first."""
    dims, record = shape.dims(), shape.record()
    if depth > 4:
        return
    if dims and dims[0] > 1:
        element = shape.element()
        wide = element.size()
        if not wide or len(begins) * dims[0] > MAX_MOVED_RANGES:
            return
        own = [it + at * wide for it in begins for at in range(dims[0])]
        yield Array(f"{path}[]", element, own, dims[0])
        yield from arrays_in(element, own, f"{path}[]", depth + 1)
    elif record is not None:
        for member in record_members(record) or []:
            yield from arrays_in(
                member.shape,
                [at + member.begin for at in begins],
                path + member.path(),
                depth + 1,
            )


class Record(NamedTuple):
    """A structure in a value: the path to it, its type and its fields, and where each of it begins."""

    path: str
    die: Die
    shape: Shape
    members: list[Member]
    begins: list[int]


def records_in(shape: Shape, begins: list[int], path: str = "", depth: int = 0) -> Iterator[Record]:
    """The structures of a value whose fields can be put in another order, the outermost first."""
    dims, record = shape.dims(), shape.record()
    if depth > 4:
        return
    if dims:
        element = shape.element()
        wide = element.size()
        if wide and len(begins) * dims[0] <= MAX_MOVED_RANGES:
            yield from records_in(
                element,
                [it + at * wide for it in begins for at in range(dims[0])],
                f"{path}[]",
                depth + 1,
            )
    elif record is not None:
        members = record_members(record)
        if members and len(members) > 1:
            yield Record(path, record, shape, members, begins)
        for member in members or []:
            yield from records_in(
                member.shape,
                [at + member.begin for at in begins],
                path + member.path(),
                depth + 1,
            )
