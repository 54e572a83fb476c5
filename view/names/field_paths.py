"""The names of the fields and elements at each word of a value, by its type."""

import bisect
import functools
import os
import re
from typing import Iterable, Iterator, NamedTuple, Sequence

from view.names.cpp_storage import Part, is_empty, stored_value
from view.names.debug_entries import Die
from view.names.fields import (
    DEEPEST,
    RECORDS,
    RUST_LANGUAGE,
    bare_type,
    die_name,
    element_counts,
    language_of,
    member_place,
    size_of,
    type_of,
)

# What Rust's library and its compiler call atomic numbers and the fields of a tuple.
RUST_ATOMIC, TUPLE_FIELD = re.compile(r"Atomic(?:[A-Z]|<)"), re.compile(r"__\d+")
# So many fields of one word are named.
MOST = 8


class RecordParts(NamedTuple):
    """The parts of a record, and where each begins; `is_in_row` where none begins before the one before it ends."""

    parts: Sequence[Part]
    begins: Sequence[int]
    is_in_row: bool

    def between(self, low: int, high: int) -> list[Part]:
        """The parts that have bits from low up to high."""
        first, last = 0, len(self.parts)
        if self.is_in_row:
            first = max(bisect.bisect_right(self.begins, low) - 1, 0)
            last = bisect.bisect_left(self.begins, high)
        own = self.parts[first:last]
        return [it for it in own if it[1] < high and low < it[1] + it[2]]


@functools.lru_cache(1 << 12)
def parts_of(die: Die) -> RecordParts:
    parts = list(record_parts(die))
    ends = [start + size for _, start, size, _ in parts]
    begins = [it[1] for it in parts]
    return RecordParts(parts, begins, all(end <= it for end, it in zip(ends, begins[1:])))


def record_parts(die: Die) -> Iterator[Part]:
    """What a record is made of."""
    stored = stored_value(die)
    for child in die.iter_children():
        if (
            child.tag in ("DW_TAG_member", "DW_TAG_inheritance")
            and "DW_AT_external" not in child.attributes
        ):
            start, bits = member_place(child)
            if child.tag == "DW_TAG_inheritance" and is_empty(type_of(child)):
                continue
            own = die_name(child)
            # (Rust's compiler names the fields of a tuple so)
            own = own[2:] if TUPLE_FIELD.fullmatch(own) else own
            name = f".{own}" if own and child.tag == "DW_TAG_member" else ""
            if stored is not None and child == stored.member:
                yield from stored.parts()
                continue
            yield name, start, 8 * size_of(type_of(child)) if bits is None else bits, type_of(child)


def array_elements(die: Die, low: int, high: int) -> Iterator[Part]:
    """The elements of an array that have bits from low up to high, as parts."""
    element = type_of(die)
    wide, dims = 8 * size_of(element), list(element_counts(die))
    if not wide:
        return
    total = 1
    for count in dims:
        total *= count or 2**32
    for at in range(max(low // wide, 0), min((high + wide - 1) // wide, total, low // wide + MOST)):
        indices: list[int] = []
        left = at
        for count in reversed(dims[1:]):
            left, index = divmod(left, count or 1)
            indices.insert(0, index)
        yield "".join(f"[{it}]" for it in [left, *indices]), at * wide, wide, element


def is_rust_atomic(die: Die) -> bool:
    """Whether a type is an atomic number of Rust's library, in which a program knows no fields."""
    is_rust = language_of(die) == RUST_LANGUAGE
    return is_rust and die.tag in RECORDS and bool(RUST_ATOMIC.match(die_name(die)))


def field_paths(die: Die | None, low: int, high: int, depth: int = 0) -> list[str]:
    """The names of what lies in a value's bits from low up to high: fields, elements, each member of a union."""
    die = bare_type(die)
    if die is None or depth > DEEPEST:
        return [""]
    parts: Iterable[Part]
    if is_rust_atomic(die):
        return [""]
    if die.tag == "DW_TAG_array_type":
        parts = array_elements(die, low, high)
    elif die.tag in RECORDS:
        parts = parts_of(die).between(low, high)
    else:
        # (where an address has 8 bytes, a number of 8 bytes is accessed as a whole)
        is_whole = die.cu["address_size"] == 8 and size_of(die) == 8
        return [f"+{low // 8}" if low >= 32 and not is_whole else ""]
    found: list[str] = []
    for name, start, wide, of in parts:
        if start < high and low < start + wide and len(found) < MOST:
            inner = field_paths(of, max(low - start, 0), min(high - start, wide), depth + 1)
            found += [name + it for it in inner]
    return fold_names(found)[:MOST] or [f"+{low // 8}"]


def has_several_fields(die: Die | None, low: int, high: int, depth: int = 0) -> bool:
    """Whether several fields or elements lie side by side in a value's bits from low up to high. Members of a union lie in one place."""
    die = bare_type(die)
    if die is None or depth > DEEPEST or die.tag not in (*RECORDS, "DW_TAG_array_type"):
        return False
    is_array = die.tag == "DW_TAG_array_type"
    own = list(array_elements(die, low, high)) if is_array else parts_of(die).between(low, high)
    inner = [
        has_several_fields(of, max(low - start, 0), min(high - start, wide), depth + 1)
        for _, start, wide, of in own
    ]
    if die.tag == "DW_TAG_union_type":
        return bool(inner) and all(inner)
    return len(own) > 1 or any(inner)


def fold_names(names: list[str]) -> list[str]:
    """Names that differ in a last index alone become one: `[4].key`, `[5].key`, `[6].key` is `[4..6].key`."""
    parts = [found for it in names if (found := re.fullmatch(r"(.*)\[(\d+)\]([^\[]*)", it))]
    if len(names) > 1 and len(parts) == len(names) and len({(it[1], it[3]) for it in parts}) == 1:
        return [f"{parts[0][1]}[{parts[0][2]}..{parts[-1][2]}]{parts[0][3]}"]
    return names


def word_path(die: Die | None, name: str, offset: int) -> str:
    """The names of what lies in the word at an offset of a value."""
    found = field_paths(die, 8 * offset, 8 * offset + 32)
    front = os.path.commonprefix(found)
    front = front[: max(front.rfind("."), front.rfind("["), 0)]
    return name + ", ".join([found[0], *(it.removeprefix(front) for it in found[1:])])


def type_at_path(die: Die | None, path: str) -> Die | None:
    """The type of what a path as `.slots[2].low` names in a value, or none."""
    for name, _ in re.findall(r"\.(\w+)|\[(\d+)\]", path):
        die = bare_type(die)
        if die is not None and die.tag == "DW_TAG_array_type":
            die = type_of(die)
        elif die is not None and die.tag in RECORDS:
            die = next((of for own, _, _, of in record_parts(die) if own == f".{name}"), None)
    return die


def element_of(die: Die | None) -> Die | None:
    """The type of an array's elements, or none where it is no array."""
    die = bare_type(die)
    return type_of(die) if die is not None and die.tag == "DW_TAG_array_type" else None
