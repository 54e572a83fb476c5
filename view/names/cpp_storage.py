"""What the libraries of C++ keep as bytes: the values in the control blocks of `shared_ptr`, in nodes of containers and in `optional`."""

import re
from typing import NamedTuple

from view.names.debug_entries import Die
from view.names.fields import (
    RECORDS,
    alignment_of,
    bare_type,
    die_name,
    member_place,
    size_of,
    type_of,
)

# A part of a record or an array: its name, its place and its size in bits, and its type.
Part = tuple[str, int, int, Die | None]
# The records that keep a value of their first argument as bytes or in a union, and the field that has it: of LLVM's library and of GNU's.
STORAGES = re.compile(
    r"(?:__shared_ptr_emplace|_Sp_counted_ptr_inplace|__aligned_buffer|__aligned_membuf|__optional_destruct_base)<"
)
# (pyelftools abbreviates the tag)
TYPE_ARGUMENTS = ("DW_TAG_template_type_param", "DW_TAG_template_type_parameter")
FIELDS = ("__storage_", "_M_impl", "_M_storage", "")


class StoredValue(NamedTuple):
    """A value that a record keeps as bytes: the field that has it, where the value lies in the record, in bytes, and its type; and the
    type of an allocator with fields, which lies before it where the field begins."""

    member: Die
    begin: int
    die: Die
    allocator: Die | None

    def values(self) -> list[tuple[int, Die]]:
        """Where the allocator begins and where the value does, in bytes, and their types."""
        own = [(self.begin, self.die)]
        if self.allocator is not None:
            own.insert(0, (member_place(self.member)[0] // 8, self.allocator))
        return own

    def parts(self) -> list[Part]:
        """The same as parts without a name, so that their own fields name them."""
        return [("", 8 * begin, 8 * size_of(die), die) for begin, die in self.values()]


def held_type(die: Die | None) -> Die | None:
    """The type of the value that a record keeps as bytes, or the record's own."""
    kind = bare_type(die)
    stored = stored_value(kind) if kind is not None else None
    return die if stored is None else stored.die


def arguments(die: Die) -> list[Die]:
    """The types that a template has as arguments."""
    own = (it for it in die.iter_children() if it.tag in TYPE_ARGUMENTS)
    return [kind for it in own if (kind := type_of(it)) is not None]


def is_empty(die: Die | None) -> bool:
    """Whether a record has no field, so that it takes no room beside a value."""
    kind = bare_type(die)
    if kind is None or kind.tag not in RECORDS:
        return False
    bases = (it for it in kind.iter_children() if it.tag == "DW_TAG_inheritance")
    has_fields = any(
        it.tag == "DW_TAG_member" and "DW_AT_external" not in it.attributes
        for it in kind.iter_children()
    )
    return not has_fields and all(is_empty(type_of(it)) for it in bases)


def stored_value(die: Die) -> StoredValue | None:
    """The value that a record keeps as bytes, or none. Before the value lies the allocator, where that has fields."""
    if not STORAGES.match(die_name(die)):
        return None
    types = arguments(die)
    member = next(
        (it for it in die.iter_children() if it.tag == "DW_TAG_member" and die_name(it) in FIELDS),
        None,
    )
    if member is None or not types or not size_of(types[0]):
        return None
    allocator = types[1] if len(types) > 1 and not is_empty(types[1]) else None
    begin, by = member_place(member)[0] // 8 + size_of(allocator), alignment_of(types[0])
    begin = -(-begin // by) * by
    room = size_of(die) - begin
    return StoredValue(member, begin, types[0], allocator) if size_of(types[0]) <= room else None
