"""The objects that may be laid out anew: where they lie, what they are made of, and whose their words are while threads run."""

import os
import re
from typing import Callable, Iterable, Iterator, Literal, NamedTuple, Sequence

from view.names.debug_entries import Die
from view.names.fields import (
    NAMES_FOR,
    POINTERS,
    Program,
    Variable,
    die_name,
    size_of,
    value_or_default,
    type_name,
    type_of,
    attribute_value,
)
from view.model.object_keys import Key, SymbolKey
from view.repairs.layouts import Member, Shape
from view.model.foreign_objects import is_foreign
from view.model.view import View
from view.names.naming import THREAD_LOCALS
from view.model.objects import DataObject, ObjectLine, object_key
from view.reading.reports import Block, Symbol
from view.reading.trace_files import STEADY, WordUses

# What isn't the user's to declare otherwise: headers of the system and of the kit for guests.
SYSTEM_HEADERS = re.compile(r"^/usr/(?:include|lib)/|(?:^|/)guest/(?:include/|predator\.h$)")
KEYWORDS = {
    "DW_TAG_structure_type": "struct",
    "DW_TAG_class_type": "class",
    "DW_TAG_union_type": "union",
}
# Objects of more bytes than this aren't looked at word by word.
MAX_SUBJECT_BYTES = 1 << 24
# So many objects beside one are laid out anew with it.
MAX_NEIGHBOURS, MAX_SEEN = 8, 64


class Declaration(NamedTuple):
    """Where something is declared."""

    file: str
    line: int


class Sharing(NamedTuple):
    """Whose some words are while threads run: one hart's own, only read, written by some harts and used by others, or unused."""

    kind: Literal["none", "own", "read", "shared"]
    harts: frozenset[int]


UNUSED = Sharing("none", frozenset())


def sharing_of(uses: WordUses, begin: int, size: int) -> Sharing:
    """Whose the words of a range are, taken together."""
    readers, writers, reads, writes = set(), set(), 0, 0
    for word in range(begin // 4 * 4, begin + size, 4):
        for hart, use in uses.users_of(word).items():
            readers.add(hart)
            reads, writes = reads + use.reads, writes + use.writes
            if use.writes:
                writers.add(hart)
    if not readers:
        return UNUSED
    if len(readers) == 1:
        return Sharing("own", frozenset(readers))
    if writes * STEADY < reads + writes:
        return Sharing("read", frozenset())
    return Sharing("shared", frozenset(writers))


class Subject:
    """An object: its name, the ranges that it lies in, and its type or none."""

    def __init__(
        self,
        obj: DataObject,
        name: str,
        ranges: Sequence[tuple[int, int]],
        shape: Shape | None,
        die: Die | None = None,
    ) -> None:
        self.obj, self.name, self.ranges, self.shape, self.die = (
            obj,
            name,
            list(ranges),
            shape,
            die,
        )
        self.neighbours: list[Subject] = []
        self.left_out: list[str] = []
        # (beside the object that is looked at; and blocks that the source takes for bytes)
        self.is_beside = self.is_bytes = False
        # (blocks that a library of C++ aligns as their type is)
        self.is_aligned_by_type = False
        # (what a thread is called)
        self.owner: Callable[[int], str] = lambda hart: f"hart {hart}"
        # (the names of structs that a call has given, each with what it is for)
        self.wrappers: dict[str, tuple[object, ...]] = {}

    def size(self) -> int:
        return sum(size for _, size in self.ranges)

    def words(self) -> Iterator[int]:
        for begin, size in self.ranges:
            yield from range(begin // 4 * 4, begin + size, 4)

    def is_blocks(self) -> bool:
        return not isinstance(self.obj.key, SymbolKey) or self.is_body()

    def is_patchable(self) -> bool:
        """Whether a change of its type's declaration is all that it takes."""
        return not self.is_blocks() or self.is_aligned_by_type

    def is_body(self) -> bool:
        """Whether it is a variable that a compiler has made of the one block that a pointer points to."""
        return isinstance(self.obj.key, SymbolKey) and self.name.endswith(".body")

    def site(self) -> str:
        """The source line that makes its blocks, or its name."""
        return self.name.partition(" made at ")[2].partition(" ")[0] or self.name

    def of_text(self) -> str:
        return f" made at {self.site()}" if self.is_beside else ""

    def path_name(self, path: str) -> str:
        """The name of a part of it: with the variable's name, or of blocks with that of their type."""
        part = path.removesuffix("[]")
        if not self.is_blocks() or self.is_body():
            return self.name.removesuffix(".body") + part
        held = self.shape.held() if self.shape else None
        name = record_name(held)[1] if held and held.record() else ""
        return name + part if name else part.lstrip(".") or f"the block made at {self.site()}"

    def wrapper_name(self, path: str) -> str:
        """A name for a struct around each element of an array in it, which nothing else has."""
        own = "" if self.is_blocks() and not self.is_body() else self.name.removesuffix(".body")
        parts = re.findall(r"[A-Za-z_]\w*", own + path)
        return self.new_name("_".join([*parts, "line"]) if parts else "own_line", path)

    def new_name(self, name: str, of: object) -> str:
        """A name that nothing else has, and that for one object is always the same."""
        key = (self.obj.key, of)
        for number in range(1, len(self.wrappers) + 2):
            found = name if number == 1 else f"{name}_{number}"
            if self.wrappers.setdefault(found, key) == key:
                return found
        return name

    def begins(self) -> list[int]:
        """Where the values of its type begin."""
        wide = self.shape.size() if self.shape else 0
        return (
            [
                at
                for begin, size in self.ranges
                for at in range(begin, begin + size - wide + 1, wide)
            ]
            if wide
            else []
        )


def declaration_place(die: Die) -> Declaration | None:
    """Where a type or a variable is declared, or none."""
    program: Program | None = getattr(getattr(die, "dwarfinfo", None), "program", None)
    if program is None:
        return None
    declaration = program.declaration
    found = value_or_default(lambda: declaration(Variable(die)), None)
    if not found:
        return None
    # (a file that was named from where the compiler ran)
    folder = attribute_value(die.cu.get_top_DIE(), "comp_dir", b"").decode("utf-8", "replace")
    return Declaration(os.path.normpath(os.path.join(folder, found[0])), found[1])


def user_declaration(die: Die) -> Declaration | None:
    """Where the program's own sources declare a type or a variable, or none."""
    found = declaration_place(die)
    return None if found is None or SYSTEM_HEADERS.search(found.file) else found


def record_name(shape: Shape) -> tuple[str, str]:
    """The keyword of a record and its name, which is its typedef's where it has none; of another type neither."""
    record, die = shape.record(), shape.die
    if record is None:
        return "", ""
    name = die_name(record)
    while not name and die is not None and die.tag in NAMES_FOR:
        name, die = die_name(die), type_of(die)
    return KEYWORDS[record.tag], name


QUALIFIERS = {
    "DW_TAG_const_type": "const",
    "DW_TAG_volatile_type": "volatile",
    "DW_TAG_atomic_type": "_Atomic",
}


def field_declaration(shape: Shape, name: str) -> str:
    """A field of a type, as it is declared, with its qualifiers."""
    die, words = shape.die, []
    while die is not None and die.tag in NAMES_FOR and die.tag != "DW_TAG_typedef":
        words.append(QUALIFIERS.get(die.tag, ""))
        die = type_of(die)
    dims, after = shape.dims(), ""
    if dims and die is not None and die.tag != "DW_TAG_typedef":
        die, after = type_of(die), "".join(f"[{it}]" for it in dims)
        while die is not None and die.tag in NAMES_FOR and die.tag != "DW_TAG_typedef":
            words.append(QUALIFIERS.get(die.tag, ""))
            die = type_of(die)
    front = "".join(f"{it} " for it in dict.fromkeys(words) if it)
    if die is not None and die.tag in POINTERS:
        # (what stands before a pointer's type qualifies what it points to)
        return f"{pointer_text(die)}{front}{name}{after}"
    return f"{front}{type_name(die)} {name}{after}"


def pointer_text(die: Die) -> str:
    """A pointer's type with the qualifiers of what it points to."""
    to, words = type_of(die), []
    while to is not None and to.tag in QUALIFIERS:
        words.append(QUALIFIERS[to.tag])
        to = type_of(to)
    inner = pointer_text(to).rstrip() if to is not None and to.tag in POINTERS else type_name(to)
    sign = "*" if die.tag == "DW_TAG_pointer_type" else "&"
    return f"{''.join(f'{it} ' for it in words)}{inner} {sign}"


def objects_by_line(view: View) -> Iterator[tuple[ObjectLine, dict[Key, Symbol | Block]]]:
    """The worst lines of the first objects, each with the variables and blocks on it by their keys."""
    for obj in view.objects[:MAX_SEEN]:
        for spot in obj.worst_lines():
            yield spot, {
                object_key(example, view.naming, spot.base): example
                for example in reversed(spot.objects())
            }


def symbol_subject(view: View, obj: DataObject, symbol: Symbol) -> Subject:
    program = view.naming.program
    variable = program.variable(symbol.addr) if program else None
    shape = Shape(variable.type) if variable is not None and variable.type is not None else None
    size = symbol.size or (shape.size() if shape else 0)
    if shape is not None and (not shape.size() or shape.size() > max(size, 4)):
        shape = None
    die = variable.dies[0] if variable is not None else None
    return Subject(
        obj, view.label(obj) if obj.name else symbol.name, [(symbol.addr, size)], shape, die
    )


def blocks_subject(
    view: View, obj: DataObject, example: Block, spots: Iterable[ObjectLine]
) -> Subject:
    ranges: set[tuple[int, int]] = set()
    for spot in spots:
        for block in spot.objects():
            if isinstance(block, Block) and object_key(block, view.naming, spot.base) == obj.key:
                ranges.add((block.addr, block.size))
    of = value_or_default(lambda: view.naming.type_of_block(example), None)
    shape = Shape(of) if of is not None and size_of(of) else None
    found = Subject(obj, view.label(obj), join_ranges(ranges), shape)
    # (a library that keeps a value as bytes allocates by the type, too)
    found.is_aligned_by_type = view.naming.blocks.is_aligned_by_type(example.sites) or (
        shape is not None and shape.held() != shape
    )
    found.is_bytes = shape is None and view.naming.blocks.is_byte_block(example)
    return found


def join_ranges(ranges: Iterable[tuple[int, int]]) -> list[tuple[int, int]]:
    """The ranges, those that meet as one: blocks of different sizes that lived at one place."""
    found: list[tuple[int, int]] = []
    for begin, size in sorted(ranges):
        if found and begin < sum(found[-1]):
            found[-1] = found[-1][0], max(sum(found[-1]), begin + size) - found[-1][0]
        else:
            found.append((begin, size))
    return found


def is_declarable(obj: DataObject, view: View) -> bool:
    """Whether an object is one of the program's own: a variable or blocks, and no thread's own memory."""
    example = obj.example
    return not is_foreign(obj, view.naming) and (
        isinstance(example, Symbol)
        or isinstance(example, Block)
        and not (example.sites and example.sites[0].name == THREAD_LOCALS)
    )


def make_subject(view: View, obj: DataObject, spots: Iterable[ObjectLine]) -> Subject | None:
    example = obj.example
    if example is None or not is_declarable(obj, view):
        return None
    found = (
        symbol_subject(view, obj, example)
        if isinstance(example, Symbol)
        else blocks_subject(view, obj, example, spots)
    )
    found.owner = view.naming.memory.owner
    return found if 0 < found.size() <= MAX_SUBJECT_BYTES else None


def subject_of(
    view: View, obj: DataObject, uses: WordUses, wrappers: dict[str, tuple[object, ...]]
) -> Subject | None:
    """An object as it may be laid out anew, with those beside it that are used most, or none: what lies on a stack, in no object or in a
    library is nothing that the program declares. `wrappers` are the names of structs that the call has given.
    """
    found = make_subject(view, obj, obj.lines)
    if found is None:
        return None
    found.wrappers = wrappers
    beside = [(own, used_much(own, uses)) for own in subjects_beside(view, obj)]
    used = sorted((it for it in beside if it[1]), key=lambda it: -it[1])
    for own, _ in used:
        own.wrappers = wrappers
    found.neighbours = [own for own, _ in used[:MAX_NEIGHBOURS]]
    found.left_out = [own.name for own, _ in used[MAX_NEIGHBOURS:]]
    return found


def subjects_beside(view: View, obj: DataObject) -> list[Subject]:
    """The objects that share lines with one, and those that share lines with these, as far as they can be declared otherwise."""
    found: dict[Key, Subject | None] = {obj.key: None}
    lines = list(objects_by_line(view))
    todo: list[Key] = [obj.key]
    while todo:
        key = todo.pop(0)
        for _, objects in (it for it in lines if key in it[1]):
            for other, example in objects.items():
                if other in found or len(found) >= MAX_SEEN:
                    continue
                own = view.objects_by_key.get(other) or DataObject(other, example)
                own.name = own.name or view.naming.object_name(other, example)
                found[other] = make_subject(view, own, [it for it, of in lines if other in of])
                if found[other] is not None:
                    todo.append(other)
    beside = [it for it in found.values() if it is not None]
    for subject in beside:
        subject.is_beside = True
    return beside


def used_much(subject: Subject, uses: WordUses) -> int:
    """How many accesses an object has while threads run."""
    return sum(use.accesses() for it in subject.words() for use in uses.users_of(it).values())


# A group of fields and whose they are.
Group = tuple[list[Member], str]


def field_patterns(
    members: Sequence[Member], begins: Sequence[int], uses: WordUses
) -> dict[str, tuple[Sharing, ...]]:
    """Whose each field is, in each of the records that begin at some places."""
    return {
        member.name: tuple(sharing_of(uses, at + member.begin, member.size) for at in begins)
        for member in members
    }
