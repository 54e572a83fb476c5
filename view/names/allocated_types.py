"""The type of a block of the heap: of the pointer that the source assigns it to, by the debug information."""

import re
from typing import Callable, Iterator, Sequence

from view.names.debug_entries import Die
from view.names.field_paths import record_parts
from view.names.fields import (
    POINTERS,
    RECORDS,
    Program,
    attribute_value,
    bare_type,
    die_name,
    size_of,
    type_name,
    type_of,
)
from view.names.source_lines import SourceLine

# What a source assigns a new block to, and what it wants one for.
ASSIGNED = re.compile(
    r"([A-Za-z_]\w*(?:\s*(?:\[[^\]]*\]|->\s*\w+|\.\s*\w+))*)\s*=\s*(?:\([^()]*\*\s*\)\s*)?"
    r"(?:\w*alloc\w*|\w*memalign)\s*\("
)
# A block whose address the source keeps as a number is one of bytes.
ADDRESS = re.compile(r"=\s*\(u?intptr_t\)\s*(?:\w*alloc\w*|\w*memalign)\s*\(")
NEW = re.compile(r"\bnew\s+(?:\([^)]*\)\s*)?((?:struct\s+)?[A-Za-z_][\w:]*)")
SIZEOF = re.compile(r"\w*alloc\w*\s*\(.*\bsizeof\s*\(\s*((?:struct\s+|union\s+)?[A-Za-z_]\w*)\s*\)")
STEP = re.compile(r"\[[^\]]*\]|->\s*\w+|\.\s*\w+")
FUNCTION = re.compile(r"(~?\w+)\s*(?:\(|$)")
# What a container of C++ or Rust holds, and what Rust's compiler puts behind a function's name.
CONTAINED = re.compile(
    r"\b(?:Vec|VecDeque|Box|Rc|Arc|vector|deque|unique_ptr|shared_ptr)<(?=([\w:]+))"
)
RUST_HASH = re.compile(r"::h[0-9a-f]{16}$")
# A call may begin so many lines above the one that debug information has for it.
LINES_ABOVE = 2


def local_variables(function: Die) -> Iterator[Die]:
    """The variables and parameters of a function, those of its blocks too."""
    for child in function.iter_children():
        if child.tag in ("DW_TAG_variable", "DW_TAG_formal_parameter"):
            yield child
        elif child.tag == "DW_TAG_lexical_block":
            yield from local_variables(child)


def pointee(die: Die | None) -> Die | None:
    """What a pointer points to, or none where a type is none."""
    kind = bare_type(die)
    return type_of(kind) if kind is not None and kind.tag in POINTERS else None


def member_type(die: Die | None, name: str) -> Die | None:
    """The type of a record's field, or none."""
    kind = bare_type(die)
    if kind is None or kind.tag not in RECORDS:
        return None
    return next((of for own, _, _, of in record_parts(kind) if own == f".{name}"), None)


def follow(die: Die | None, steps: Sequence[str]) -> Die | None:
    """The type of what `->next`, `.field` and `[at]` lead to from a value, or none."""
    for step in steps:
        if step.startswith("["):
            kind = bare_type(die)
            is_array = kind is not None and kind.tag == "DW_TAG_array_type"
            die = type_of(kind) if is_array else pointee(die)
        elif step.startswith("->"):
            die = member_type(pointee(die), step[2:].strip())
        else:
            die = member_type(die, step[1:].strip())
        if die is None:
            return None
    return die


def function_name(frame: SourceLine) -> str:
    """The plain name of a frame's function."""
    found = FUNCTION.search(re.sub(r"<[^<>]*>", "", RUST_HASH.sub("", frame.function)))
    return found[1] if found else ""


class AllocatedTypes:
    """The types of the blocks of call sites; `text` gives the lines of a source, as far as these are there."""

    def __init__(self, program: Program, text: Callable[[str], Sequence[str]]) -> None:
        self.program, self.text = program, text

    def type_at(self, frame: SourceLine) -> Die | None:
        """The type of what a line allocates, or none where that isn't known or is `void`."""
        self.program.scan_variables()
        lines = self.text(frame.file)
        for above in range(LINES_ABOVE + 1):
            part = " ".join(lines[max(frame.line - 1 - above, 0) : frame.line])
            found = self.type_in(part, frame)
            if found is not None:
                return found
        return self.contained_at(frame) or (self.declared_at(frame) if not lines else None)

    def contained_at(self, frame: SourceLine) -> Die | None:
        """The type of what a container holds that a line declares, or none."""
        for function in self.program.functions.get(function_name(frame), []):
            for variable in local_variables(function):
                if attribute_value(variable, "decl_line") == frame.line:
                    held = CONTAINED.findall(type_name(type_of(variable)))
                    found = self.program.type_like(held[-1]) if held else None
                    if found is not None:
                        return found
        return None

    def is_number_at(self, frame: SourceLine) -> bool:
        """Whether a line keeps the address of what it allocates as a number."""
        lines = self.text(frame.file)
        return 0 < frame.line <= len(lines) and bool(ADDRESS.search(lines[frame.line - 1]))

    def type_in(self, text: str, frame: SourceLine) -> Die | None:
        for match in ASSIGNED.finditer(text):
            root = re.match(r"\w+", match[1])
            steps = [it.strip() for it in STEP.findall(match[1])]
            for variable in self.variables(root[0] if root else "", frame):
                found = pointee(follow(type_of(variable), steps))
                if found is not None and size_of(found):
                    return found
        for pattern in (NEW, SIZEOF):
            named = pattern.search(text)
            if named:
                return self.named(named[1])
        return None

    def named(self, name: str) -> Die | None:
        plain = re.sub(r"^(?:struct|union)\s+", "", name).rpartition("::")[2]
        return next(iter(self.program.types.get(plain, [])), None)

    def variables(self, name: str, frame: SourceLine) -> Iterator[Die]:
        """The variables of a name, those of the frame's function first."""
        for function in self.program.functions.get(function_name(frame), []):
            yield from (it for it in local_variables(function) if die_name(it) == name)
        yield from self.program.named_variables.get(name, [])

    def declared_at(self, frame: SourceLine) -> Die | None:
        """The type to which the one pointer points that a line of a function declares."""
        for function in self.program.functions.get(function_name(frame), []):
            own = [
                found
                for variable in local_variables(function)
                if attribute_value(variable, "decl_line") == frame.line
                and (found := pointee(type_of(variable))) is not None
            ]
            if len(own) == 1 and size_of(own[0]):
                return own[0]
        return None
