"""What the source makes blocks for: the type of a call site's blocks, the container that a library makes there, and bytes."""

import functools
import itertools
import re
from typing import TYPE_CHECKING, Sequence

from view.reading.reports import Block, Site
from view.names.debug_entries import Die
from view.names.source_lines import SourceLine, rust_name

if TYPE_CHECKING:
    # (which are read where a program is named alone: they want pyelftools)
    from view.names.fields import Program
    from view.names.naming import Naming

# A type that a generic function stands for.
PLACEHOLDER = re.compile(r"[A-Z]\w?")
# A source in C++.
CPP_SOURCE = re.compile(r"\.(?:cc|cpp|cxx|c\+\+|C|hh|hpp|hxx|h\+\+|H)$")
# What a library makes for a program, and which of its functions allocate for a type, each up to its first argument.
CONTAINER = re.compile(
    r"(?:^|[:<\s])(vector|deque|list|map|set|unordered_map|unordered_set|make_unique|make_shared|Vec|Box|Arc)(?:::)?<"
)
ALLOCATOR_OF = re.compile(
    r"(?:new_allocator|allocator|make_unique|_MakeUniq|make_shared|RawVec|Vec|Box|Arc)(?:::)?<"
)


def first_argument(name: str, begin: int) -> str:
    """The first argument of a template, from behind its opening bracket on, or an empty text."""
    depth = 0
    for at in range(begin, len(name)):
        if depth == 0 and name[at] in ",>":
            return name[begin:at].strip()
        depth += (name[at] in "<([{") - (name[at] in ">)]}")
    return ""


def describe_aggregates(program: "Program", function: str) -> str:
    """The variables of a function that are arrays or records of the program, each with its type."""
    from view.names.allocated_types import local_variables
    from view.names.fields import RECORDS, bare_type, die_name, type_name, type_of

    program.scan_variables()
    found: list[str] = []
    for die in program.functions.get(function, []):
        for variable in local_variables(die):
            kind = bare_type(type_of(variable))
            of = bare_type(type_of(kind)) if kind is not None and "array" in kind.tag else kind
            if of is not None and of.tag in RECORDS and die_name(variable):
                found.append(f"{die_name(variable)} ({type_name(type_of(variable))})")
    names = list(dict.fromkeys(found))
    return f"{' or '.join(names)} of {function}" if 0 < len(names) < 4 else ""


class BlockTypes:
    """The types of blocks, by the program and the sources that a naming has."""

    def __init__(self, naming: "Naming") -> None:
        self.naming = naming
        self.inferred: dict[tuple[Site, ...], Die | None] = {}

    def is_byte_block(self, block: Block) -> bool:
        """Whether the source takes a block for bytes, from which it may cut pieces."""
        if not block.sites:
            return False
        if self.inferred_type(block.sites) is not None:
            return self.size_of_type(self.inferred_type(block.sites)) == 1
        return self.is_address_kept(block.sites)

    def is_address_kept(self, sites: tuple[Site, ...]) -> bool:
        """Whether the source keeps the address of the blocks of a call site as a number."""
        from view.names.allocated_types import AllocatedTypes
        from view.names.fields import Program

        program = getattr(self.naming.program, "main", self.naming.program)
        frame = self.naming.own_place(self.naming.own_sites(sites)[0].addr)
        if self.naming.sources is None or frame is None or not isinstance(program, Program):
            return False
        return AllocatedTypes(program, self.naming.sources.text).is_number_at(frame)

    def size_of_type(self, die: Die | None) -> int:
        if die is None:
            return 0
        from view.names.fields import size_of

        return size_of(die)

    def inferred_type(self, sites: tuple[Site, ...]) -> Die | None:
        """The type to which a pointer points that the source assigns the blocks of a call site to, or none."""
        if sites not in self.inferred:
            from view.names.fields import value_or_default

            self.inferred[sites] = value_or_default(lambda: self.infer_type(sites), None)
        return self.inferred[sites]

    def stack_variables(self, function: str) -> str:
        """The arrays and records among a function's variables, with their types, or an empty text."""
        from view.names.fields import Program, value_or_default

        program = getattr(self.naming.program, "main", self.naming.program)
        if not isinstance(program, Program) or program.dwarf is None:
            return ""
        return value_or_default(functools.partial(describe_aggregates, program, function), "")

    def infer_type(self, sites: tuple[Site, ...]) -> Die | None:
        from view.names.allocated_types import AllocatedTypes
        from view.names.fields import Program

        program = getattr(self.naming.program, "main", self.naming.program)
        if self.naming.sources is None or not isinstance(program, Program) or program.dwarf is None:
            return None
        site = self.naming.own_sites(sites)[0]
        for library_frame in self.library_frames(sites):
            function = rust_name(library_frame.function)
            found = ALLOCATOR_OF.search(function)
            name = first_argument(function, found.end()) if found else ""
            if name and not PLACEHOLDER.fullmatch(name):
                return program.type_like(name)
        frame = self.naming.own_place(site.addr)
        return AllocatedTypes(program, self.naming.sources.text).type_at(frame) if frame else None

    def library_frames(self, sites: Sequence[Site]) -> list[SourceLine]:
        """The frames of a language's library between an allocator and the program, the innermost first."""
        sources, first = self.naming.sources, self.naming.own_sites(sites)[0]
        if sources is None:
            return []
        inner = itertools.takewhile(lambda site: site != first, sites)
        found = [
            frame
            for site in inner
            if self.naming.is_in_headers(site)
            for frame in sources.frames(site.addr)
        ]
        frames = sources.frames(first.addr)
        return [*found, *frames[: len(frames) - len(self.naming.own_frames(first.addr))]]

    def container(self, sites: Sequence[Site]) -> str:
        """What a library makes for a call of the program, as `vector<Worker>`, or an empty text."""
        for frame in reversed(self.library_frames(sites)):
            function = rust_name(frame.function)
            found = CONTAINER.search(function)
            if found:
                first = first_argument(function, found.end())
                if PLACEHOLDER.fullmatch(first):
                    first = self.held_by(found[1], sites)
                return f"{found[1]}<{self.naming.names.remember(first)}>" if first else ""
        return ""

    def is_aligned_by_type(self, sites: Sequence[Site]) -> bool:
        """Whether a library of C++ aligns the blocks of a call site as their type is: those of a container, and of `new`."""
        from view.names.allocated_types import NEW

        frame = self.naming.own_place(self.naming.own_sites(sites)[0].addr) if sites else None
        if frame is None or self.naming.sources is None or not CPP_SOURCE.search(frame.file):
            return False
        lines = self.naming.sources.text(frame.file)[max(frame.line - 1, 0) : frame.line]
        return bool(self.container(sites)) or any(NEW.search(it) for it in lines)

    def held_by(self, container: str, sites: Sequence[Site]) -> str:
        """The name of the type that a container of Rust's holds, by that of the variable that the program assigns it to, or `_`."""
        from view.names.fields import type_name

        kind = self.inferred_type(tuple(sites))
        return type_name(kind) if kind is not None and container in ("Vec", "Box") else "_"
