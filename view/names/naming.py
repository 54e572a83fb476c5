"""What objects, words and instructions are called: by the program's debug information where it is there, and else by the report."""

import itertools
import os
import re
from typing import TYPE_CHECKING, Callable, Iterable, NamedTuple, Sequence, Union

from view.model.object_keys import Key, BlocksKey, FileKey, MemoryKey, PlaceKey, StackKey, SymbolKey
from view.names.callers import Callers, CodeCall
from view.names.block_types import BlockTypes
from view.names.debug_entries import Die
from view.names.demangling import SymbolNames, short_name
from view.reading.reports import Block, Report, Site, Symbol
from view.names.source_lines import UNNAMED, SourceLine, Sources

if TYPE_CHECKING:
    # (which are read where a program is named alone: they want pyelftools)
    from view.names.fields import Program
    from view.names.native import NativeProgram
    from view.names.cpp import Landmarks
    from view.names.rust import NearPanics


class WordKind(NamedTuple):
    """Whether a word is of a known type, and whether several fields or elements lie in it."""

    is_typed: bool
    is_packed: bool


# An object of a report; none is memory without one.
Holder = Union[Symbol, Block, None]

# Functions of allocators: a block's name begins with the call of one, or of what calls it.
ALLOCATORS = {
    *(
        "malloc",
        "calloc",
        "realloc",
        "reallocarray",
        "aligned_alloc",
        "memalign",
        "posix_memalign",
        "valloc",
        "strdup",
        "strndup",
    ),
    *("predator_alloc", "mmap", "sbrk", "operator"),
    # (`new` of objects and arrays, for 32 and 64 bits, with an alignment, without exceptions)
    *(
        f"_Zn{what}{size}{alignment}{nothrow}"
        for what in "wa"
        for size in "jm"
        for alignment in ("", "St11align_val_t")
        for nothrow in ("", "RKSt9nothrow_t")
    ),
}
# The function of the kit that notes what each hart has for itself.
THREAD_LOCALS = "thread_locals"
# Where harts begin: callers that say nothing.
BEGINNINGS = {
    *(
        "_start",
        "start",
        "predator_start",
        "thread_entry",
        "hart_entry",
        "predator_thread",
        "begin_thread",
        "-",
    ),
    # (of programs of this machine)
    *(
        "__libc_start_call_main",
        "__libc_start_main",
        "start_thread",
        "clone",
        "clone3",
        "runtime.main",
        "runtime.goexit",
    ),
}
# The same by how their names begin: code of the C library without one, and of Rust.
BEGINNING_PREFIXES = (
    *("libc.so.", "ld-linux", "std::rt::lang_start"),
    *(
        "std::sys::backtrace::__rust_begin_short_backtrace",
        "std::sys_common::backtrace::__rust_begin_short",
    ),
)


# Where the headers of C++, the library of Rust and Go's atomic operations are: what is inlined from there says little.
LIBRARIES = re.compile(
    r"/include/c\+\+/|/lib/gcc/|/rustc/[0-9a-f]+/library/|(?:^|/)(?:sync|runtime/internal|internal/runtime)/atomic/[^/]*\.go$"
)
# The libraries of C and C++ that each program has, by how their files' names begin, and functions of Go's runtime.
LANGUAGE_LIBRARIES = (
    "libc.so.",
    "ld-linux",
    "libpthread.so.",
    "libm.so.",
    "libstdc++.so.",
    "libc++.so.",
    "libgcc_s.so.",
)
GO_RUNTIME = re.compile(r"(?:runtime|(?:runtime/)?internal/[\w/]+)\.")
# So many lines of the program are named that call a function of the kit.
MAX_CALLERS = 3
# Sources of the kit for guests.
KIT = re.compile(
    r"(?:^|/)guest/(?:(?:calls|library|pthread)\.c|start\.S|(?:pthread|clib|cxx)/[^/]*)$"
)
# What Rust's compiler puts behind a function's name.
RUST_HASH = re.compile(r"::h[0-9a-f]{16}$")
# Sources of the C library's allocator.
ALLOCATOR_SOURCES = re.compile(r"(?:^|/)malloc/(?:malloc|arena)\.c$")


class Memory:
    """What lies on a line where no object is: a hart's stack, or a page."""

    def __init__(self, stacks: tuple[int, int] | None = None, harts: int = 0) -> None:
        self.low, self.high = stacks or (0, 0)
        self.stack_bytes = (self.high - self.low) // harts if harts else 0

    def key(self, addr: int) -> PlaceKey:
        if self.stack_bytes and self.low <= addr < self.high:
            return StackKey("stack", (self.high - 1 - addr) // self.stack_bytes)
        return MemoryKey("memory", addr // 4096 * 4096)

    def owner(self, hart: int) -> str:
        """Whose a stack is that is put together by a hart."""
        return f"hart {hart}"

    def top(self, hart: int) -> int:
        return self.high - hart * self.stack_bytes

    def bytes_below_top(self, addr: int) -> int:
        """How far an address of a stack is below the top of that."""
        return (self.high - 1 - addr) % self.stack_bytes + 1


def is_array_of(kind: Die, symbol: Symbol) -> bool:
    """Whether a variable is several values of a type: a block that a compiler made a variable has the type of its elements."""
    from view.names.fields import size_of

    return symbol.name.endswith(".body") and 0 < 2 * size_of(kind) <= symbol.size


def address_text(addr: int) -> str:
    return f"{'-' if addr < 0 else ''}0x{abs(addr):08x}"


class Naming:
    """`program` and `sources` are none where no program is known; `types` has, for the place of a call site, the type of its blocks."""

    def __init__(
        self,
        report: Report | None,
        program: "Program | NativeProgram | None" = None,
        sources: Sources | None = None,
        types: Iterable[str] = (),
        memory: Memory | None = None,
    ) -> None:
        self.site_places, self.program, self.sources, self.memory = (
            report.site_places if report else {},
            program,
            sources,
            memory or Memory(),
        )
        # How many accesses the trace has: up to there lives a block that isn't freed.
        self.accesses = report.accesses if report else 0
        self.names = SymbolNames()
        self.cached_sites_keys: dict[tuple[Site, ...], tuple[str, ...]] = {}
        self.types = [it.partition("=")[::2] for it in types]
        self.blocks = BlockTypes(self)
        self.callers: Callers | None = None

    def learn_symbols(self, text: str) -> None:
        """Demangles the names of all symbols in a report at once."""
        self.names.learn_symbols(text)

    def find_lines(self, addresses: Iterable[int]) -> None:
        """Looks lines up for many addresses at once."""
        if self.sources:
            self.sources.find(addresses)

    def readable_name(self, name: str) -> str:
        """A symbol's name as its source has it."""
        return self.names.readable_name(name)

    def library_place(self, addr: int) -> str:
        """Of code without a name the library that it is in and the place there, or an empty text; reports of native programs have it."""
        from_file: Callable[[int], str] | None = getattr(self.program, "library_place", None)
        return from_file(addr) if from_file else ""

    def landmark(self, addr: int) -> "NearPanics | Landmarks | None":
        """The name of an instruction without a function and a line, by what its function refers to, or none; reports of native programs
        have it."""
        is_known = self.sources is not None and any(
            frame.function or frame.file for frame in self.sources.frames(addr)
        )
        from_file = None if is_known else getattr(self.program, "landmark", None)
        return from_file(addr) if from_file else None

    def function_name(self, site: Site) -> str:
        """The function of a call site, or where it has none its library."""
        if site.name != "-":
            return self.readable_name(site.name)
        return (
            (self.frame_function(site.addr) if self.site_line(site) else "")
            or self.library_place(site.addr)
            or site.name
        )

    def is_beginning(self, site: Site) -> bool:
        name = self.function_name(site)
        return site.name in BEGINNINGS and name in BEGINNINGS or name.startswith(BEGINNING_PREFIXES)

    def lasting_sites(self, sites: tuple[Site, ...]) -> tuple[str, ...]:
        """Call sites as another address of the same lines has them: a loop that was unrolled is one place."""
        if sites not in self.cached_sites_keys:
            self.cached_sites_keys[sites] = tuple(
                self.lasting_site(site) for site in self.sites_in_code(sites)
            )
        return self.cached_sites_keys[sites]

    def lasting_site(self, site: Site) -> str:
        frames = self.sources.frames(site.addr) if self.sources else []
        if any(it.file and it.line for it in frames):
            return "; ".join(f"{it.function} {it.file}:{it.line}" for it in frames)
        return self.site_places.get(site.addr) or address_text(site.addr)

    def site_line(self, site: Site) -> str:
        """The file and line of a call site as `arena.c:78`, or an empty text: those of the program itself, where a library is inlined.
        Native reports bring them."""
        place = self.own_place(site.addr)
        if place is not None and place.short():
            return place.short()
        if site.addr in self.site_places:
            return os.path.basename(self.site_places[site.addr])
        return ""

    def innermost_line(self, site: Site) -> str:
        """The line of the innermost function at a call site, or an empty text."""
        place = self.sources.place(site.addr) if self.sources else None
        return place.short() if place else ""

    def own_place(self, addr: int) -> SourceLine | None:
        """The line of the first function at an address that isn't of a language's own library, or none."""
        return next((it for it in self.own_frames(addr) if it.file and it.line), None)

    def source_function(self, site: Site) -> str:
        place = self.own_place(site.addr)
        if place and UNNAMED.search(place.function):
            return self.frame_name(place)
        return (
            self.names.remember(RUST_HASH.sub("", place.function))
            if place and place.function
            else self.function_name(site)
        )

    def own_frames(self, addr: int) -> list[SourceLine]:
        """The functions inlined at an instruction, the innermost first, from the first on that isn't of a language's own library."""
        frames = self.sources.frames(addr) if self.sources else []
        first = next(
            (
                at
                for at, frame in enumerate(frames)
                if frame.file and not LIBRARIES.search(frame.file) and not KIT.search(frame.file)
            ),
            0,
        )
        return frames[first:]

    def instruction_name(self, addr: int, by_callers: bool = True) -> str:
        """An instruction's line in the source and its function, or its address; of one in the kit the lines of the program that call that,
        if these are wanted and few."""
        sources, frames = self.sources, self.own_frames(addr)
        place = next((it for it in frames if it.file and it.line), None)
        # (what a language's library is between functions of the program says little)
        own = [it for it in frames if it.function and not LIBRARIES.search(it.file)]
        names = [self.frame_name(it) for it in own or [it for it in frames if it.function]]
        outside = self.program_callers(addr, frames) if by_callers else ""
        if outside:
            return outside
        near = sources.near(addr) if sources and place is None else None
        text = (
            place.short()
            if place
            else f"near {near.short()}"
            if near
            else self.library_place(addr) or f"0x{addr:08x}"
        )
        beside = self.landmark(addr) if not names else None
        return (
            f"{text} ({' < '.join(names[:2])})"
            if names
            else f"{text} ({beside.text()})"
            if beside
            else text
        )

    def program_callers(self, addr: int, frames: Sequence[SourceLine]) -> str:
        """Of an instruction of the kit the lines of the program that call its function, as far as they are few; or nothing."""
        from view.names.fields import Program

        files = [it.file for it in frames if it.file]
        if not isinstance(self.program, Program) or not files or not all(map(KIT.search, files)):
            return ""
        if self.callers is None:
            self.callers = Callers(self.program)
        calls = self.callers.outer_sites(addr, self.is_of_kit)
        named = [self.call_names(it) for it in calls]
        places, called, by = (
            (list(dict.fromkeys(own)) for own in zip(*named)) if named else [[]] * 3
        )
        if not 0 < len(places) <= MAX_CALLERS or "" in places:
            return ""
        return f"{' or '.join(places)} ({' or '.join(called)} < {' or '.join(by)})"

    def call_names(self, call: CodeCall) -> tuple[str, str, str]:
        """The line of a call, the function that it calls, and the one that calls it; the line is empty where none is known."""
        frame = next((it for it in self.own_frames(call.site) if it.short()), None)
        near = self.sources.near(call.site) if self.sources and frame is None else None
        place = frame.short() if frame else f"near {near.short()}" if near else ""
        caller = self.frame_name(frame) if frame else self.frame_function(call.site)
        return place, self.frame_function(call.target), caller

    def is_of_kit(self, addr: int) -> bool:
        """Whether an instruction is of the kit for guests alone, or of code without a line."""
        frames = self.sources.frames(addr) if self.sources else []
        return all(KIT.search(it.file) for it in frames if it.file)

    def frame_name(self, frame: SourceLine) -> str:
        """The function of a frame, a lambda or a closure by its place."""
        found = UNNAMED.search(frame.function)
        if found and frame.short():
            return f"{'closure' if 'closure' in found[0] else 'lambda'} at {frame.beginning()}"
        return self.readable_name(RUST_HASH.sub("", frame.function))

    def is_of_language(self, addr: int) -> bool:
        """Whether an instruction is of a library that each program of its language has, as far as its line was looked up."""
        frames = self.sources.frames(addr) if self.sources else []
        return (
            self.library_place(addr).startswith(LANGUAGE_LIBRARIES)
            or bool(frames)
            and bool(GO_RUNTIME.match(frames[-1].function))
        )

    def is_allocator(self, addr: int) -> bool:
        """Whether an instruction is of the C library's allocator."""
        return (
            any(ALLOCATOR_SOURCES.search(it.file) for it in self.sources.frames(addr))
            if self.sources
            else False
        )

    def frame_function(self, addr: int) -> str:
        """The function whose frame an instruction runs in, which isn't inlined, or an empty text."""
        frames = self.sources.frames(addr) if self.sources else []
        return self.readable_name(frames[-1].function) if frames and frames[-1].function else ""

    def sites_in_code(self, sites: Sequence[Site]) -> list[Site]:
        """The call sites up to the first that no file has: a stack can't be followed further through code without unwinding information."""
        is_native = hasattr(self.program, "library_place")
        if not is_native:
            return list(sites)
        return list(
            itertools.takewhile(
                lambda site: site.name != "-" or self.library_place(site.addr), sites
            )
        ) or list(sites[:1])

    def own_sites(self, sites: Sequence[Site]) -> list[Site]:
        """The sites of a block from the one that wants it on: without the allocator's own, those in headers of a language's library, and
        without where harts begin."""
        sites = self.sites_in_code(sites)
        own = [it for it in sites if it.name not in ALLOCATORS] or list(sites)
        own = list(itertools.dropwhile(self.is_in_headers, own)) or own
        return [it for it in own if not self.is_beginning(it)] or own[:1]

    def is_in_headers(self, site: Site) -> bool:
        """Whether all functions at a call site are of the kit, or of a language's library that the program was compiled with."""
        files = [it.file for it in self.sources.frames(site.addr)] if self.sources else []
        return bool(files) and all(LIBRARIES.search(it) or KIT.search(it) for it in files)

    def site_functions(self, sites: Sequence[Site]) -> list[str]:
        """The call sites by functions alone, which other builds of the program have too."""
        sites = self.sites_in_code(sites)
        own = [it for it in sites if it.name not in ALLOCATORS] or list(sites)
        return [
            self.names.lasting_name(site.name)
            for site in [it for it in own if it.name not in BEGINNINGS] or own[:1]
        ]

    def landmark_of_sites(self, chain: Sequence[Site]) -> tuple[int, str]:
        """Of a block's call sites the first whose function refers to something, if need be by what calls the last one; and what that is."""
        last = len(chain) - 1
        for at, site in enumerate(chain):
            near = None if self.site_line(site) or site.name != "-" else self.landmark(site.addr)
            if near and near.names_source() and (at == last or not near.is_called):
                return at, f" ({near.text()})"
        return 0, ""

    def is_identified(self, sites: Sequence[Site]) -> bool:
        """Whether a function, a line, or what stripped code refers to identifies any of a block's call sites."""
        chain = self.own_sites(sites) if sites else []
        return any(it.name != "-" or self.site_line(it) for it in chain) or bool(
            self.landmark_of_sites(chain)[1]
        )

    def block_name(self, sites: Sequence[Site]) -> str:
        if not sites:
            return "block without call sites"
        if sites[0].name == THREAD_LOCALS:
            return "thread-local variables"
        chain = self.own_sites(sites)
        at = self.site_line(chain[0])
        near, text = self.landmark_of_sites(chain)
        rest = [
            self.function_name(site) + (text if at == near else "")
            for at, site in enumerate(chain)
            if at > 0
        ]
        name = self.function_name(chain[0])
        first = at or ("an unknown function" if name == "-" else name)
        # (a line says more with its function, unless that is named next anyway)
        first += (
            f" ({self.source_function(chain[0])})"
            if at and not rest and chain[0].name != "main"
            else text
            if near == 0
            else ""
        )
        what = self.blocks.container(sites) or "block"
        return (f"{what} made at " if at else f"{what} made in ") + " < ".join(
            [first, *(rest or (["main"] if at and chain[0].name == "main" else []))]
        )

    def object_name(self, key: Key, example: Holder) -> str:
        """What an object is called."""
        if isinstance(key, SymbolKey):
            return self.readable_name(key.name)
        if isinstance(key, BlocksKey):
            return self.block_name(example.sites if isinstance(example, Block) else ())
        if isinstance(key, FileKey):
            return f"memory of {os.path.basename(key.path)}"
        return (
            f"stack of {self.memory.owner(key.hart)}"
            if isinstance(key, StackKey)
            else f"memory at {address_text(key.page)}"
        )

    def type_of_block(self, block: Block) -> Die | None:
        """The type of a block's elements, as the call says it or by the pointer that the source assigns it to; or none."""
        if self.program is None or not block.sites:
            return None
        known = self.names_of_site(block) if self.types else set()
        said = next((self.program.type_named(it) for site, it in self.types if site in known), None)
        if said is not None:
            return said
        found = self.blocks.inferred_type(block.sites)
        size = self.blocks.size_of_type(found)
        return found if 4 <= size <= block.size else None

    def names_of_site(self, block: Block) -> set[str]:
        """What a call may name the call site of a block by: its line, its function, also as the screen has it, or its address."""
        chain = self.own_sites(block.sites)
        names = {
            self.site_line(chain[0]),
            self.innermost_line(chain[0]),
            self.source_function(chain[0]),
            chain[0].name,
            self.function_name(chain[0]),
            address_text(chain[0].addr),
        }
        return {*names, *map(short_name, names)} - {""}

    def word_names(self, addr: int, obj: Holder) -> tuple[str, str, str]:
        """The name of a word of an object, the one of its element, and that of the field in it."""
        if obj is not None:
            name = self.readable_name(obj.name) if isinstance(obj, Symbol) else ""
            offset = addr - obj.addr
            return self.typed_names(obj, name, offset) or self.part_names(None, name, offset)
        key = self.memory.key(addr)
        below = (
            f", {self.memory.bytes_below_top(addr):,} bytes below its top"
            if isinstance(key, StackKey)
            else ""
        )
        return address_text(addr) + below, "", address_text(addr)

    def typed_names(
        self, obj: Symbol | Block, name: str, offset: int
    ) -> tuple[str, str, str] | None:
        """The same of an object whose type is known, or none."""
        if self.program is None:
            return None
        from view.names.fields import value_or_default

        return value_or_default(lambda: self.field_names(obj, name, offset), None)

    def typed_value(self, obj: Holder, addr: int) -> tuple[Die, int] | None:
        """The type of the value that a word lies in, and the word's place there, or none where that isn't known."""
        if self.program is None or obj is None:
            return None
        from view.names.fields import size_of

        if isinstance(obj, Symbol):
            variable = self.program.variable(obj.addr)
            if variable is None or variable.type is None:
                return None
            offset = addr - obj.addr
            if is_array_of(variable.type, obj):
                offset %= size_of(variable.type)
            return variable.type, offset

        element = (
            None if obj.sites and obj.sites[0].name == THREAD_LOCALS else self.type_of_block(obj)
        )
        return None if element is None else (element, (addr - obj.addr) % (size_of(element) or 1))

    def word_kind(self, addr: int, obj: Holder) -> WordKind:
        """What a word is: of a known type or not, and with several fields or elements or with one."""
        if self.program is None:
            return WordKind(False, False)
        from view.names.field_paths import has_several_fields
        from view.names.fields import value_or_default

        found = value_or_default(lambda: self.typed_value(obj, addr), None)
        if found is None:
            return WordKind(False, False)
        die, offset = found
        return WordKind(
            True,
            value_or_default(lambda: has_several_fields(die, 8 * offset, 8 * offset + 32), False),
        )

    def field_names(
        self, obj: Symbol | Block, name: str, offset: int
    ) -> tuple[str, str, str] | None:
        if self.program is None:
            return None
        if isinstance(obj, Symbol):
            variable = self.program.variable(obj.addr)
            if variable is None or variable.type is None:
                return None
            if is_array_of(variable.type, obj):
                return self.element_names(variable.type, name, offset, obj.size)
            return self.part_names(variable.type, name, offset)
        if obj.sites and obj.sites[0].name == THREAD_LOCALS:
            own = next(
                (it for it in self.program.thread_locals() if it[0] <= offset < it[0] + it[1]), None
            )
            return self.part_names(None, own[2], offset - own[0]) if own else None
        element = self.type_of_block(obj)
        return None if element is None else self.element_names(element, "", offset, obj.size)

    def part_names(self, kind: Die | None, name: str, offset: int) -> tuple[str, str, str]:
        if kind is None:
            return f"{name}{offset:+d}" if offset or not name else name, "", f"{offset:+d}"
        from view.names.field_paths import element_of, word_path
        from view.names.fields import size_of

        of = element_of(kind)
        if of is None or not size_of(of):
            whole = word_path(kind, name, offset)
            return whole, "", whole
        whole = word_path(kind, name, offset)
        return (
            whole,
            f"{name}[{offset // size_of(of)}]",
            word_path(of, "", offset % size_of(of)) or "itself",
        )

    def element_names(self, kind: Die, name: str, offset: int, size: int) -> tuple[str, str, str]:
        from view.names.field_paths import word_path
        from view.names.fields import size_of

        wide = size_of(kind) or 1
        field = word_path(kind, "", offset % wide)
        index = f"[{offset // wide}]" if size >= 2 * wide else ""
        return f"{name}{index}{field}" or "itself", index, field or "itself"
