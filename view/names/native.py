"""The names of a program of this machine: by the address map that native/ writes with a trace. Each address of the trace is one of the
program or of a library that it loaded, and their debug information says the rest. docs/FORMATS.md has the table."""

import contextlib
import functools
import os
import re
import struct
from typing import Iterable, Iterator, NamedTuple

from view.faults import Fault
from view.names.debug_entries import Die
from view.names.fields import Program, Variable, choose_type, last_name, value_or_default
from view.names.go import Table, find_table
from view.names.x86_image import Image
from view.model.object_keys import FileKey, MemoryKey, PlaceKey, StackKey
from view.names.cpp import LandmarkFinder, Landmarks
from view.names.demangling import demangle
from view.names.naming import Memory
from view.names.rust import NearPanics, Panics
from view.reading.reports import Block, Report, Symbol, name_bytes
from view.reading.reports import Site as CallSite
from view.names.control_flow import instructions_before
from view.names.source_lines import SourceLine, Sources, parse_frames
from view.names.symbolizer import symbolize

from elftools.elf.elffile import ELFFile
from elftools.elf.sections import SymbolTableSection

PAGE, LINE = 4096, 64
# Where Debian's packages of debug information put it.
DEBUG = "/usr/lib/debug/.build-id"
# The type of a symbol of data (STT_OBJECT), in the low bits of its `st_info`.
DATA_SYMBOL = 1

# What follows `site` and `frame` in an address map; a file's name may have blanks.
SITE, FRAME = re.compile(r"(0x\S+) (0x\S+) (\S+) (-|.*?:\d+) .*"), re.compile(
    r"(0x\S+) (-|.*?:\d+) (.*)"
)


class Site(NamedTuple):
    """A call site as the recorder wrote it: its function and its line as `FILE:LINE`, each empty where it isn't known."""

    function: str
    line: str


def plain_name(name: str) -> str:
    """A name of a report without the version of its library."""
    return name_bytes(name).decode("utf-8", "surrogateescape").partition("@")[0]


def known_word(word: str) -> str:
    return "" if word == "-" else word


def match_groups(pattern: re.Pattern[str], text: str) -> tuple[str, ...]:
    """The groups of a pattern that a whole text matches; another one is an error."""
    found = pattern.fullmatch(text)
    if found is None:
        raise ValueError(text)
    return found.groups()


class AddressMap:
    """What an address of the trace was in the program, which `predator native` writes beside the trace."""

    def __init__(self, path: str) -> None:
        self.path, self.program = path, ""
        # Where pages of the trace and instructions, each by its number, were.
        self.pages: dict[int, int] = {}
        self.native_pcs: dict[int, int] = {}
        self.maps: list[tuple[int, str]] = []
        # Where stacks and mapped files were, each from and to an address, and whose or which it was.
        self.stacks: list[tuple[int, int, int]] = []
        self.mapped_files: list[tuple[int, int, str]] = []
        self.sites: dict[int, list[Site]] = {}
        self.frames: dict[int, list[Site]] = {}
        # Behind so many accesses recording began or went on, where only parts of the run were recorded.
        self.resumes: list[int] = []
        # How many accesses the trace has, and why it ends; none where the recorder was killed.
        self.end: tuple[int, str] | None = None
        try:
            with open(path, encoding="utf-8", errors="surrogateescape") as file:
                for row in file:
                    self.add_row(row.rstrip("\n"))
        except OSError as error:
            raise Fault(f"{path}: {error.strerror}") from error
        except (ValueError, IndexError, AttributeError) as error:
            raise Fault(
                f"{path} isn't an address map, which `predator native` writes beside its trace"
            ) from error
        if not self.program:
            raise Fault(f"{path} isn't an address map: its first line names no program")

    def add_row(self, row: str) -> None:
        kind, _, rest = row.partition(" ")
        if kind == "program":
            self.program = os.path.normpath(rest)
        elif kind == "map":
            *_, bias, file = rest.split(" ", 3)
            self.maps.append((int(bias, 16), file))
        elif kind == "stack":
            low, high, thread = rest.split(" ")
            self.stacks.append((int(low, 16), int(high, 16), int(thread)))
        elif kind == "file":
            low, high, name = rest.split(" ", 2)
            self.mapped_files.append((int(low, 16), int(high, 16), name))
        elif kind == "site":
            addr, was, function, line = match_groups(SITE, rest)
            self.sites[int(addr, 16)] = [Site(known_word(function), known_word(line))]
            self.native_pcs[int(addr, 16)] = int(was, 16)
        elif kind == "frame":
            addr, line, function = match_groups(FRAME, rest)
            self.frames.setdefault(int(addr, 16), []).append(
                Site(known_word(function), known_word(line))
            )
        elif kind == "resume":
            self.resumes.append(int(rest))
        elif kind == "end":
            count, word = rest.split(" ")
            self.end = None if word == "none" else (int(count), word)
        elif kind:
            self.pages[int(kind, 16)] = int(rest, 16)

    def native_address(self, addr: int) -> int | None:
        """What an address of the trace was in the program, or none."""
        page = self.pages.get(addr // PAGE * PAGE)
        return self.native_pcs.get(addr) if page is None else page + addr % PAGE


def data_symbols(elf: ELFFile, table: SymbolTableSection) -> Iterator[tuple[str, int, int]]:
    """The symbols of data in a table, without their versions: name, address and size. (A library has tens of thousands.)"""
    names = elf.get_section(table["sh_link"]).data()
    order, is_wide = "<" if elf.little_endian else ">", elf.elfclass == 64
    row = struct.Struct(order + ("IBBHQQ" if is_wide else "IIIBBH"))
    for own in row.iter_unpack(table.data()):
        name, kind, addr, size = (own[it] for it in ((0, 1, 4, 5) if is_wide else (0, 3, 1, 2)))
        if kind & 15 == DATA_SYMBOL:
            text = names[name : names.index(b"\0", name)].decode("utf-8", "replace")
            yield text.partition("@")[0], addr, size


class NativeFile:
    """The program or a library, with its debug information, which may stand in a file of its own."""

    def __init__(self, bias: int, path: str) -> None:
        self.bias, self.path, self.debug = bias, path, path
        self.cached_program: Program | None = None
        self.variables: dict[int, NativeVariable | None] = {}
        self.ranges: list[tuple[int, int]] = []
        self.names: dict[int, str] = {}
        # Where the file has data of a name, each place with its size.
        self.extents: dict[str, list[tuple[int, int]]] = {}
        self.is_stripped = False
        with contextlib.suppress(Exception), open(path, "rb") as file:
            elf = ELFFile(file)
            self.ranges = [
                (segment["p_vaddr"], segment["p_memsz"])
                for segment in elf.iter_segments()
                if segment["p_type"] == "PT_LOAD"
            ]
            self.debug = self.debug_of(elf)
        with contextlib.suppress(Exception), open(self.debug, "rb") as file:
            elf = ELFFile(file)
            tables = [it for it in elf.iter_sections() if isinstance(it, SymbolTableSection)]
            self.is_stripped = all(it.name != ".symtab" for it in tables)
            for name, addr, size in (it for table in tables for it in data_symbols(elf, table)):
                self.names.setdefault(addr, name)
                self.extents.setdefault(name, []).append((addr, size))

    def debug_of(self, elf: ELFFile) -> str:
        note = elf.get_section_by_name(".note.gnu.build-id")
        if elf.get_section_by_name(".debug_info") or note is None:
            return self.path
        build = next(note.iter_notes())["n_desc"]
        path = os.path.join(DEBUG, build[:2], build[2:] + ".debug")
        return path if os.path.exists(path) else self.path

    def has(self, addr: int) -> bool:
        return any(low <= addr - self.bias < low + size for low, size in self.ranges)

    def program(self) -> Program:
        self.cached_program = self.cached_program or Program(self.debug)
        return self.cached_program

    def variable(self, addr: int) -> "NativeVariable | None":
        """The variable at an address of the file."""
        if addr not in self.variables:
            self.variables[addr] = None
            with contextlib.suppress(Exception):
                self.variables[addr] = next(
                    (
                        variable
                        for variable in self.likely_variables(addr)
                        if self.program().address(variable.dies[0]) == addr
                    ),
                    None,
                )
        return self.variables[addr]

    def type_named(self, text: str) -> Die | None:
        """A type that is defined in this file, by its name, or none."""
        places = [
            at
            for at, own in self.program().named(last_name(text))
            if "_type\n" in own and "DW_AT_declaration" not in own
        ]
        return choose_type([self.program().dwarf.get_DIE_from_refaddr(it) for it in places], text)

    def likely_variables(self, addr: int) -> Iterator["NativeVariable"]:
        """The variables that debug information may have at an address: by the place itself, or else by the symbol's name."""
        places, name = self.program().places, self.names.get(addr, "")
        if places is not None and name:
            for die in places.entries_with(addr):
                if die.tag == "DW_TAG_variable":
                    yield NativeVariable(die, self)
        if places is None or places.has_other_addresses():
            plain = last_name(demangle([name])[0]) if name[:2] in ("_Z", "_R") else ""
            for offset, text in self.program().named(name, plain):
                if "DW_TAG_variable" in text and "DW_AT_location" in text:
                    yield NativeVariable(self.program().dwarf.get_DIE_from_refaddr(offset), self)


class NativeVariable(Variable):
    """A variable, and the file that it is of."""

    def __init__(self, die: Die, file: NativeFile) -> None:
        super().__init__(die)
        self.file = file


class NativeProgram:
    """The program and its libraries, asked as fields.Program is, with addresses of the trace."""

    def __init__(self, back: AddressMap) -> None:
        self.map, self.files = back, [NativeFile(*it) for it in back.maps]
        self.panics: dict[str, Panics | None] = {}
        self.go_tables: dict[str, Table | None] = {}
        self.landmarks: dict[str, LandmarkFinder | None] = {}
        # Variables that lie on stacks, by their addresses in the trace.
        self.stack_variables: dict[int, NativeVariable] = {}
        self.path = back.program
        own = next(
            (it for it in self.files if os.path.realpath(it.path) == os.path.realpath(self.path)),
            None,
        )
        self.main, self.own = own.program() if own else Program(self.path), own
        self.dwarf, self.sha256 = self.main.dwarf, self.main.sha256

    def file(self, addr: int) -> tuple[NativeFile, int] | None:
        """The file that an address was in, and the address there, or none."""
        was = self.map.native_address(addr)
        if was is None:
            return None
        own = next((it for it in self.files if it.has(was)), None)
        return (own, was - own.bias) if own else None

    def symbols(self) -> dict[tuple[int, int], str]:
        return {(it.bias + addr, 0): name for it in self.files for addr, name in it.names.items()}

    def variable(self, addr: int) -> NativeVariable | None:
        if addr in self.stack_variables:
            return self.stack_variables[addr]
        found = self.file(addr)
        return found[0].variable(found[1]) if found else None

    def thread_locals(self) -> list[tuple[int, int, str]]:
        """None: what each thread has for itself is no block here."""
        return []

    def library_place(self, addr: int) -> str:
        """The library that an address is in, and the place there; or an empty text."""
        found = self.file(addr)
        return f"{os.path.basename(found[0].path)}+{found[1]:#x}" if found else ""

    @functools.cached_property
    def executed_pcs(self) -> dict[str, list[int]]:
        """The instructions that the address map lists, by files."""
        found: dict[str, list[int]] = {}
        for file, at in filter(None, map(self.file, self.map.sites)):
            found.setdefault(file.path, []).append(at)
        return found

    @functools.cache
    def image_of(self, path: str) -> Image | None:
        return value_or_default(lambda: Image(path), None)

    def panics_of(self, path: str) -> Panics | None:
        if path not in self.panics:
            image = self.image_of(path)
            self.panics[path] = (
                value_or_default(lambda: Panics(path, self.executed_pcs.get(path, ()), image), None)
                if image
                else None
            )
        return self.panics[path]

    def landmarks_of(self, path: str) -> LandmarkFinder | None:
        """What a file's code refers to; nothing of one in Rust, where texts don't end with a zero byte."""
        if path not in self.landmarks:
            image, panics = self.image_of(path), self.panics_of(path)
            is_other = image is None or panics is not None and panics.places
            self.landmarks[path] = (
                None
                if is_other
                else value_or_default(
                    lambda: LandmarkFinder(path, self.executed_pcs.get(path, ()), image), None
                )
            )
        return self.landmarks[path]

    def landmark(self, addr: int) -> NearPanics | Landmarks | None:
        """The panics near an instruction, or else what its function refers to, or none."""
        found = self.file(addr)
        if found is None:
            return None
        own: list[Panics | LandmarkFinder | None] = [
            self.panics_of(found[0].path),
            self.landmarks_of(found[0].path),
        ]
        answers = (value_or_default(functools.partial(it.near, found[1]), None) for it in own if it)
        return next(filter(None, answers), None)

    def has_panics(self) -> bool:
        """Whether panics name the program's own code, which has no symbols."""
        panics = self.panics_of(self.own.path) if self.own and self.own.is_stripped else None
        return panics is not None and bool(panics.places)

    def go_table(self, path: str) -> Table | None:
        """The table of functions and lines that a program of Go has, or none."""
        if path not in self.go_tables:
            self.go_tables[path] = value_or_default(lambda: find_table(path), None)
        return self.go_tables[path]

    def go_frames(self, file: NativeFile, addr: int) -> list[SourceLine]:
        """The functions at an address of a file by a table of Go's, the innermost first."""
        table = self.go_table(file.path)
        return value_or_default(functools.partial(table.frames, addr), []) if table else []

    def has_go_table(self) -> bool:
        """Whether the program itself has a table of Go's."""
        return self.own is not None and self.go_table(self.own.path) is not None

    def has_landmarks(self) -> bool:
        """Whether what it refers to names the program's own code, which has no symbols."""
        image = self.image_of(self.own.path) if self.own and self.own.is_stripped else None
        return image is not None and bool(image.code) and not self.has_panics()

    def type_named(self, text: str) -> Die:
        """A type of the program, or else of one of its libraries."""
        try:
            return self.main.type_named(text)
        except Fault:
            for file in self.files:
                found = value_or_default(functools.partial(file.type_named, text), None)
                if found is not None:
                    return found
            raise

    def declaration(self, variable: Variable) -> tuple[str, int] | None:
        return (
            variable.file.program().declaration(variable)
            if isinstance(variable, NativeVariable)
            else None
        )

    def mismatch(self, report: Report) -> str | None:
        """What of a report isn't in the address map, or none."""
        if self.map.end:
            count, is_whole = self.map.end[0], report.outcome.startswith("exit")
            # (a trace that was cut has fewer)
            if count < report.accesses or is_whole and count != report.accesses:
                return f"it is of a trace of {count:,} accesses, and the report counts {report.accesses:,}"
        for line in report.lines[:1000]:
            if line.kind == "observed" and all(
                self.map.native_address(addr) is None
                for addr in range(max(line.base, 0), line.base + line.size, 4)
            ):
                return f"it has no page of {line.base:#010x}"
            found = next(filter(None, map(self.object_mismatch, line.objects())), None)
            if found:
                return found
        return None

    def object_mismatch(self, obj: Symbol | Block) -> str | None:
        """What of a symbol or a block of a report isn't in the address map, or none."""
        if isinstance(obj, Block):
            return next(filter(None, map(self.site_mismatch, obj.sites)), None)
        name, found = plain_name(obj.name), self.file(obj.addr)
        if found is None:
            # (a file that is gone has no ranges, and a page that nothing touched isn't in the map)
            is_there = all(it.ranges for it in self.files)
            has_page = self.map.native_address(obj.addr) is not None
            return f"it has no file with {obj.name}" if is_there and has_page else None
        own, at = found
        # (a symbol may be longer than a region of the trace, and begin in one before)
        lies = any(low <= at < low + max(size, 1) for low, size in own.extents.get(name, ()))
        if lies or not own.extents:
            return None
        return f"{own.path} has no symbol {obj.name} at {at:#x}"

    @functools.cache
    def site_mismatch(self, site: CallSite) -> str | None:
        """What of a call site isn't in the address map, or none."""
        own = self.map.sites.get(site.addr)
        if not own:
            return f"it has no call site {site.addr:#010x}"
        name = known_word(plain_name(site.name))
        if name and own[0].function and name != own[0].function.partition("@")[0]:
            return f"its call site {site.addr:#010x} is in {own[0].function}, and not in {name}"
        return None


class NativeMemory(Memory):
    """What lies where no object is: a thread's stack, a file that was mapped, or a page."""

    def __init__(self, native: NativeProgram) -> None:
        super().__init__()
        self.native, self.places_by_page, self.is_go = (
            native,
            dict[int, PlaceKey](),
            native.has_go_table(),
        )
        # (a stack may be another thread's later on)
        self.threads: dict[int, list[int]] = {}
        first: dict[tuple[int, int], int] = {}
        for low, high, thread in native.map.stacks:
            own = self.threads.setdefault(first.setdefault((low, high), thread), [])
            if thread not in own:
                own.append(thread)

    def key(self, addr: int) -> PlaceKey:
        page = addr // PAGE * PAGE
        if page not in self.places_by_page:
            self.places_by_page[page] = self.find_place(page)
        found = self.places_by_page[page]
        # (Go's allocator has what it keeps itself on the pages of what it hands out)
        return (
            MemoryKey("memory", addr // LINE * LINE)
            if isinstance(found, MemoryKey) and self.is_go
            else found
        )

    def find_place(self, page: int) -> PlaceKey:
        back, was = self.native.map, self.native.map.native_address(page)
        if was is None:
            return MemoryKey("memory", page)
        stack = self.stack(was)
        if stack:
            return StackKey("stack", stack[2])
        path = next(
            (name for low, high, name in reversed(back.mapped_files) if low <= was < high), None
        )
        own = None if path else self.native.file(page)
        path = own[0].path if own else path
        # (what Go's runtime keeps lies beside the program's own variables, and nothing says where which is)
        is_mixed = (
            own is not None and own[0].is_stripped and self.native.go_table(own[0].path) is not None
        )
        return FileKey("file", path) if path and not is_mixed else MemoryKey("memory", page)

    def stack(self, was: int) -> tuple[int, int, int] | None:
        """The first stack that was at an address of the program, or none."""
        return next((it for it in self.native.map.stacks if it[0] <= was < it[1]), None)

    def owner(self, hart: int) -> str:
        threads = self.threads.get(hart, [hart])
        return (
            f"thread {hart}"
            if len(threads) == 1
            else f"threads {', '.join(map(str, threads[:-1]))} and {threads[-1]}"
        )

    def bytes_below_top(self, addr: int) -> int:
        was = self.native.map.native_address(addr) or 0
        stack = self.stack(was)
        return stack[1] - was if stack else 0


class NativeSources(Sources):
    """The lines of the program's and its libraries' addresses."""

    def __init__(self, program: NativeProgram, folders: Iterable[str] = ()) -> None:
        super().__init__(program.path, folders)
        self.native = program

    def find(self, addresses: Iterable[int]) -> None:
        wanted = sorted({it for it in addresses if it not in self.places})
        self.places.update({it: [] for it in wanted})
        asked = [(it, *where) for it in wanted if (where := self.native.file(it))]
        for (address, _, _), found in zip(
            asked, self.symbolize((own, addr) for _, own, addr in asked)
        ):
            self.places[address] = found
        for address, own, addr in asked:
            if not has_line(self.places[address]):
                found = self.native.go_frames(own, addr)
                self.places[address] = found if has_line(found) else self.places[address] or found
        for address in wanted:
            if not has_line(self.places[address]):
                sites: list[Site] = (
                    self.native.map.frames.get(address) or self.native.map.sites.get(address) or []
                )
                self.places[address] = [
                    place for own in sites for place in recorded_frames(own)
                ] or self.places[address]

    def symbolize(self, addresses: Iterable[tuple[NativeFile, int]]) -> list[list[SourceLine]]:
        """What debug information says of addresses of files."""
        return [*map(parse_frames, symbolize((own.debug, addr) for own, addr in addresses))]

    def near(self, address: int) -> SourceLine | None:
        """The same by the file's own addresses: an instruction's number says nothing of those before it."""
        function = next((it.function for it in reversed(self.frames(address))), "")
        where = self.native.file(address) if function else None
        if where is None or where[0].is_stripped:
            return None
        own, at = where
        for frames in self.symbolize((own, it) for it in instructions_before(own.path, at)):
            if not frames or frames[-1].function != function:
                return None
            if has_line(frames):
                return next(it for it in frames if it.file and it.line)
        return None


def has_line(frames: Iterable[SourceLine]) -> bool:
    return any(it.file and it.line for it in frames)


def recorded_frames(site: Site) -> list[SourceLine]:
    """What the recorder has written of a call site, as frames."""
    file, _, line = site.line.rpartition(":")
    if file and line.isdigit():
        return [SourceLine(site.function, file, int(line))]
    return [SourceLine(site.function, "", 0)] if site.function else []


def find_address_map(trace: str) -> str | None:
    """The address map that stands beside a trace, or none."""
    path = f"{trace}.table"
    with contextlib.suppress(OSError), open(path, "rb") as file:
        if file.read(8) == b"program ":
            return path
    return None
