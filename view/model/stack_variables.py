"""The variables that lie on contended lines of stacks: their frames are found by the trace, and lines list them as those of the program."""

import contextlib
import functools
import os
import re
import tempfile
from collections import Counter
from typing import TYPE_CHECKING, Callable, Iterator, NamedTuple

from view.model.object_keys import StackKey
from view.model.stack_places import StackPlace
from view.model.view import MIN_ACCESS_SHARE_DIVISOR, View
from view.names.debug_entries import Die
from view.names.native import NativeProgram, NativeVariable
from view.reading.engine import Predator, Refused
from view.reading.file_kinds import has_pcs
from view.reading.frame_accesses import AccessKind, Span, read_accesses
from view.reading.reports import LineRows

if TYPE_CHECKING:
    from view.names.frames import Frames, FrameFunction

# So many accesses of a trace are looked at, and so many functions; a guest of more accesses isn't run again for its pcs.
MAX_ACCESSES, MAX_FUNCTIONS, MAX_GUEST_ACCESSES = 1 << 20, 12, 4_000_000
# So many contended lines of stacks are looked at.
MAX_LINES = 64
PAGE = 4096
# What a name of a report may have.
STRANGE = re.compile(r"[^!-~]")


class Frame(NamedTuple):
    """A frame: its thread, its function and its top, as an address of the program."""

    hart: int
    function: int
    top: int


class StackVariable(NamedTuple):
    """A variable on a stack: its name, its function, where it lies in the trace, and its entry in the debug information."""

    name: str
    function: str
    addr: int
    size: int
    die: Die
    hart: int

    def is_on(self, begin: int, size: int) -> bool:
        return self.addr < begin + size and begin < self.addr + self.size


class Seen(NamedTuple):
    """The accesses to stacks that a trace has, by their kinds; and how its addresses are those of the program, and the reverse."""

    kinds: dict[AccessKind, Span]
    native: Callable[[int], int]
    traced: Callable[[int], int | None]


def contended_lines(view: View) -> list[int]:
    """The lines of stacks that are missed more than seldom."""
    lines = view.misses.lines if view.misses else {}
    keys = {base: view.naming.memory.key(base) for base in lines if base >= 0}
    on_stacks = [base for base, key in keys.items() if isinstance(key, StackKey)]
    much = Counter[object]()
    for base in on_stacks:
        much[keys[base]] += lines[base].useless + lines[base].useful
    found = [it for it in on_stacks if much[keys[it]] * MIN_ACCESS_SHARE_DIVISOR >= view.accesses]
    found.sort(key=lambda base: -lines[base].useless - lines[base].useful)
    return found[:MAX_LINES]


@contextlib.contextmanager
def trace_with_pcs(view: View, predator: Predator) -> Iterator[str | None]:
    """A trace of the program with pcs: the call's own, or that of another run of a guest; or none."""
    trace = view.call.trace_file()
    if trace and has_pcs(trace):
        yield trace
    elif view.call.action == "run" and view.accesses <= MAX_GUEST_ACCESSES:
        with tempfile.TemporaryDirectory(prefix="predator-view-") as folder:
            trace = os.path.join(folder, "pcs")
            action, *words = [*view.call.rerun_words(), *view.call.guest_words]
            with contextlib.suppress(Refused):
                predator.record([action, "--pcs", *words], trace)
            yield trace if os.path.isfile(trace) else None
    else:
        yield None


def read_seen(view: View, trace: str, bases: list[int]) -> Seen:
    """The accesses to the stacks of some lines."""
    memory, program = view.naming.memory, view.naming.program
    keys = {memory.key(it) for it in bases}
    kinds = read_accesses(trace, lambda page: memory.key(page) in keys, MAX_ACCESSES)
    if not isinstance(program, NativeProgram):
        return Seen(kinds, lambda addr: addr, lambda addr: addr)
    address_map = program.map
    pages = address_map.pages
    own = {pages[at]: at for at in {kind[2] // PAGE * PAGE for kind in kinds} if at in pages}

    def traced(addr: int) -> int | None:
        page = own.get(addr // PAGE * PAGE)
        return None if page is None else page + addr % PAGE

    return Seen(kinds, lambda addr: address_map.native_address(addr) or 0, traced)


class FrameSearch:
    """The frames of a program's own functions that a trace shows."""

    def __init__(self, view: View, seen: Seen, bases: list[int]) -> None:
        self.view, self.seen, self.bases = view, seen, bases
        self.frames: dict[Frame, Span] = {}
        self.functions: dict[int, FrameFunction] = {}

    def file_of(self) -> "tuple[Frames, Callable[[int], int | None]] | None":
        """The functions of the program's file, and where an instruction of the trace lies in that, or none elsewhere."""
        from view.names.frames import Frames

        program = self.view.naming.program
        if not isinstance(program, NativeProgram):
            return (Frames(program.path, program), lambda pc: pc) if program else None
        native, own = program, program.own
        if own is None:
            return None
        known: dict[int, int | None] = {}

        def place(pc: int) -> int | None:
            if pc not in known:
                found = native.file(pc)
                known[pc] = found[1] if found and found[0] is own else None
            return known[pc]

        return Frames(own.path, native.main), place

    def run(self) -> None:
        found = self.file_of()
        if found is None:
            return
        file, place = found
        by_function: dict[int, list[tuple[AccessKind, int, Span]]] = {}
        for kind, span in self.seen.kinds.items():
            pc = place(kind[1])
            begin = file.begin_of(pc) if pc is not None else None
            if pc is not None and begin is not None:
                by_function.setdefault(begin, []).append((kind, pc, span))
        near = {it: distance for it, own in by_function.items() if (distance := self.distance(own))}
        for begin in sorted(near, key=lambda it: near[it])[:MAX_FUNCTIONS]:
            function = file.function(begin)
            if function is not None:
                self.functions[begin] = function
                self.add_frames(function, by_function[begin])

    def distance(self, own: list[tuple[AccessKind, int, Span]]) -> int:
        """How far a contended line lies above the lowest memory that a function uses on the same stack, or 0 where none does."""
        size, key = self.view.report.size, self.view.naming.memory.key
        lowest: dict[object, int] = {}
        for (_, _, addr, _), _, _ in own:
            lowest[key(addr)] = min(lowest.get(key(addr), addr), addr)
        above = [it + size - lowest[key(it)] for it in self.bases if key(it) in lowest]
        return min((it for it in above if it > 0), default=0)

    def add_frames(
        self, function: "FrameFunction", own: list[tuple[AccessKind, int, Span]]
    ) -> None:
        for (hart, _, addr, is_write), pc, (first, last) in own:
            top = function.frame_top(pc, self.seen.native(addr), is_write)
            if top is not None:
                frame = Frame(hart, function.begin, top)
                before = self.frames.get(frame, (first, last))
                self.frames[frame] = min(before[0], first), max(before[1], last)

    def variables_of(self, frame: Frame) -> Iterator[StackVariable]:
        """The variables of a frame that lie on contended lines."""
        from view.names.fields import Variable

        function = self.functions[frame.function]
        for die, place, size in function.locals:
            addr = self.seen.traced(frame.top + place)
            last = self.seen.traced(frame.top + place + size - 1)
            name = STRANGE.sub("", Variable(die).name)
            if addr is None or last != addr + size - 1 or not name:
                continue
            found = StackVariable(name, function.name, addr, size, die, frame.hart)
            if any(found.is_on(it, self.view.report.size) for it in self.bases):
                yield found

    def foreign_uses(self, variable: StackVariable, span: Span) -> tuple[int, int]:
        """How many kinds of accesses other threads make to a variable while its frame is seen, and how many in all: recording may have
        begun behind a frame's beginning."""
        found = [
            span[0] <= last and first <= span[1]
            for (hart, _, addr, _), (first, last) in self.seen.kinds.items()
            if hart != variable.hart and variable.addr <= addr < variable.addr + variable.size
        ]
        return sum(found), len(found)

    def chosen(self) -> list[StackVariable]:
        """The variables that lie on contended lines, those of frames whose variables other threads use most first; none over another."""
        ranked: list[tuple[int, int, int, list[StackVariable]]] = []
        for frame, span in self.frames.items():
            own = list(self.variables_of(frame))
            uses = [self.foreign_uses(it, span) for it in own]
            meanwhile, all_uses = (sum(it) for it in zip(*uses)) if uses else (0, 0)
            if all_uses:
                ranked.append((-meanwhile, -all_uses, span[0], own))
        found: list[StackVariable] = []
        for *_, own in sorted(ranked, key=lambda it: it[:3]):
            for variable in own:
                if not any(it.is_on(variable.addr, variable.size) for it in found):
                    found.append(variable)
        return found


def find_stack_variables(view: View, predator: Predator) -> list[StackVariable]:
    bases = contended_lines(view)
    if not bases:
        return []
    with trace_with_pcs(view, predator) as trace:
        if trace is None:
            return []
        search = FrameSearch(view, read_seen(view, trace, bases), bases)
    search.run()
    return search.chosen()


def note_stack_variables(view: View, predator: Predator | None) -> None:
    """Has the lines of stacks that are contended list the variables that lie there."""
    program = view.naming.program
    if predator is None or program is None or program.dwarf is None or view.misses is None:
        return
    from view.names.fields import Variable, value_or_default

    search = functools.partial(find_stack_variables, view, predator)
    found: list[StackVariable] = value_or_default(search, [])
    for own in found:
        if isinstance(program, NativeProgram):
            if program.own is not None:
                program.stack_variables[own.addr] = NativeVariable(own.die, program.own)
        else:
            program.variable(own.addr)
            program.variables[own.addr] = Variable(own.die)
        view.stack_places[own.addr] = StackPlace(own.function, own.hart)
    reports = [it for it in (view.report, view.every_line) if it]
    ranges: list[tuple[LineRows, int, int]] = [
        (line, line.base, line.size) for report in dict.fromkeys(reports) for line in report.lines
    ]
    ranges += [(line, line.base, view.report.size) for line in view.misses.lines.values()]
    for line, base, size in ranges:
        for own in found:
            if own.is_on(base, size):
                line.object_rows += f"object symbol {own.name} {own.addr:#010x} {own.size}\n"
