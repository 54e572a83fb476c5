"""Names for stripped code of C and C++, from what it refers to and its sources contain too.

A failed assertion passes its file, line and function, a table of virtual functions identifies a class, and string literals stay as they
are. An instruction gets the name of what its function refers to, or else of what the functions that called it refer to."""

import bisect
import functools
import re
from typing import Iterable, Iterator, NamedTuple, Sequence

from view.names import cpp_classes
from view.names.cpp_assertions import Assertion, Assertions
from view.names.function_ranges import Functions, Range
from view.names.x86_image import LEA, Image, conditional_jumps, find_jumps, find_numbers

# The strength of a landmark, the strongest first. An assertion that many functions refer to, or several in a header, is inlined.
ASSERTION, CLASS, TEXT, COMMON, MANY = 0, 1, 2, 3, 8
# How many callers are named, of how many at most; how many levels up they are searched, through how many functions.
NAMED, MOST, LEVELS, PASSED = 2, 16, 4, 400
# A call site is the last byte of a call instruction, which begins less than this many bytes before.
CALL_SIZE = 8
# String literals: their pattern, the least number of letters, and how many characters are shown.
PRINTED, LETTERS, SHOWN, CUT = re.compile(rb"[\x20-\x7e\t\n\r]{6,}"), 6, 60, ".."
FORMAT = re.compile(r"%[-+ #0-9.*hjlqtzL]*[A-Za-z]")
# Literals that name nothing: those of C++'s own library, digits, and messages about missing memory.
EMPTY = re.compile(
    r"basic_string(?:_view)?::?|(?:vector|deque|list|array|bitset|(?:unordered_)?(?:map|set))::(?:_|at\b)|%s: __pos|cannot create std::"
    r"|/usr/include/|(?i:\W*(?:out of|not enough|insufficient|no|cannot allocate|virtual)? ?memory(?: exhausted)?\W*$|.*abcdef)"
)


class Landmark(NamedTuple):
    """A thing that a function refers to: its strength, its description, how many functions refer to it, and whether a library owns it."""

    strength: int
    text: str
    functions: int = 1
    is_library: bool = False


class Landmarks(NamedTuple):
    """The landmarks of an instruction: its own function's or its callers', of which there may be more."""

    landmarks: tuple[Landmark, ...]
    is_called: bool = False
    more: int = 0

    def names_source(self) -> bool:
        """Whether a landmark belongs to the program rather than a library."""
        return any(not it.is_library for it in self.landmarks)

    def text(self) -> str:
        more = f" and {self.more} more" if self.more else ""
        return f"{'called ' if self.is_called else ''}{' and '.join(it.text for it in self.landmarks)}{more}"


def shorten_text(text: str) -> str:
    """The first line with letters of a literal, cut to size; empty if it names nothing."""
    lines = (re.sub(r"^[\s:;,.\-]+|\s+$", "", it) for it in re.split(r"[\n\r\t]+", text))
    line = next(
        (it for it in lines if len(re.findall("[A-Za-z]", FORMAT.sub("", it))) >= LETTERS), ""
    )
    if EMPTY.match(line):
        return ""
    return line if len(line) <= SHOWN else line[:SHOWN].rstrip() + CUT


class LandmarkFinder:
    """Finds landmarks of a program or a library, some of whose instructions ran."""

    def __init__(self, path: str, ran: Iterable[int] = (), image: Image | None = None) -> None:
        self.image, self.executed_pcs = image or Image(path), sorted(ran)
        self.classes, self.assertions = cpp_classes.Classes(self.image), Assertions(self.image)
        self.functions = Functions(self.image, self.classes.owners)

    def texts_of(self, start: int, end: int) -> Iterator[int]:
        """The addresses of literals that a part of a function refers to."""
        code = self.image.bytes(start, end - start)
        references = (
            *find_jumps(code, start, LEA),
            *(it for pattern in self.image.moves for it in find_numbers(code, start, pattern)),
        )
        yield from (
            addr
            for _, addr in references
            if self.image.is_constant(addr) and self.image.begins(addr)
        )

    @functools.cached_property
    def users(self) -> dict[int, set[int]]:
        """The functions that refer to each constant, by their numbers."""
        found: dict[int, set[int]] = {}
        for at, to in (*self.image.find_references(LEA), *self.image.number_loads):
            if self.image.is_constant(to):
                found.setdefault(to, set()).add(self.functions.number(at))
        return found

    def assertion_near(self, addr: int, parts: Sequence[Range]) -> Landmark | None:
        """The assertion of a function whose check is nearest to an instruction. A library's, or one of many functions, counts only without
        another."""
        made: list[tuple[bool, bool, int, Assertion]] = []
        found = [it for part in parts for it in self.assertions.of(*part)]
        jumps = (
            conditional_jumps(self.image.bytes(parts[0][0], parts[0][1] - parts[0][0]), parts[0][0])
            if found
            else {}
        )
        # (the arguments of an assertion's call are loaded without a jump)
        loaded = {at for it in found for at in range(it.begin, it.at + CALL_SIZE)}
        for assertion in found:
            checks = [
                at
                for to in jumps
                if assertion.begin <= to <= assertion.at
                for at in jumps[to]
                if at not in loaded
            ]
            distance = min(abs(at - addr) for at in (checks or [assertion.at]))
            made.append(
                (
                    assertion.is_library(),
                    self.users_of(assertion) > (1 if assertion.is_header() else MANY),
                    distance,
                    assertion,
                )
            )
        if not made:
            return None
        is_library, is_common, _, nearest = min(made)
        return Landmark(
            COMMON if is_common else ASSERTION, nearest.text(), self.users_of(nearest), is_library
        )

    def users_of(self, assertion: Assertion) -> int:
        """How many functions inline the function of an assertion."""
        return len(self.users.get(assertion.texts[0], ()))

    def class_of(self, start: int) -> Landmark | None:
        name = self.classes.of(start)
        return (
            Landmark(
                CLASS,
                f"in a method of {cpp_classes.short_class_name(name)}",
                1,
                cpp_classes.is_library(name),
            )
            if name
            else None
        )

    @functools.cache
    def text_in(self, parts: tuple[Range, ...]) -> Landmark | None:
        """The literal of a function that the fewest other functions refer to; of these the longest."""
        asserted = {at for part in parts for it in self.assertions.of(*part) for at in it.texts}
        found: list[tuple[int, int, str]] = []
        for at in {at for part in parts for at in self.texts_of(*part)} - asserted:
            text = self.image.text(at)
            shown = shorten_text(text.decode("latin-1")) if PRINTED.fullmatch(text) else ""
            if shown:
                found.append((len(self.users.get(at, ())), -len(text), shown))
        if not found:
            return None
        users, _, shown = min(found)
        return Landmark(TEXT, f'near the text "{shown}"', users)

    def own_landmark(self, addr: int, function: Range) -> Landmark | None:
        """The strongest landmark of an instruction's function."""
        parts = self.functions.parts(*function)
        assertion = self.assertion_near(addr, parts)
        if assertion and assertion.strength == ASSERTION and not assertion.is_library:
            return assertion
        found = [
            landmark
            for landmark in (assertion, self.class_of(function[0]), self.text_in(tuple(parts)))
            if landmark is not None
        ]
        return (
            min(found, key=lambda landmark: (landmark.is_library, landmark.strength))
            if found
            else None
        )

    def runs(self, low: int, high: int) -> bool:
        """Whether an instruction in a range of addresses ran."""
        at = bisect.bisect_left(self.executed_pcs, low)
        return at < len(self.executed_pcs) and self.executed_pcs[at] < high

    def callers(self, start: int) -> Iterator[tuple[int, Range | None]]:
        """The calls of a function that ran, each with its function. A jump writes no return address, so its function must have run."""
        for at in self.functions.calls.get(start, ()):
            if self.runs(at, at + 1):
                yield at, self.functions.function(at)
            elif self.image.is_jump(at):
                function = self.functions.function(at)
                if function and self.runs(*function):
                    yield at, function

    def callers_landmarks(self, start: int) -> Landmarks | None:
        """The landmarks of the callers of a function; a caller without one is replaced by its own callers."""
        seen, level, lost = {start}, [start], 0
        found: dict[str, tuple[int, Landmark]] = {}
        for number in range(LEVELS):
            above: list[int] = []
            for callee in level if len(seen) <= PASSED else ():
                # (none of so many callers identifies a function)
                if len(found) + lost > MOST:
                    return None
                calls = list(self.callers(callee))
                lost += not calls or any(function is None for _, function in calls)
                for at, function in calls:
                    if function and function[0] not in seen:
                        seen.add(function[0])
                        own = self.own_landmark(at, function)
                        if own and not own.is_library:
                            found.setdefault(own.text, (number, own))
                        else:
                            above.append(function[0])
            level = above
        best = sorted(
            found.values(),
            key=lambda rank: (rank[0], rank[1].strength, rank[1].functions, rank[1].text),
        )
        chosen, count = tuple(it for _, it in best[:NAMED]), len(best) + lost + len(level)
        return Landmarks(chosen, True, count - len(chosen)) if chosen and count <= MOST else None

    @functools.cache
    def near(self, addr: int) -> Landmarks | None:
        """The landmarks of an instruction, if any. (Literals of Go don't end with a zero byte.)"""
        function = None if self.image.is_go else self.functions.function(addr)
        own = self.own_landmark(addr, function) if function else None
        # (code that ran before the recording may have other callers)
        has_run = self.runs(addr - CALL_SIZE + 1, addr + 1)
        called = (
            self.callers_landmarks(function[0])
            if function and has_run and (own is None or own.is_library)
            else None
        )
        return called or (Landmarks((own,)) if own else None)
