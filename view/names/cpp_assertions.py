"""The assertions in stripped code of C and C++: a failed one passes its text, file, line and function to `__assert_fail`."""

import functools
import os
import re
from typing import NamedTuple

from view.names.x86_image import CALL, THROUGH, Image, find_jumps
from view.names.demangling import short_name

FAILING = "__assert_fail"
# The arguments of such a call are loaded within this many bytes before it.
LOADED = 64
# The instructions before the call: `lea` or `mov` of literals, `mov` of the line, and those that make room on the stack.
LOADS = re.compile(
    rb"(?:\x48\x8d(?:\x0d(?P<function>.{4})|\x35(?P<file>.{4})|\x3d(?P<text>.{4}))|\xba(?P<line>.{4})|\xb9(?P<function_at>.{4})"
    rb"|\xbe(?P<file_at>.{4})|\xbf(?P<text_at>.{4})|[\x50-\x57]|\x41[\x50-\x57]|\x48\x83\xec.|\x66?\x90)+\Z",
    re.DOTALL,
)
# The called stub may begin before its jump: with a checked entry (endbr64), and with a load of the symbol's number.
STUB, STUB_SIZE = re.compile(rb"\xf3\x0f\x1e\xfa(?:\x41\xbb.{4})?\xf2?\Z", re.DOTALL), 11
SOURCE, NAME = re.compile(rb"[^\x00-\x1f\x7f]+\.[A-Za-z+]{1,4}"), re.compile(rb"[\x20-\x7e]+")
# The path before a package's source folder, as it was compiled.
BUILT = re.compile(
    r"^/(?:.*?/)?(?:build|builddir|usr/src)/(?:reproducible-path/)?[^/]+/|^(?:\.\./)+"
)
LIBRARY = re.compile(r"(?:^|/)usr/(?:local/)?include/|/include/c\+\+/|/lib/gcc/")
HEADER = re.compile(r"\.(?:h|hh|hpp|hxx|h\+\+|inc|inl|ipp|tcc|tpp)$")
WITH = re.compile(r" \[(?:with )?(.*)\]$")


class Assertion(NamedTuple):
    """An assertion: where the arguments of its call are loaded, the call, its file, line and function (empty if unknown), and the
    addresses of its literals."""

    begin: int
    at: int
    file: str
    line: int
    function: str
    texts: tuple[int, ...]

    def is_library(self) -> bool:
        return bool(LIBRARY.search(self.file))

    def is_header(self) -> bool:
        return bool(HEADER.search(self.file))

    def text(self) -> str:
        place = f"near an assertion at {path_in_package(self.file)}:{self.line}"
        return f"{place} in {self.function}" if self.function else place


def path_in_package(file: str) -> str:
    """A source path without what precedes its package's folder."""
    return BUILT.sub("", os.path.normpath(file))


def short_function_name(whole: str) -> str:
    """A function's name from `__PRETTY_FUNCTION__`, short, with its template arguments filled in."""
    given = WITH.search(whole)
    name = whole[: given.start()] if given else whole
    for argument in given[1].split("; ") if given else ():
        what, _, value = argument.partition(" = ")
        if what.isidentifier():
            name = re.sub(rf"\b{what}\b", value.replace("\\", ""), name)
    return short_name(name.replace(", ", ","))


class Assertions:
    """The assertions of a program."""

    def __init__(self, image: Image) -> None:
        self.image = image

    @functools.cached_property
    def failing(self) -> set[int]:
        """What a failed assertion calls: the words with the address of `__assert_fail`, and the jumps through them."""
        slots = self.image.slots(FAILING)
        jumps = (
            {
                at
                for at, word in self.image.find_references(THROUGH)
                if word in slots and self.image.is_jump(at)
            }
            if slots
            else set[int]()
        )
        return slots | {it for at in jumps for it in (at, self.stub(at))}

    def stub(self, jump: int) -> int:
        before = STUB.search(self.image.bytes(jump - STUB_SIZE, STUB_SIZE))
        return jump - (STUB_SIZE - before.start()) if before else jump

    @functools.cache
    def of(self, start: int, end: int) -> list[Assertion]:
        """The assertions between two addresses."""
        code = self.image.bytes(start, end - start) if self.failing else b""
        calls = [
            at
            for form in (CALL, THROUGH)
            for at, to in find_jumps(code, start, form)
            if to in self.failing
        ]
        return [
            assertion
            for at in sorted(calls)
            if (assertion := self.assertion(at, code[max(at - start - LOADED, 0) : at - start]))
        ]

    def assertion(self, at: int, loads: bytes) -> Assertion | None:
        """The assertion of a call, from the arguments loaded before it."""
        match = LOADS.search(loads)
        if match is None or not match["line"]:
            return None
        texts = tuple(
            self.loaded_assertion(match, at - len(loads), part)
            for part in ("function", "file", "text")
        )
        name, file = map(self.image.text, texts[:2])
        line = int.from_bytes(match["line"], "little")
        if not SOURCE.fullmatch(file) or not 0 < line < 1 << 20:
            return None
        function = short_function_name(name.decode("latin-1")) if NAME.fullmatch(name) else ""
        return Assertion(
            at - len(loads) + match.start(),
            at,
            file.decode("utf-8", "replace"),
            line,
            function,
            texts,
        )

    def loaded_assertion(self, match: re.Match[bytes], begin: int, what: str) -> int:
        """The address of a loaded literal, or 0."""
        if match[what]:
            return begin + match.end(what) + int.from_bytes(match[what], "little", signed=True)
        return int.from_bytes(match[what + "_at"] or b"", "little") if self.image.is_fixed else 0
