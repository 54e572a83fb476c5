"""Repairs as a patch, where they change declarations alone: what `patch -p1` takes in the folder where the sources are."""

import difflib
import os
import re
from typing import Callable, Iterable, NamedTuple, Protocol, Sequence

from view.repairs.advice import attribute
from view.names.fields import attribute_value
from view.repairs.layouts import Member

COMMENT = re.compile(r"//.*|/\*.*?\*/")
# What stands between fields and can't move with them.
FIXED = re.compile(r"^\s*(?:#|(?:public|private|protected)\s*:)", re.MULTILINE)


class SourcePlace(Protocol):
    """Where something is declared."""

    @property
    def file(self) -> str:
        ...

    @property
    def line(self) -> int:
        ...


class Unpatchable(Exception):
    """A declaration that isn't spelled so that it can be changed line by line."""


def add_attribute(text: str, name: str, line: int, is_cpp: bool) -> str:
    """A declaration with the attribute behind a name and its dimensions, in C++ before these. (What is behind a name in parentheses is
    another declarator's.)"""
    plain = COMMENT.sub(lambda comment: " " * len(comment[0]), text)
    found = list(re.finditer(rf"\b{re.escape(name)}\b((?:\s*\[[^\]]*\])*)(?=\s*[;,={{])", plain))
    if len(found) != 1:
        raise Unpatchable(f"its line doesn't declare {name} in plain words")
    end = found[0].start(1) if is_cpp else found[0].end()
    return f"{text[:end]} {attribute(line, is_cpp)}{text[end:]}"


class AlignRecord(NamedTuple):
    """A record that is to begin on a line and to fill it."""

    place: SourcePlace
    keyword: str
    name: str
    line: int
    is_cpp: bool = False

    def key(self) -> tuple[str, int, str]:
        return self.place.file, self.place.line, "record"

    def apply(self, lines: list[str]) -> None:
        at = self.place.line - 1
        # (of a template the arguments stand elsewhere)
        name = re.escape(self.name.partition("<")[0])
        named = rf"\b{self.keyword}\s+{name}\b(?=\s*(?:final\s*)?(?::[^;]*)?(?:\{{|$))"
        for pattern in (named, rf"\b{self.keyword}\b(?=\s*(?:\{{|$))"):
            found = re.search(
                pattern, COMMENT.sub(lambda comment: " " * len(comment[0]), lines[at])
            )
            if found:
                end = found.start() + len(self.keyword)
                mark = attribute(self.line, self.is_cpp)
                lines[at] = f"{lines[at][:end]} {mark}{lines[at][end:]}"
                return
        raise Unpatchable(f"{self.keyword} {self.name} doesn't begin on its line in plain words")


class AlignVariable(NamedTuple):
    """A variable that is to begin on a line."""

    place: SourcePlace
    name: str
    line: int
    is_cpp: bool = False

    def key(self) -> tuple[str, int, str]:
        return self.place.file, self.place.line, self.name

    def apply(self, lines: list[str]) -> None:
        at = self.place.line - 1
        lines[at] = add_attribute(lines[at], self.name, self.line, self.is_cpp)


class OrderFields(NamedTuple):
    """A record whose fields are to be put in another order, each group of them on lines of its own."""

    place: SourcePlace
    name: str
    groups: list[list[Member]]
    line: int
    is_cpp: bool = False

    def key(self) -> tuple[str, int, str]:
        return self.place.file, self.place.line, "fields"

    def has_positional_values(self, lines: list[str]) -> bool:
        """Whether the file has a value of the record whose fields have their values by their order."""
        text = "\n".join(COMMENT.sub("", it) for it in lines)
        names = re.escape(self.name) if self.name else r"\}"
        return bool(
            re.search(
                rf"(?:\b|(?=\}})){names}[^;{{}}()=]*=\s*\{{\s*(?!\s|\.|\}}|0?\s*,?\s*\}})", text
            )
        )

    def apply(self, lines: list[str]) -> None:
        if self.has_positional_values(lines):
            raise Unpatchable("an initializer names no fields")
        own = sorted((it for group in self.groups for it in group), key=lambda member: member.begin)
        starts = [attribute_value(it.die, "decl_line", 0) for it in own]
        first = next(
            (at for at in range(self.place.line - 1, starts[0]) if "{" in lines[at]), len(lines)
        )
        if starts != sorted(set(starts)):
            raise Unpatchable("several of its fields are declared on one line")
        if first >= starts[0] - 1:
            raise Unpatchable("its first field is on the line of its brace")
        segments, at = {}, first + 1
        for member, start, after in zip(own, starts, [*starts[1:], len(lines) + 1]):
            end = next(
                (
                    row
                    for row in range(start, after)
                    if COMMENT.sub("", lines[row - 1]).rstrip().endswith(";")
                ),
                None,
            )
            if end is None or FIXED.search("\n".join(lines[at:end])):
                raise Unpatchable(f"{member.name} isn't declared on lines of its own")
            segments[member.name], at = lines[at:end], end
        new: list[str] = []
        for number, group in enumerate(self.groups):
            for place, member in enumerate(group):
                segment = segments[member.name]
                if number and not place:
                    whole = "\n".join(segment)
                    segment = add_attribute(whole, member.name, self.line, self.is_cpp).split("\n")
                new += segment
        lines[first + 1 : at] = new


Edit = AlignRecord | AlignVariable | OrderFields


def apply_edits(edits: Iterable[Edit], read: Callable[[str], str]) -> dict[str, tuple[str, str]]:
    """The files of some edits, each as it is and as it is to be; `read` gives the text of one."""
    by_key: dict[tuple[str, int, str], Edit] = {}
    for edit in edits:
        by_key.setdefault(edit.key(), edit)
    found: dict[str, tuple[str, str]] = {}
    # (each keeps the number of lines, and those that move lines come last)
    for edit in sorted(by_key.values(), key=lambda edit: isinstance(edit, OrderFields)):
        old, new = found.get(edit.place.file) or (read(edit.place.file),) * 2
        lines = new.split("\n")
        if edit.place.line > len(lines):
            raise Unpatchable(f"{edit.place.file} is shorter than the program's")
        edit.apply(lines)
        found[edit.place.file] = old, "\n".join(lines)
    return found


def read_source(path: str | None) -> str:
    if path is None:
        raise Unpatchable("its source isn't here")
    try:
        with open(path, encoding="utf-8", errors="surrogateescape", newline="") as file:
            return file.read()
    except OSError as error:
        raise Unpatchable(f"{path} can't be read") from error


def name_in_patch(path: str) -> str:
    """A file's name below this folder, where it is there, and else that in its own."""
    below = os.path.relpath(path)
    return os.path.basename(path) if below.startswith("..") else below


def difference(name: str, old: str, new: str) -> str:
    rows = []
    for row in difflib.unified_diff(
        old.splitlines(True), new.splitlines(True), f"a/{name}", f"b/{name}"
    ):
        rows.append(row if row.endswith("\n") else f"{row}\n\\ No newline at end of file\n")
    return "".join(rows)


def patch_obstacle(edits: Sequence[Edit] | None, path: Callable[[str], str | None]) -> str:
    """Why some edits can't be made, or nothing; `path` finds a source."""
    if edits is None:
        return "its fix changes more than declarations"
    try:
        apply_edits(edits, lambda file: read_source(path(file)))
    except Unpatchable as fault:
        return str(fault)
    return ""


def patch(edits: Sequence[Edit], path: Callable[[str], str | None]) -> str:
    """All of some edits that can be made, as a unified diff."""
    files = apply_edits(edits, lambda file: read_source(path(file)))
    return "".join(
        difference(name_in_patch(path(file) or file), old, new)
        for file, (old, new) in sorted(files.items())
    )
