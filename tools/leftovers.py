#!/usr/bin/env python3
"""Finds what a review would take out of the crates.

Prints `FILE:LINE: WHAT` for each
- dead item: one of specs/ or proofs/ that nothing names but itself and imports that nothing uses. Answers to
  goals, invariants and the worked cases (files whose name begins with Worked) stand for themselves;
- long line: one of more than 100 columns, and long file: one of more than 600 lines;
- comment that says no more than the name under it.
It ends with 1 where there are any."""

import argparse
import os
import re
import sys
from typing import Iterator

TOP = os.path.abspath(os.path.join(os.path.dirname(os.path.abspath(__file__)), ".."))
sys.path.insert(0, os.path.dirname(os.path.abspath(__file__)))
import imports  # noqa: E402

WIDTH, LENGTH = 100, 600
# What these hold is found by its place.
ANSWERS = ("Answers.antt", "Invariants.antt", "Proof.antt", "Lib.antt")
ITEM = re.compile(
    r"^( *)(?:pub )?(?:(?:abbrev|unfoldable|data|record|ruleset|axiom) (?:pub )?)*(?:pub"
    r" )?([^\s(){}\[\]:,;]+)\s*(?=[:({])"
)
# Words that begin a line and no item.
NOT_ITEMS = {
    "use",
    "mod",
    "module",
    "unfolding",
    "open",
    "mutual",
    "where",
    "infix",
    "infixl",
    "infixr",
    "let",
    "elim",
    "in",
    "|",
}
PLAIN = set("a an and are for how is it its of that the this was what".split())


def read(path: str) -> str:
    with open(path, encoding="utf-8") as file:
        return file.read()


# Names as a file has them, each with that of its module where this is another one.
Names = dict[str, str | None]


class Source:
    """A file of the crates: its text without comments and imports, what it imports, and its place in the
    house."""

    def __init__(self, path: str) -> None:
        self.path, self.text = path, read(path)
        self.is_rust = path.endswith(".rt")
        self.plain = imports.without_comments(self.text, self.is_rust)
        found = imports.imports_of(self.plain, self.is_rust)
        self.rest = self.plain
        for span in {it.statement for it in found}:
            self.rest = imports.blank_range(self.rest, *span)
        self.imported: dict[str, Names] = {}
        for own in found:
            statement = self.plain[slice(*own.statement)]
            module = own.module.rstrip(".")
            whole = self.plain[own.start : own.end]
            real = (
                re.split(r"\s+as\s+", whole)[0].strip()
                if "{" in statement and own.start != own.statement[0]
                else None
            )
            self.imported.setdefault(module, {})[own.name] = real
        parts = os.path.relpath(path, f"{TOP}/crates")[: -len(".antt")].split(os.sep)
        self.module = ".".join(["Rattle", *parts])

    def words(self, rest: str | None = None) -> set[str]:
        return imports.words_of(self.rest if rest is None else rest)


def find_items(source: Source) -> Iterator[tuple[str, int, int]]:
    """The items of a file of definitions or proofs: name, line, and the extent of what is the item's own."""
    lines = source.rest.split("\n")
    heads = []
    for number, line in enumerate(lines):
        found = ITEM.match(line)
        if not found or found[2] in NOT_ITEMS or "=" in line[: found.end()]:
            continue
        heads.append((len(found[1]), found[2], number))
    for depth, name, number in heads:
        # An item stands at the file's margin, or at that of the module around it.
        if depth and not is_in_module(lines, number, depth):
            continue
        end = number + 1
        while end < len(lines) and (
            not lines[end].strip() or is_inside_item(lines[end], depth, name)
        ):
            end += 1
        yield name, number, end


def is_inside_item(line: str, depth: int, name: str) -> bool:
    """Whether a line below an item's head belongs to the item: deeper ones do, and its own clauses."""
    indent = len(line) - len(line.lstrip(" "))
    if indent > depth:
        return True
    first = re.split(r"[\s(){}\[\],;]", line.strip(), maxsplit=1)[0]
    return indent == depth and first in (name, "unfolding")


def is_in_module(lines: list[str], number: int, depth: int) -> bool:
    for above in range(number - 1, -1, -1):
        line = lines[above]
        if line.strip() and len(line) - len(line.lstrip(" ")) < depth:
            return bool(re.match(r"\s*(pub )?module\b.*where\s*$", line))
    return False


def dead_items(sources: list[Source], chosen: list[Source]) -> Iterator[str]:
    by_module: dict[str, list[tuple[Source, Names]]] = {}
    for file in sources:
        for module, names in file.imported.items():
            by_module.setdefault(module, []).append((file, names))
    for source in chosen:
        folder = os.path.relpath(source.path, f"{TOP}/crates").split(os.sep)
        if source.is_rust or folder[-1] in ANSWERS or folder[-1].startswith("Worked"):
            continue
        path = source.module.split(".")[2:]
        for name, start, end in find_items(source):
            lines = source.rest.split("\n")
            if name in source.words("\n".join(lines[:start] + lines[end:])):
                continue
            if is_named_elsewhere(source, name, by_module, sources, "::".join(path)):
                continue
            yield f"{source.path}:{start + 1}: dead item: {name}"


def is_named_elsewhere(
    source: Source,
    name: str,
    by_module: dict[str, list[tuple[Source, Names]]],
    sources: list[Source],
    path: str,
) -> bool:
    for other, names in by_module.get(source.module, ()):
        for local, real in names.items():
            if real == name and imports.is_used(local, other.words()):
                return True
            if real is None and re.search(
                rf"(?<![\w.]){re.escape(local)}\.{re.escape(name)}(?![\w'-])", other.rest
            ):
                return True
    # An attribute names the whole way.
    return any(other.is_rust and f"{path}::{name}" in other.plain for other in sources)


def stem(word: str) -> str:
    word = word.lower()
    for end in ("ings", "ing", "ies", "ied", "ed", "es", "s", "e", "y"):
        if word.endswith(end) and len(word) - len(end) >= 3:
            return word[: -len(end)]
    return word


def words_in(text: str) -> set[str]:
    return {
        stem(word)
        for word in re.findall(
            r"[A-Za-z']+",
            re.sub(r"([a-z])([A-Z])", r"\1 \2", text.replace("_", " ").replace("-", " ")),
        )
        if word.lower() not in PLAIN
    }


def repeated_comments(source: Source) -> Iterator[str]:
    """Comments of one line that stand on an item and have no word that its name hasn't."""
    lines = source.text.split("\n")
    for number, line in enumerate(lines[:-1]):
        found = re.match(r"\s*(?:///|//|--)\s+(.*\S)\s*$", line)
        alone = number == 0 or not re.match(r"\s*(///|//|--)", lines[number - 1])
        below = number + 1
        while below < len(lines) and re.match(r"\s*#\[", lines[below]):
            below += 1
        if (
            not found
            or not alone
            or below >= len(lines)
            or re.match(r"\s*(///|//|--|$)", lines[below])
        ):
            continue
        head = re.match(
            r"\s*(?:pub(?:\([a-z]+\))? |abbrev |unfoldable |const |unsafe )*"
            r"(?:fn |struct |enum |trait |record |data |static |type |ruleset )?"
            r"(?:pub )?([^\s(){}<,:;=]+)\s*([:=({<,;]|where|$)",
            lines[below],
        )
        if head and number > 0 and words_in(found[1]) and words_in(found[1]) <= words_in(head[1]):
            yield f"{source.path}:{number + 1}: comment that repeats the name: {found[1]}"


def main() -> int:
    parser = argparse.ArgumentParser(
        description=__doc__, formatter_class=argparse.RawDescriptionHelpFormatter
    )
    parser.add_argument("crates", nargs="*", metavar="CRATE", help="the crates (all)")
    crates: list[str] = parser.parse_args().crates
    sources = [Source(it) for it in imports.files_below([os.path.join(TOP, "crates")])]
    chosen = [
        source
        for source in sources
        if not crates or os.path.relpath(source.path, f"{TOP}/crates").split(os.sep)[0] in crates
    ]
    found = list(dead_items(sources, chosen))
    for source in chosen:
        lines = source.text.split("\n")
        found += [
            f"{source.path}:{n + 1}: long line: {len(line)} columns"
            for n, line in enumerate(lines)
            if len(line) > WIDTH
        ]
        if len(lines) - 1 > LENGTH:
            found.append(f"{source.path}:1: long file: {len(lines) - 1} lines")
        found += repeated_comments(source)
    for row in found:
        print(os.path.relpath(row))
    return 1 if found else 0


if __name__ == "__main__":
    sys.exit(main())
