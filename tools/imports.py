#!/usr/bin/env python3
"""Finds names that a file of the crates imports for contracts and proofs, and doesn't use.

In a .rt file a `ghost use` serves clauses, ghost members and attributes: a name that only Rust's code has is
unused. In an .antt file a `use` serves all other lines. An operator is used where each of its signs stands by
itself. Prints `FILE:LINE: NAME` for each, and ends with 1 where there are any. --fix takes them out, with
lines that nothing is left of; `rt fmt` lays out what remains."""

import argparse
import os
import re
import sys
from typing import Iterable, Iterator, NamedTuple

TOP = os.path.abspath(os.path.join(os.path.dirname(os.path.abspath(__file__)), ".."))
# What stands between two words of antt: all other signs are letters of a name.
BETWEEN = re.compile(r"[\s(){}\[\],;]+")
OPENING, CLOSING = "({[", ")}]"


# Names that wait for the next change of their crate: without them all crates above would be proved once more.
WAITING = {"crates/sharing_rules/specs/Laws/OpenedObserved.antt": {"◌-◌"}}

# A part of a text, by where it begins and ends.
Span = tuple[int, int]


class Import(NamedTuple):
    """One name that an import brings, by the places of its own text and of its whole statement."""

    name: str
    module: str
    start: int
    end: int
    statement: Span
    scope: Span


def blank(text: str) -> str:
    return re.sub(r"[^\n]", " ", text)


def blank_range(text: str, start: int, end: int) -> str:
    return text[:start] + blank(text[start:end]) + text[end:]


def without_comments(text: str, is_rust: bool) -> str:
    """The text with blanks in the place of comments and of what strings hold."""
    comment = r"//[^\n]*|/\*.*?\*/" if is_rust else r"(?<!\S)--[^\n]*|\{-.*?-\}"
    quoted = r'"(?:\\.|[^"\\])*"'
    if is_rust:
        quoted += r"|b?'(?:\\[^\n]|[^'\\\n])'"
    return re.sub(f"{comment}|{quoted}", lambda match: blank(match[0]), text, flags=re.DOTALL)


def closing_end(text: str, at: int) -> int:
    """Behind the bracket that closes the one at a place."""
    depth = 0
    for place in range(at, len(text)):
        depth += (text[place] in OPENING) - (text[place] in CLOSING)
        if depth == 0:
            return place + 1
    return len(text)


def ghost_parts(text: str) -> Iterator[Span]:
    """Where clauses, ghost members and attributes stand in Rust's text."""
    for found in re.finditer(r"\b(?:requires|ensures)\b\*?\s*\w*\s*(?=\{)", text):
        yield found.start(), closing_end(text, found.end())
    for found in re.finditer(r"#!?(?=\[)", text):
        yield found.start(), closing_end(text, found.end())
    for found in re.finditer(r"\bghost\s+(?!use\b)", text):
        depth, at = 0, found.end()
        while at < len(text) and depth >= 0 and not (depth == 0 and text[at] in ";,"):
            depth += (text[at] in OPENING) - (text[at] in CLOSING)
            at += 1
        yield found.start(), at


def block_around(text: str, at: int) -> Span:
    """The innermost block of braces around a place, or the whole text."""
    depth = 0
    for place in range(at - 1, -1, -1):
        depth += (text[place] == "}") - (text[place] == "{")
        if depth < 0:
            return place, closing_end(text, place)
    return 0, len(text)


def imports_of(text: str, is_rust: bool) -> list[Import]:
    """The imports of a text, and the places of their statements."""
    word = r"^[ \t]*ghost use\s+" if is_rust else r"^[ \t]*use\s+"
    found = []
    for match in re.finditer(
        word + r"([^\s{;]+)(?:\s+as\s+([^\s;]+)|(\{[^}]*\}))?[ \t]*;?[ \t]*(?=\n|$)",
        text,
        re.MULTILINE,
    ):
        scope = block_around(text, match.start()) if is_rust else (0, len(text))
        if match[3] is None:
            name = match[2] or match[1].split(".")[-1]
            found.append(Import(name, match[1], match.start(), match.end(), match.span(), scope))
            continue
        for part in re.finditer(r"[^,{}]+", match[3]):
            if part[0].strip():
                name = re.split(r"\s+as\s+", part[0].strip())[-1]
                start = match.start(3) + part.start() + len(part[0]) - len(part[0].lstrip())
                found.append(
                    Import(name, match[1], start, start + len(part[0].strip()), match.span(), scope)
                )
    return found


def words_of(text: str) -> set[str]:
    """The words of a text, and the fronts of dotted ones. What stands behind a dot names a field, unless the
    dot ends a lambda."""
    text = re.sub(r"λ[^.\n]*\.", lambda match: match[0][:-1] + " ", text)
    found = {"[]"} if "[]" in text else set()
    for word in BETWEEN.split(text):
        for part in word.split("::"):
            front = part.split(".")[0] or part
            found.update((part, front, front.strip("«»"), front.lstrip("λ")))
    return found


def is_used(name: str, words: set[str]) -> bool:
    return all(part in words for part in name.split("◌") if part) or name.strip("«»") in words


def find_unused(text: str, is_rust: bool) -> list[Import]:
    """The imports whose names nothing in their reach has, or that one before has brought."""
    plain = without_comments(text, is_rust)
    found, brought, again = imports_of(plain, is_rust), set(), []
    for own in found:
        if (own.name, own.module, own.scope) in brought:
            again.append(own)
        brought.add((own.name, own.module, own.scope))
    return sorted({*again, *filter_unused(plain, found, is_rust)}, key=lambda own: own.start)


def filter_unused(plain: str, found: list[Import], is_rust: bool) -> list[Import]:
    """Those of the imports whose names nothing in their reach has."""
    rest = plain
    for span in {it.statement for it in found}:
        rest = blank_range(rest, *span)
    if not is_rust:
        words = words_of(rest)
        return [it for it in found if not is_used(it.name, words)]
    parts = list(ghost_parts(rest))

    def words_in(scopes: Span, but: list[Span]) -> set[str]:
        """The words of the parts that stand in a scope and in none of the others."""
        taken = [part for part in parts if scopes[0] <= part[0] < scopes[1]]
        return words_of(
            " ".join(rest[a:b] for a, b in taken if not any(x <= a < y for x, y in but))
        )

    left = []
    for own in found:
        inner = [
            one.scope
            for one in found
            if one.name == own.name and own.scope[0] < one.scope[0] and one.scope[1] <= own.scope[1]
        ]
        if not is_used(own.name, words_in(own.scope, inner)):
            left.append(own)
    return left


def remove_imports(text: str, gone: Iterable[Import]) -> str:
    """The text without some of its imports."""
    by_statement: dict[Span, list[Import]] = {}
    for own in gone:
        by_statement.setdefault(own.statement, []).append(own)
    for span, names in sorted(by_statement.items(), reverse=True):
        statement = text[span[0] : span[1]]
        kept = None
        if "{" in statement and names[0].start != span[0]:
            found = re.fullmatch(r"([^{]*\{)([^}]*)(\}.*)", statement, re.DOTALL)
            assert found
            head, inside, behind = found.groups()
            begin, gone_at = span[0] + len(head), {it.start for it in names}
            parts = [
                (begin + match.start() + len(match[0]) - len(match[0].lstrip()), match[0].strip())
                for match in re.finditer(r"[^,]+", inside)
            ]
            left = [part for at, part in parts if part and at not in gone_at]
            kept = head + ", ".join(left) + behind if left else None
        if kept is not None:
            text = text[: span[0]] + kept + text[span[1] :]
        else:
            before, after = text[: span[0]], text[span[1] + 1 :]
            if (
                before.endswith("{\n") or before.endswith("\n\n") or not before
            ) and after.startswith("\n"):
                after = after[1:]
            text = before + after
    return text


def files_below(names: Iterable[str]) -> Iterator[str]:
    for name in names:
        if os.path.isfile(name):
            yield name
            continue
        for folder, folders, files in os.walk(name):
            folders[:] = sorted(it for it in folders if it != "out")
            yield from (
                os.path.join(folder, file)
                for file in sorted(files)
                if file.endswith((".rt", ".antt"))
            )


def main() -> int:
    parser = argparse.ArgumentParser(
        description=__doc__, formatter_class=argparse.RawDescriptionHelpFormatter
    )
    parser.add_argument(
        "paths", nargs="*", metavar="FILE or FOLDER", help="where to look (all crates)"
    )
    parser.add_argument("--fix", action="store_true", help="take the names out")
    call = parser.parse_args()
    fix: bool = call.fix
    count = 0
    for path in files_below(call.paths or [os.path.join(TOP, "crates")]):
        with open(path, encoding="utf-8") as file:
            text = file.read()
        waiting = WAITING.get(os.path.relpath(path, TOP), set()) if not fix else set()
        gone = [own for own in find_unused(text, path.endswith(".rt")) if own.name not in waiting]
        count += len(gone)
        for own in gone:
            print(f"{os.path.relpath(path)}:{text.count(chr(10), 0, own.start) + 1}: {own.name}")
        if gone and fix:
            with open(path, "w", encoding="utf-8") as file:
                file.write(remove_imports(text, gone))
    return 1 if count and not fix else 0


if __name__ == "__main__":
    sys.exit(main())
