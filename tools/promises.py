#!/usr/bin/env python3
"""The functions, clauses and definitions that docs/PROMISES.md names, compared with the crates.

In the document a promise is a paragraph, followed by its references, one a line:

    - `CRATE::FUNCTION`: `CLAUSE`, `CLAUSE`       clauses that a function ensures; a method is
                                                  `CRATE::TYPE::METHOD`
    - `CRATE::TYPE::METHOD`, `METHOD`: `CLAUSE`   clauses that each of several functions ensures
    - `CRATE::FUNCTION`                           its clause without a name
    - `CRATE::FUNCTION`: requires `CLAUSE`        clauses that the caller has to show
    - `CRATE::FUNCTION`: law `CLAUSE`             clauses that name no result and no changed argument
    - law `CRATE::FUNCTION`: `CLAUSE`             the same of a function without arguments and result
    - `CRATE/specs`: `NAME`, `RECORD.FIELD`       definitions of a crate

Prints `LINE: what is wrong` for each reference that the crates don't have, and for each promise that
names no function. It ends with 1 if there is any."""

import argparse
import os
import re
import sys
from collections.abc import Iterator
from dataclasses import dataclass, field

TOP = os.path.abspath(os.path.join(os.path.dirname(os.path.abspath(__file__)), ".."))
PAGE = "docs/PROMISES.md"
# What the clause of a law never names: what a call gives or leaves.
OUTCOMES = re.compile(r"\bresult\b|\.new\b|\.old\b")
QUOTED = r"`[\w.:-]+`"
QUOTES = rf"{QUOTED}(?:, {QUOTED})*"
PART = rf"(?:requires |law )?{QUOTES}"
FUNCTIONS = re.compile(rf"- (law )?({QUOTES})(?:: ({PART}(?:; {PART})*))?")
DEFINITIONS = re.compile(rf"- `(\w+)/specs`: ({QUOTES})")


def read(path: str) -> str:
    with open(os.path.join(TOP, path), encoding="utf-8") as file:
        return file.read()


def files_below(folder: str, ending: str) -> Iterator[str]:
    for path, _, names in os.walk(os.path.join(TOP, folder)):
        yield from (os.path.join(path, name) for name in sorted(names) if name.endswith(ending))


def quotes_in(text: str) -> list[str]:
    return re.findall(r"`([^`]+)`", text)


# What the crates have.


@dataclass
class Function:
    """What a function, or all functions of one name, promise and require: clauses by their names."""

    is_public: bool = False
    takes_or_gives: bool = False
    ensures: dict[str, str] = field(default_factory=dict)
    requires: dict[str, str] = field(default_factory=dict)

    def add(self, other: "Function") -> None:
        self.is_public |= other.is_public
        self.takes_or_gives |= other.takes_or_gives
        self.ensures |= other.ensures
        self.requires |= other.requires


def without_texts(source: str) -> str:
    """A source without comments, strings and characters, whose braces aren't those of a block."""
    source = re.sub(r'"(?:[^"\\]|\\.)*"', '""', re.sub(r"(?m)//.*$", "", source))
    return re.sub(r"'(?:\\.|[^'\\])'", "''", source)


def end_of_block(text: str, at: int) -> int:
    """The end of the block that begins with the brace at a position."""
    depth = 0
    for brace in re.compile(r"[{}]").finditer(text, at):
        depth += 1 if brace[0] == "{" else -1
        if depth == 0:
            return brace.end()
    return len(text)


def end_of_signature(text: str, at: int) -> int:
    """The position of a function's first clause, of its body or of its semicolon."""
    depth = 0
    for match in re.compile(r"[(\[]|[)\]]|[{;]|\b(?:ensures|requires)\b").finditer(text, at):
        depth += {"(": 1, "[": 1, ")": -1, "]": -1}.get(match[0], 0)
        if depth == 0 and match[0] not in ")]":
            return match.start()
    return len(text)


def read_contract(text: str, at: int) -> tuple[Function, int]:
    """The function whose signature begins at a position, and the end of it."""
    begin = end_of_signature(text, at)
    function = Function(takes_or_gives=text[at:begin].strip() != "()")
    at = begin
    clause = re.compile(r"\s*(ensures|requires)\*?\s*(\w*)\s*\{")
    while match := clause.match(text, at):
        at = end_of_block(text, match.end() - 1)
        getattr(function, match[1])[match[2]] = text[match.end() : at - 1]
    if match := re.compile(r"\s*\{").match(text, at):
        at = end_of_block(text, match.end() - 1)
    return function, at


def name_of_scope(header: str) -> str:
    """The type or trait of an `impl` or `trait`: `Status`, where the header is `impl From<X> for Status`."""
    header = re.sub(r"^impl\s*<(?:[^<>]|<[^<>]*>)*>|^impl|^trait", "", header)
    match = re.search(r"\w+", header.split(" for ")[-1])
    return match[0] if match else ""


def read_functions(text: str, scope: str = "") -> Iterator[tuple[str, Function]]:
    """The functions of a source without texts. Those of an `impl` or a trait ensure its ghost items too."""
    item = r"(\bpub )?(?:\bconst )?\bfn (\w+)|^[ \t]*(?:pub )?((?:impl|trait)\b[^{;]*)\{"
    at = 0
    while match := re.compile(item, re.MULTILINE).search(text, at):
        if match[2]:
            function, at = read_contract(text, match.end())
            function.is_public = bool(match[1])
            yield scope + match[2], function
            continue
        at = end_of_block(text, match.end() - 1)
        body = text[match.end() : at - 1]
        ghosts = {name: "" for name in re.findall(r"\bghost (\w+)\s*[:=]", body)}
        for name, function in read_functions(body, f"{name_of_scope(match[3])}::"):
            function.is_public |= " for " in match[3] or match[3].startswith("trait")
            function.ensures = ghosts | function.ensures
            yield name, function


def read_definitions(text: str) -> Iterator[str]:
    """The names that a file of definitions defines, and `RECORD.FIELD` for each field of a record."""
    record = ""
    for line in text.split("\n"):
        match = re.match(r"( *)(?:abbrev |unfoldable )?(pub )(record |data )?([^\s:({]+)", line)
        if match and match[1]:
            yield f"{record}.{match[4]}"
        elif match:
            record = match[4] if match[3] else ""
            yield match[4]


class Crate:
    """The functions and the definitions of a crate."""

    def __init__(self, name: str) -> None:
        self.functions: dict[str, Function] = {}
        self.definitions: set[str] = set()
        for path in files_below(f"crates/{name}/src", ".rt"):
            source = without_texts(read(path))
            for function, contract in read_functions(source):
                self.functions.setdefault(function, Function()).add(contract)
            self.definitions |= set(re.findall(r"\b(?:struct|enum|trait|ghost) (\w+)", source))
        for path in files_below(f"crates/{name}/specs", ".antt"):
            self.definitions |= set(read_definitions(read(path)))


def read_crates() -> dict[str, Crate]:
    names = sorted(os.listdir(os.path.join(TOP, "crates")))
    return {it: Crate(it) for it in names if os.path.isdir(os.path.join(TOP, "crates", it, "src"))}


# What the document names.


def full_names(quoted: list[str]) -> list[str]:
    """Functions, each with the crate and the type of the one that is named in full before it."""
    found: list[str] = []
    for name in quoted:
        found.append(name if "::" in name else f"{found[-1].rpartition('::')[0]}::{name}")
    return found


def wrong_clauses(name: str, function: Function, parts: str, is_law: bool) -> Iterator[str]:
    """What is wrong with the clauses of a function, as the parts of a reference name them."""
    for part in parts.split("; "):
        match = re.match("law|requires", part)
        kind = match[0] if match else "ensures"
        clauses = function.requires if kind == "requires" else function.ensures
        for clause in quotes_in(part) or [""]:
            if clause not in clauses:
                what = f"clause {clause}" if clause else "clause without a name"
                yield f"{name} has no {what} that it {kind.replace('law', 'ensures')}"
            elif (is_law or kind == "law") and OUTCOMES.search(clauses[clause]):
                yield f"{name}: {clause} is no law, since it names what a call gives or leaves"


def wrong_functions(crates: dict[str, Crate], match: re.Match[str]) -> Iterator[str]:
    """What is wrong with a reference to functions."""
    is_law = bool(match[1])
    for name in full_names(quotes_in(match[2])):
        crate, _, path = name.partition("::")
        if crate not in crates:
            yield f"there is no crate {crate}"
        elif path not in crates[crate].functions:
            yield f"crate {crate} has no function {path}"
        else:
            function = crates[crate].functions[path]
            if not function.is_public:
                yield f"{name} is private"
            if is_law and function.takes_or_gives:
                yield f"{name} is no law: it has arguments or a result"
            if not is_law and not function.takes_or_gives:
                yield f"{name} is a law: it has neither arguments nor a result"
            yield from wrong_clauses(name, function, match[3] or "", is_law)


def wrong_definitions(crates: dict[str, Crate], match: re.Match[str]) -> Iterator[str]:
    """What is wrong with a reference to definitions."""
    if match[1] not in crates:
        yield f"there is no crate {match[1]}"
        return
    for name in quotes_in(match[2]):
        if name not in crates[match[1]].definitions:
            yield f"crate {match[1]} has no definition {name}"


def references(text: str) -> Iterator[tuple[int, str]]:
    """The lines that follow a paragraph and are list items which begin with a name."""
    before = ""
    for number, line in enumerate(text.split("\n"), 1):
        if re.match(r"- (?:law )?`\w+(?:::|/specs`)", line) and before:
            yield number, line
        before = line


def wrong_references(crates: dict[str, Crate], text: str) -> Iterator[str]:
    """What is wrong with the references of a text, each with its line."""
    last, has_function = 0, True
    for number, line in [*references(text), (0, "")]:
        if number != last + 1:
            if not has_function:
                yield f"{last}: the promise names no function"
            has_function = number == 0
        last = number
        if match := DEFINITIONS.fullmatch(line):
            yield from (f"{number}: {it}" for it in wrong_definitions(crates, match))
        elif match := FUNCTIONS.fullmatch(line):
            has_function = True
            yield from (f"{number}: {it}" for it in wrong_functions(crates, match))
        elif number:
            yield f"{number}: this is no reference: {line}"


# Mistakes, to try this script.


# What to replace, by what, and what is then said.
MISTAKES = [
    (
        "- law `trace_format::where_the_first_fault_stands`: `stands`, `only`",
        "- law `trace_format::where_the_first_fault_stands`: `stands`, `no_prefix`",
        "trace_format::where_the_first_fault_stands has no clause no_prefix that it ensures",
    ),
    (
        "- `command_line/specs`: `trace_of`, `trace_read`",
        "- `shelf/specs`: `trace_of`, `trace_read`",
        "crate shelf has no definition trace_read",
    ),
    (
        "- `misses/specs`: `missed`, `HasMissed`, `misses_of_records`",
        "- `report/specs`: `missed`, `HasMissed`, `misses_of_records`",
        "crate report has no definition misses_of_records",
    ),
    (
        "- `predator_cli::predator`: law `within`",
        "- `predator_cli::predator`: law `ends`",
        "predator_cli::predator: ends is no law, since it names what a call gives or leaves",
    ),
    (
        "- `predator_cli::predator`: law `recounts`",
        "- law `predator_cli::predator`: `recounts`",
        "predator_cli::predator is no law: it has arguments or a result",
    ),
    (
        "- `predator_cli::predator`: `complete`",
        "- `predator_cli::predator`",
        "predator_cli::predator has no clause without a name that it ensures",
    ),
    (
        "- `predator_cli::predator`: `complete`",
        "- `predator_cli::predator`: requires `complete`",
        "predator_cli::predator has no clause complete that it requires",
    ),
    (
        "- `predator_cli::predator`: `complete`",
        "- `predator::predator`: `complete`",
        "crate predator has no function predator",
    ),
    (
        "- `predator_cli::predator`: `complete`",
        "- `predators::predator`: `complete`",
        "there is no crate predators",
    ),
    (
        "- `predator_cli::predator`: `complete`",
        "- `predator_cli::predator`: `complete` and more",
        "this is no reference: - `predator_cli::predator`: `complete` and more",
    ),
    (
        "- `predator_cli::predator`: `complete`\n",
        "",
        "the promise names no function",
    ),
    (
        "- law `misses::word_lines_waste_nothing`",
        "- `misses::word_lines_waste_nothing`",
        "misses::word_lines_waste_nothing is a law: it has neither arguments nor a result",
    ),
    (
        "- `line_tracks::Tracks::mark`, `restore`: `undoes`",
        "- `line_tracks::Track::mark`, `restore`: `undoes`",
        "line_tracks::Track::mark is private",
    ),
    (
        "`EndsWith.done`",
        "`EndsWith.gone`",
        "crate predator_cli has no definition EndsWith.gone",
    ),
]


def missed_mistakes(crates: dict[str, Crate], text: str) -> Iterator[str]:
    """The mistakes that aren't found where they are planted, or where the document has no place for them."""
    for right, wrong, said in MISTAKES:
        if right not in text:
            yield f"a mistake has no place in {PAGE}: {right.strip()}"
            continue
        planted = text.replace(right, wrong, 1)
        number = text[: text.index(right)].count("\n") + 1
        if f"{number}: {said}" not in wrong_references(crates, planted):
            yield f"a planted mistake isn't found: {wrong or right}"


def main() -> int:
    parser = argparse.ArgumentParser(
        description=__doc__, formatter_class=argparse.RawDescriptionHelpFormatter
    )
    parser.add_argument(
        "--planted",
        action="store_true",
        help="plant mistakes in copies of the document, and fail unless each is found",
    )
    is_planted: bool = parser.parse_args().planted
    crates, text = read_crates(), read(PAGE)
    wrong = [*(missed_mistakes if is_planted else wrong_references)(crates, text)]
    print("\n".join(wrong), end="\n" if wrong else "")
    what = f"{len(MISTAKES)} mistakes" if is_planted else f"{len([*references(text)])} references"
    print(f"{PAGE}: {what}, {len(wrong)} {'missed' if is_planted else 'wrong'}")
    return 1 if wrong else 0


if __name__ == "__main__":
    sys.exit(main())
