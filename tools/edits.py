#!/usr/bin/env python3
"""The edits that a proof must refuse: each gives one function a wrong body, and its name says what is wrong.

The two most significant edits of each crate stand in its must-fail/, where `rt ci` tries them. The others stand
in edits/ beside it, in the same form: a line `file: src/lib.rt`, and then pairs of lines `old: TEXT` and
`new: TEXT`.

Without --check, `rt must-fail` tries the edits in a copy of the crates, with a check for each edit, side by
side as memory allows. An edit passes if a clause refuses it. It fails if the prover only misses a name that
the edit took away. The last line is `N passed, M failed`, and the status is 0 exactly if M is 0. Where the
Rattle kit isn't installed, the status is 77.

--check finds each edit that can't be tried: its file isn't in src/ of its crate; an old text doesn't stand
there exactly once after its earlier pairs; it changes nothing; its crate has its name twice; it has a line
that isn't read; it is the third one in a must-fail/; or crates.txt doesn't list its crate. --planted makes
each of these mistakes in a copy, and each must be found. The status is 1 if there is a mistake."""

import argparse
import contextlib
import os
import re
import shutil
import signal
import subprocess
import sys
import tempfile
from typing import Iterator, NamedTuple

TOP = os.path.abspath(os.path.join(os.path.dirname(os.path.abspath(__file__)), ".."))
FOLDERS = ("must-fail", "edits")
MOST_IN_GATE = 2
# The status for a part of bin/test that skips itself.
SKIPPED = 77
FREE_BYTES = 6_000_000_000
# What `rt must-fail` says of an edit: crate, file, and what came of it.
OUTCOME = re.compile(
    r"(?:rt: )?must-fail (\w+)/([\w.-]+)\.edit: (refused|NOT REFUSED|BAD EDIT|NOT TRIED)(.*)"
)
# What it says of one that is refused for another reason than a clause.
WEAK = re.compile(r"only because a proof file names|only by a limit")


class Edit(NamedTuple):
    """An edit: its crate, its folder in the crate, and its file's name."""

    crate: str
    folder: str
    name: str

    def path(self) -> str:
        return f"crates/{self.crate}/{self.folder}/{self.name}"


def read_text(path: str) -> str:
    with open(path, encoding="utf-8") as file:
        return file.read()


def list_edits(top: str) -> list[Edit]:
    """All files of the folders for edits, crate by crate."""
    return [
        Edit(crate, folder, name)
        for crate in sorted(os.listdir(f"{top}/crates"))
        for folder in FOLDERS
        if os.path.isdir(f"{top}/crates/{crate}/{folder}")
        for name in sorted(os.listdir(f"{top}/crates/{crate}/{folder}"))
    ]


def apply_pairs(top: str, edit: Edit) -> Iterator[str]:
    """What is wrong with an edit's lines: they are read, and their pairs applied one after another, as `rt
    must-fail` does."""
    source, pairs = "", 0
    old: str | None = None
    texts: dict[str, str] = {}
    for number, line in enumerate(read_text(f"{top}/{edit.path()}").split("\n"), 1):
        if line.startswith("file: "):
            source = line.removeprefix("file: ").strip()
            full = f"{top}/crates/{edit.crate}/{source}"
            if not source.startswith("src/") or os.path.normpath(source) != source:
                yield f"{number}: {source} is no file of src/"
                return
            if not os.path.isfile(full):
                yield f"{number}: there is no {source}"
                return
            texts.setdefault(source, read_text(full))
        elif line.startswith("old: "):
            if old is not None:
                yield f"{number}: the 'old:' line before it has no 'new:'"
            old = line.removeprefix("old: ")
        elif line.startswith("new:"):
            new = line.removeprefix("new:").removeprefix(" ")
            if not source or not old:
                yield f"{number}: no 'file:' or no 'old:' line stands before it"
                return
            found = texts[source].count(old)
            if found != 1:
                yield f"{number}: the old text stands {found} times in {source}, and not once: {old}"
                return
            if new == old:
                yield f"{number}: it changes nothing"
            texts[source], old, pairs = texts[source].replace(old, new), None, pairs + 1
        elif line.strip() and not line.startswith(("#", "--", "//")):
            yield f"{number}: no such line is read: {line.strip()}"
    if old is not None:
        yield "1: its last 'old:' line has no 'new:'"
    elif not pairs:
        yield "1: it has no pair of an 'old:' and a 'new:' line"


def find_mistakes(top: str) -> Iterator[str]:
    """All mistakes, each as `FILE:LINE: WHAT`."""
    listed = set(re.findall(r"(?m)^([a-z]\w*)[^:\n]*:", read_text(f"{top}/crates.txt")))
    seen: dict[tuple[str, str], Edit] = {}
    in_gate: dict[str, int] = {}
    for edit in list_edits(top):
        path = edit.path()
        if not re.fullmatch(r"[A-Za-z0-9_-][A-Za-z0-9_.-]*\.edit", edit.name):
            yield f"{path}:1: its name isn't that of an edit: letters, digits and _, and .edit"
            continue
        if edit.crate not in listed:
            yield f"{path}:1: crates.txt has no crate {edit.crate}"
        before = seen.setdefault((edit.crate, edit.name), edit)
        if before != edit:
            yield f"{path}:1: there is a {before.path()} too"
        if edit.folder == "must-fail":
            in_gate[edit.crate] = in_gate.get(edit.crate, 0) + 1
            if in_gate[edit.crate] == MOST_IN_GATE + 1:
                yield f"{path}:1: must-fail/ has more than {MOST_IN_GATE}; the others stand in edits/"
        for mistake in apply_pairs(top, edit):
            yield f"{path}:{mistake}"


# Mistakes to plant: what a file of a crate is made to have, and what has to be found.
EDIT = "file: src/lib.rt\nold: let one = 1;\nnew: let one = 2;\n"
SOURCE = "fn one() {\n    let one = 1;\n}\nfn two() {\n    let two = 2;\n    let two = 2;\n}\n"
PLANTS: list[tuple[str, dict[str, str], str]] = [
    ("none", {}, ""),
    ("a pair behind a pair", {"edits/b.edit": EDIT + "old: one = 2\nnew: one = 3\n"}, ""),
    ("no source", {"edits/b.edit": EDIT.replace("lib", "bil")}, "there is no src/bil.rt"),
    ("a proof", {"edits/b.edit": EDIT.replace("src", "proofs")}, "is no file of src/"),
    ("above src/", {"edits/b.edit": EDIT.replace("src/", "src/../src/")}, "is no file of src/"),
    ("no old text", {"edits/b.edit": EDIT.replace("old: let", "old: mut")}, "stands 0 times"),
    (
        "two old texts",
        {"edits/b.edit": EDIT.replace("old: let one = 1", "old: let two = 2")},
        "2 times",
    ),
    ("a pair undone", {"edits/b.edit": EDIT + "old: one = 1\nnew: one = 3\n"}, "stands 0 times"),
    ("nothing changed", {"edits/b.edit": EDIT.replace("= 2", "= 1")}, "it changes nothing"),
    ("no new text", {"edits/b.edit": EDIT + "old: let two\n"}, "its last 'old:' line"),
    ("two old lines", {"edits/b.edit": EDIT.replace("old:", "old: x\nold:")}, "has no 'new:'"),
    ("no pair", {"edits/b.edit": "file: src/lib.rt\n"}, "it has no pair"),
    ("no file line", {"edits/b.edit": EDIT.split("\n", 1)[1]}, "no 'file:'"),
    ("another line", {"edits/b.edit": EDIT + "newer: x\n"}, "no such line is read"),
    ("a name twice", {"edits/a.edit": EDIT}, "there is a crates/planted/must-fail/a.edit too"),
    ("another ending", {"edits/b.txt": EDIT}, "its name isn't that of an edit"),
    ("a third", {"must-fail/b.edit": EDIT, "must-fail/c.edit": EDIT}, "has more than 2"),
    (
        "no crate",
        {"../other/edits/b.edit": EDIT, "../other/src/lib.rt": SOURCE},
        "has no crate other",
    ),
]


def find_plants() -> Iterator[str]:
    """The planted mistakes that aren't found, or not alone."""
    for what, files, wanted in PLANTS:
        with tempfile.TemporaryDirectory() as top:
            usual = {
                "src/lib.rt": SOURCE,
                "must-fail/a.edit": EDIT,
                "../../crates.txt": "planted: std\n",
            }
            for name, text in (usual | files).items():
                path = os.path.normpath(f"{top}/crates/planted/{name}")
                os.makedirs(os.path.dirname(path), exist_ok=True)
                with open(path, "w", encoding="utf-8") as file:
                    file.write(text)
            found = list(find_mistakes(top))
        if not wanted and found or wanted and (len(found) != 1 or wanted not in found[0]):
            yield f"planted, and not found alone: {what}: {found}"


def check_edits(with_plants: bool) -> int:
    wrong = list(find_mistakes(TOP)) + (list(find_plants()) if with_plants else [])
    print(*wrong, sep="\n", end="\n" if wrong else "")
    planted = f", {len(PLANTS)} plants" if with_plants else ""
    print(f"{len(list_edits(TOP))} edits{planted}, {len(wrong)} mistakes")
    return 1 if wrong else 0


def copy_crates(top: str, crates: set[str]) -> None:
    """Copies the crates, with the edits of those in the place of what their must-fail/ has."""
    for name in ("crates.txt", "HANDLES"):
        shutil.copyfile(f"{TOP}/{name}", f"{top}/{name}")
    skip = shutil.ignore_patterns("out", *FOLDERS)
    shutil.copytree(f"{TOP}/crates", f"{top}/crates", ignore=skip, symlinks=True)
    for crate in crates:
        shutil.copytree(f"{TOP}/crates/{crate}/edits", f"{top}/crates/{crate}/must-fail")


def run_prover(top: str, crates: set[str]) -> Iterator[str]:
    """The lines that `rt must-fail` says of these crates. However this ends, the prover ends with it."""
    ran = subprocess.Popen(
        ["rt", "must-fail", *sorted(crates)],
        cwd=top,
        stdin=subprocess.DEVNULL,
        stdout=subprocess.PIPE,
        stderr=subprocess.STDOUT,
        text=True,
        errors="replace",
        start_new_session=True,
    )
    assert ran.stdout
    try:
        yield from ran.stdout
        ran.wait()
    finally:
        with contextlib.suppress(ProcessLookupError):
            os.killpg(ran.pid, signal.SIGTERM)
        ran.wait()


def judge_line(line: str) -> tuple[str, str, bool] | None:
    """The crate and the name of the edit that a line is about, and whether that was refused by what it is to
    be refused by."""
    found = OUTCOME.match(line)
    if not found:
        return None
    return found[1], f"{found[2]}.edit", found[3] == "refused" and not WEAK.search(found[4])


def try_edits(chosen: list[str]) -> int:
    edits = [it for it in list_edits(TOP) if it.folder == "edits"]
    unknown = [it for it in chosen if it not in {edit.crate for edit in edits}]
    if unknown:
        print(f"edits: no crate with an edits/: {', '.join(unknown)}", file=sys.stderr)
        return 2
    left = {(it.crate, it.name) for it in edits if not chosen or it.crate in chosen}
    passed = failed = 0
    with tempfile.TemporaryDirectory(prefix="predator-edits-") as top:
        if shutil.disk_usage(top).free < FREE_BYTES:
            print(f"less than {FREE_BYTES // 10**9} GB are free in {os.path.dirname(top)}")
            return SKIPPED
        crates = {crate for crate, _ in left}
        copy_crates(top, crates)
        print(f"{len(left)} edits of {len(crates)} crates: a check for each", flush=True)
        for line in run_prover(top, crates):
            judged = judge_line(line)
            if judged is None:
                # (what it proves of the crates below goes by)
                if line.startswith("rt: "):
                    print(line, end="", flush=True)
                continue
            left.discard(judged[:2])
            passed, failed = passed + judged[2], failed + (not judged[2])
            print(
                "passed" if judged[2] else "FAILED", line.removeprefix("rt: "), end="", flush=True
            )
    for crate, name in sorted(left):
        print(f"FAILED {crate}/{name}: the prover printed no result")
    print(f"{passed} passed, {failed + len(left)} failed")
    return 1 if failed or left else 0


def main() -> int:
    parser = argparse.ArgumentParser(
        description=__doc__, formatter_class=argparse.RawDescriptionHelpFormatter
    )
    parser.add_argument(
        "crates", nargs="*", metavar="CRATE", help="try the edits of these crates (all)"
    )
    parser.add_argument(
        "--check", action="store_true", help="compare all edits with the sources, and try none"
    )
    parser.add_argument("--planted", action="store_true", help="with --check: plant mistakes too")
    call = parser.parse_args()
    if call.check:
        return check_edits(call.planted)
    if not shutil.which("rt"):
        print("edits aren't tried: the Rattle kit isn't installed")
        return SKIPPED
    for number in (signal.SIGTERM, signal.SIGHUP):
        signal.signal(number, lambda *_: sys.exit(1))
    return try_edits(call.crates)


if __name__ == "__main__":
    sys.exit(main())
