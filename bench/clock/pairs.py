"""The pairs of programs/: what they are, and how both forms of each are built, for this machine and for
predator's harts."""

import os
import subprocess
import sys
from concurrent.futures import ThreadPoolExecutor
from typing import Iterable, NamedTuple, Sequence

HERE = os.path.dirname(os.path.abspath(__file__))
TOP = os.path.dirname(os.path.dirname(HERE))
PROGRAMS = os.path.join(HERE, "programs")
# (for the bands and the templates of view)
sys.path.append(TOP)
GUESTS = os.path.join(HERE, "guests.sh")
# What a first line may say that its program is.
KINDS = ("false", "mixed", "handover", "true", "none")
# The two forms of a pair: as it is, and with -DPADDED.
FORMS = ("as it is", "padded")


class Trouble(Exception):
    """What can't be done, in a line."""


class Program(NamedTuple):
    """A pair: its name, what is shared (one of KINDS), and what it does, in a line."""

    name: str
    kind: str
    text: str
    source: str


class Built(NamedTuple):
    """A form of a pair for so many threads and lines of so many bytes: the files of both machines, of which
    the guest's may be missing."""

    program: Program
    form: str
    threads: int
    line: int
    native: str
    guest: str


def find_programs(only: Sequence[str] = ()) -> list[Program]:
    """All pairs, by their kinds and names, or those that are named. Trouble where a name isn't there, or a
    first line says no kind."""
    found = []
    for file in sorted(os.listdir(PROGRAMS)):
        name, ending = os.path.splitext(file)
        if ending != ".c" or (only and name not in only):
            continue
        source = os.path.join(PROGRAMS, file)
        with open(source, encoding="utf-8") as text:
            kind, _, summary = text.readline().removeprefix("// ").strip().partition(": ")
        if kind not in KINDS:
            raise Trouble(f"{source}: the first line names none of {', '.join(KINDS)}")
        found.append(Program(name, kind, summary, source))
    missing = set(only) - {it.name for it in found}
    if missing:
        raise Trouble(f"there is no {', '.join(sorted(missing))} in {PROGRAMS}")
    return sorted(found, key=lambda pair: (KINDS.index(pair.kind), pair.name))


def run_command(words: Sequence[str], seconds: float = 300, given: str = "") -> str:
    """What a command prints that is given a text. Trouble where it fails or takes longer."""
    try:
        done = subprocess.run(words, capture_output=True, text=True, timeout=seconds, input=given)
    except subprocess.TimeoutExpired:
        raise Trouble(f"took more than {seconds:.0f} s: {' '.join(words)}") from None
    except OSError as error:
        raise Trouble(f"{words[0]}: {error.strerror}") from None
    if done.returncode != 0:
        raise Trouble(
            f"status {done.returncode}: {' '.join(words)}\n{done.stdout[-2000:]}{done.stderr[-2000:]}"
        )
    return done.stdout


def build(target: Built) -> None:
    """Both machines' files of a form, as far as they have a name; the guests' kit is there."""
    own = [
        f"-I{HERE}",
        f"-DTHREADS={target.threads}",
        f"-DLINE={target.line}",
        *(["-DPADDED"] if target.form == FORMS[1] else []),
    ]
    if target.native:
        run_command(
            [
                "gcc",
                "-O2",
                "-g",
                "-pthread",
                "-D_GNU_SOURCE",
                "-Wall",
                "-Wextra",
                *own,
                target.program.source,
                "-o",
                target.native,
            ]
        )
    if target.guest:
        run_command(
            [GUESTS, os.path.dirname(target.guest)],
            given=" ".join([target.guest, target.program.source, *own]) + "\n",
        )


def build_all(
    chosen: Iterable[Program], threads: Sequence[int], line: int, folder: str, guests: bool
) -> list[Built]:
    """Each form of each pair for each number of threads, in the folder, as many at a time as there are
    processors."""
    made = []
    for program in chosen:
        for count in threads:
            for form in FORMS:
                path = os.path.join(folder, f"{program.name}-{count}-{form.replace(' ', '-')}")
                made.append(
                    Built(program, form, count, line, path, f"{path}.elf" if guests else "")
                )
    if guests:
        run_command([GUESTS, folder, "--kit"])
    with ThreadPoolExecutor(os.cpu_count()) as pool:
        list(pool.map(build, made))
    return made
