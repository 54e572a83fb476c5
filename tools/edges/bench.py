"""Makes calls of the program over files of its own, and how they ended and which calls of the system
they made."""

import collections
import os
import subprocess
from typing import Iterator, NamedTuple, Sequence

import files
from cases import Case, all_cases

Fault = str
# What stands under the name of an output before the call: more bytes than any output has, and no front of
# one.
OLDER = b"older " * 40000
SECONDS = 60


class Call(NamedTuple):
    """A call of the system, as between.c writes it down. `name` is the file that it is about, `<1>` and `<2>`
    for the streams."""

    call: str
    fd: int
    asked: int
    answer: int
    error: int
    name: str


class Ending(NamedTuple):
    """How a call ended: `files` has what stands under the names of its outputs now, and `before` what stood
    there."""

    status: int
    printed: bytes
    said: bytes
    before: dict[str, bytes | None]
    files: dict[str, bytes | None]
    calls: list[Call]
    faults: list[Fault]


def read_content(name: str) -> bytes | None:
    try:
        with open(name, "rb") as file:
            return file.read()
    except FileNotFoundError:
        return None


def parse_calls(text: str) -> list[Call]:
    """The calls that were written down, each with the name that its file was opened under."""
    found, names = [], {0: "<0>", 1: "<1>", 2: "<2>"}
    for line in text.splitlines():
        call, *numbers, name = line.split(" ", 5)
        fd, asked, answer, error = map(int, numbers)
        found.append(Call(call, fd, asked, answer, error, name or names.get(fd, f"<{fd}>")))
        if call == "open" and answer >= 0:
            names[answer] = name
    return found


class Bench:
    """Where the calls are made, and what came of them. `planted` is a mistake that is made in the program's
    name."""

    def __init__(self, program: str, work: str, shim: str, planted: dict[str, str]) -> None:
        self.program, self.work, self.shim, self.planted = program, work, shim, planted
        self.folder, self.log = os.path.join(work, "files"), os.path.join(work, "log")
        self.cases = all_cases()
        self.tried: collections.Counter[tuple[str, str]] = collections.Counter()
        self.failed: list[str] = []
        os.makedirs(self.folder, exist_ok=True)
        os.chdir(self.folder)
        for name, bytes_of in files.input_files().items():
            with open(name, "wb") as file:
                file.write(bytes_of)
        self.kept = self.stat_inputs()

    def writing_cases(self) -> Iterator[Case]:
        return (it for it in self.cases if not it.is_refused() and it.writes and it.writes[-1][1])

    def largest_cases(self) -> list[Case]:
        """Of each command that writes the call with the most files."""
        found: dict[str, Case] = {}
        for case in self.writing_cases():
            best = found.setdefault(case.words[0], case)
            if len(case.reads + case.writes) > len(best.reads + best.writes):
                found[case.words[0]] = case
        return list(found.values())

    def stat_inputs(self) -> dict[str, tuple[int, ...]]:
        """Of each file that is none of the outputs what changes when it is written, or is another one."""
        found: dict[str, tuple[int, ...]] = {}
        for entry in os.scandir("."):
            known = entry.stat(follow_symlinks=False)
            found[entry.name] = (known.st_ino, known.st_size, known.st_mtime_ns, known.st_mode)
        return found

    def environment(self, how: dict[str, str]) -> dict[str, str]:
        own = {it: word for it, word in os.environ.items() if not it.startswith("EDGES_")}
        # (large pages, as the launcher asks for them)
        own = {"GLIBC_TUNABLES": "glibc.malloc.hugetlb=1"} | own
        return (
            own
            | {"LC_ALL": "C", "LD_PRELOAD": self.shim, "EDGES_LOG": self.log}
            | self.planted
            | how
        )

    def call(self, case: Case, how: dict[str, str] | None = None, is_new: bool = False) -> Ending:
        """Makes a call, with older files under the names of its outputs, or with none."""
        names = [name for name, _ in case.writes]
        before: dict[str, bytes | None] = {name: None if is_new else OLDER for name in names}
        for name in names:
            if is_new:
                if os.path.exists(name):
                    os.remove(name)
            else:
                with open(name, "wb") as file:
                    file.write(OLDER)
        if os.path.exists(self.log):
            os.remove(self.log)
        status, printed, said, faults = self.run(case.words, how or {}, case.piped)
        written = {name: read_content(name) for name in names}
        for name in names:
            if os.path.exists(name):
                os.remove(name)
        faults += self.changed_inputs()
        return Ending(
            status,
            printed,
            said,
            before,
            written,
            parse_calls((read_content(self.log) or b"").decode(errors="replace")),
            faults,
        )

    def run(
        self, words: Sequence[str], how: dict[str, str], piped: str = ""
    ) -> tuple[int, bytes, bytes, list[Fault]]:
        faults = []
        with open(piped or os.devnull, "rb") as given:
            with subprocess.Popen(
                [self.program, *words],
                stdin=given,
                stdout=subprocess.PIPE,
                stderr=subprocess.PIPE,
                env=self.environment(how),
                start_new_session=True,
            ) as ran:
                try:
                    printed, said = ran.communicate(timeout=SECONDS)
                except subprocess.TimeoutExpired:
                    ran.kill()
                    printed, said = ran.communicate()
                    faults.append(f"it hadn't ended after {SECONDS} s")
        try:
            os.killpg(ran.pid, 0)
            faults.append("it left something running")
        except ProcessLookupError:
            pass
        return ran.returncode, printed, said, faults

    def changed_inputs(self) -> list[Fault]:
        """What became of the files that no output is."""
        now = self.stat_inputs()
        found = [f"{name} was changed" for name in self.kept if now.get(name) != self.kept[name]]
        found += [f"{name} was made" for name in now if name not in self.kept]
        if found:
            self.kept = now
        return found

    def count(self, call: str, how: str, words: Sequence[str], faults: Sequence[Fault]) -> None:
        self.tried[call, how] += 1
        if faults:
            self.failed.append(
                f"FAILED: {' '.join(words)} [{call} {how}]:\n"
                + "".join(f"    {it}\n" for it in faults)
            )

    def print_summary(self) -> str:
        """How many tries passed and failed, and how many there were of each call and errno."""
        errors = collections.defaultdict(list)
        for (call, how), number in sorted(self.tried.items()):
            errors[call].append(f"{how} {number}" if how else str(number))
        all_of = sum(self.tried.values())
        by_call = "; ".join(f"{call}: {', '.join(hows)}" for call, hows in errors.items())
        return f"{all_of - len(self.failed)} passed, {len(self.failed)} failed ({by_call})"
