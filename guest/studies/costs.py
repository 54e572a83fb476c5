#!/usr/bin/env python3
"""What the sharing of each study costs, before and after its repair, and which lines of its source fight most
over the first line of its report.

It builds the programs with line tables (clang, lld and picolibc are wanted, and llvm-symbolizer), and runs
`run`, `misses` and `explain`. --renew puts the tables into docs/STUDIES.md. It ends with 1 where
`tools/recount_misses.py` or a report says otherwise than these."""

import json
import os
import re
import subprocess
import sys
import tempfile

from report import (
    PROGRAM,
    SETTINGS,
    TOP,
    Report,
    study_builds,
    parse_studies,
    renew_document,
    address_text,
    markdown_table,
)

sys.path.insert(0, os.path.join(TOP, "tools"))
import recount_misses  # noqa: E402


def program_output(*words):
    """What a call of the program prints, which must end well."""
    ran = subprocess.run([PROGRAM, *words], stdout=subprocess.PIPE, text=True, check=False)
    if ran.returncode != 0:
        sys.exit(f"predator {' '.join(words)}: status {ran.returncode}\n{ran.stdout}")
    return ran.stdout


def source_place(path, pc, name):
    """The line of the source that has an instruction, with its function and the one that it is inlined in; a
    function of the C library, which has no line tables, by its name."""
    words = ["llvm-symbolizer", f"--obj={path}", "--output-style=JSON", f"{pc:#x}"]
    ran = subprocess.run(words, stdout=subprocess.PIPE, text=True, check=True)
    frames = json.loads(ran.stdout)[0]["Symbol"]
    # (the compiler gives some inlined code no line, and then the line of the call stands)
    lines = [
        f"`{os.path.basename(frame['FileName'])}:{frame['Line']}`"
        for frame in frames
        if frame["FileName"] and frame["Line"]
    ]
    if not lines:
        return f"`{name}`, at `{address_text(pc)}`"
    return f"{lines[0]} ({' < '.join(it['FunctionName'] for it in frames[:2])})"


class Build:
    """A build that was run: its misses, and of one line the two instructions of which one takes it from the
    other most often. The line is the first of the report, or, where `is_worst`, the first of the misses.
    """

    def __init__(self, path, settings_text="", is_worst=False):
        self.path, self.wrong = path, []
        with tempfile.TemporaryDirectory() as work:
            settings, trace = os.path.join(work, "settings"), os.path.join(work, "trace")
            with open(settings, "w") as file:
                file.write(settings_text)
            observed = Report(
                program_output(
                    "run", path, "--settings", settings, "--trace", trace, "--output", os.devnull
                )
            ).lines_of_kind("observed")
            counted = program_output("misses", trace)
            with open(trace, "rb") as file:
                if list(recount_misses.misses_text(file.read(), 64, 0)) != counted.splitlines():
                    self.wrong.append(f"{path}: recounted, the misses are other ones")
            self.total = re.search(
                r"^total cold (\d+) useful (\d+) useless (\d+)$", counted, re.MULTILINE
            ).groups()
            self.missed = [
                MissLine(block)
                for block in re.split(r"^(?=line )", counted, flags=re.MULTILINE)[1:]
            ]
            lines = {it.base: it for it in observed}
            bases = [it.base for it in (self.missed if is_worst else observed)]
            self.base = next(iter(bases), None)
            self.line = lines.get(self.base)
            self.pair = None if self.base is None else self.explain_line(settings)

    def explain_line(self, settings):
        start = self.line.start if self.line else 0
        text = program_output(
            "explain", self.path, address_text(self.base), "64", str(start), "--settings", settings
        )
        self.count = int(re.search(r"^line .* count (\d+)$", text, re.MULTILINE)[1])
        if self.line and self.count != self.line.count:
            self.wrong.append(
                f"{self.path}: the report counts {self.line.count} of {address_text(self.base)},"
                f" and explain {self.count}"
            )
        found = re.search(r"^pair (\S+) (\S+) taken (\d+) same (\d+)$", text, re.MULTILINE)
        if found is None:
            return None
        names = dict(re.findall(r"^site (\S+) .* (\S+)$", text, re.MULTILINE))
        places = [source_place(self.path, int(it, 16), names[it]) for it in found.groups()[:2]]
        return [*reversed(places), *found.groups()[2:]]


class MissLine:
    """A line of the text of misses."""

    def __init__(self, line):
        words = line.split()
        self.base, self.useful, self.useless = int(words[1], 16), int(words[5]), int(words[7])


def main():
    studies = study_builds()
    names, renews = parse_studies(__doc__, studies)
    costs, conflicts, wrong = [], [], []
    with tempfile.TemporaryDirectory() as work:
        # (with line tables; the instructions are those of the builds without)
        subprocess.run([os.path.join(TOP, "guest", "build.sh"), "studies", work], check=True)
        for name in (it for study in names for it in studies[study] if "-at-" not in it):
            build = Build(os.path.join(work, f"{name}.elf"), SETTINGS.get(name.split("-")[0], ""))
            costs.append([name, *build.total])
            if build.pair:
                conflicts.append([name, f"`{address_text(build.base)}`", build.count, *build.pair])
            wrong += build.wrong
    heads = [
        "Build",
        "Line",
        "Invalidations",
        "Most frequent invalidator",
        "Invalidated",
        "Times",
        "Same word",
    ]
    parts = {
        "costs": markdown_table(["Build", "Cold", "True sharing", "False sharing"], costs),
        "conflicts": markdown_table(heads, conflicts),
    }
    for name, text in parts.items():
        print(f"\n== {name}\n\n{text}")
    for fault in wrong:
        print(fault)
    if renews:
        renew_document(parts)
    return 1 if wrong else 0


if __name__ == "__main__":
    sys.exit(main())
