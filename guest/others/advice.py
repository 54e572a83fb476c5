#!/usr/bin/env python3
"""Follows what `predator view` advises on programs that nobody here wrote, and prints the table of
docs/STUDIES.md.

Each is built with its types, shown, built as the advice says, and counted again. Where a build of the study
does what is advised, it is that; else view's patch is taken. fetch.sh has fetched the sources. The status is
1 where what is counted differs from what was foretold by a tenth of the misses before or more, or where these
didn't become fewer."""

import json
import os
import re
import shutil
import subprocess
import sys
import tempfile
from typing import NamedTuple

HERE = os.path.dirname(os.path.abspath(__file__))
sys.path.insert(0, os.path.join(HERE, "..", "studies"))
from report import (  # noqa: E402
    BUILT,
    PROGRAM,
    markdown_table,
    parse_studies,
    renew_document,
    study_builds,
)

BUILD = os.path.join(HERE, "..", "build.sh")
STUDIES = os.path.join(HERE, "..", "studies")
SETTINGS = "quantum=10"


class AdvicePlan(NamedTuple):
    """A program: what its call sites make, and the build that does what is advised, or none where the patch
    does; `by` is what build.sh builds it by, if not by its name, and `sources` the folder in out/ that the
    patch is for, if there is one."""

    types: tuple = ()
    repaired: str | None = None
    by: str = ""
    sources: str = ""


# Of the others, and of the studies of suites.
OTHERS = {
    "ck_anderson": AdvicePlan(("main=ck_spinlock_anderson_thread",), "ck_anderson-apart"),
    "ck_ring": AdvicePlan(("main=ck_ring", "test=entry"), "ck_ring-own_lines"),
    "ck_dissemination": AdvicePlan(
        ("main=ck_barrier_dissemination_flag",), "ck_dissemination-own_lines", "ck_barriers"
    ),
    "ck_mcs": AdvicePlan(("main=ck_barrier_mcs",), "ck_mcs-own_lines", "ck_barriers"),
    "kt_for": AdvicePlan(("kt_for=ktf_worker_t",), "kt_for-blocks"),
    "urcu_wfcq": AdvicePlan((), "urcu_wfcq-patched", sources="urcu_wfcq"),
}
# (in the builds at 0 what a thread has begins at multiples of a line, and fills lines)
SUITES = {
    program: AdvicePlan((), f"{program}-at-0")
    for program in ("linear_regression", "string_match", "word_count")
}
# What isn't shown of a fix: where something is declared, how blocks are allocated, and sizes.
REST = re.compile(r" \([\w.-]+:\d+\)|, allocated with `[^`]*`|, [\d,]+ → [\d,]+ bytes.*")
# The code of a repair that is one of a type alone.
CODE = re.compile(r"give each element [^`]*(`struct [^`]*`)")
COUNTED = re.compile(r"\(false ([\d,]+) → ([\d,]+), true ([\d,]+) → ([\d,]+), cold")


def fix_text(fix):
    """A fix, in short."""
    code = CODE.match(fix)
    return code[1] if code else REST.sub("", fix)


def build_others(*studies, **more):
    subprocess.run(
        [os.path.join(HERE, "build.sh"), *studies],
        check=True,
        env={**os.environ, "DEBUG": "-g", **more},
    )


class Study:
    """A program that is built in a folder of its own."""

    def __init__(self, name, folder):
        self.name, self.folder, self.patch = name, folder, os.path.join(folder, "patch")
        self.of = {**OTHERS, **SUITES}[name]

    def build(self, name):
        """The program of a build, with its types."""
        if self.name in OTHERS:
            return os.path.join(HERE, "out", f"{name}.elf")
        kept = os.path.join(BUILT, f"{name}.elf")
        if name == self.of.repaired and os.path.exists(kept):
            return kept
        source, *flags = study_builds()[self.name][name]
        for file in os.listdir(STUDIES):
            if file.endswith((".c", ".h")) and not os.path.exists(os.path.join(self.folder, file)):
                shutil.copy(os.path.join(STUDIES, file), self.folder)
        out = os.path.join(self.folder, f"{name}.elf")
        subprocess.run(
            [BUILD, out, os.path.join(self.folder, source), "--", *flags],
            check=True,
            stdout=subprocess.DEVNULL,
        )
        return out

    def count_misses(self, program):
        """The useless and the useful misses of a run."""
        trace = os.path.join(self.folder, "trace")
        subprocess.run(
            [PROGRAM, "run", program, "--set", SETTINGS, "--trace", trace],
            check=True,
            capture_output=True,
        )
        text = subprocess.run(
            [PROGRAM, "misses", trace], check=True, capture_output=True, text=True
        ).stdout
        found = re.search(r"^total cold \d+ useful (\d+) useless (\d+)$", text, re.MULTILINE)
        return int(found[2]), int(found[1])

    def run_view(self, program):
        """What view finds of a run; the patch is beside it."""
        words = [
            "run",
            program,
            "--explain",
            "0",
            "--no-predicted",
            "--set",
            SETTINGS,
            "--json",
            "-",
            "--patch",
            self.patch,
        ]
        words += [word for it in self.of.types for word in ("--type", it)]
        sources = os.path.join(HERE, "out", self.of.sources) if self.of.sources else self.folder
        ran = subprocess.run(
            [PROGRAM, "view", *words],
            stdout=subprocess.PIPE,
            stderr=subprocess.DEVNULL,
            cwd=sources,
            check=True,
        )
        return json.loads(ran.stdout)

    def build_fixed(self):
        """The program as it is advised."""
        if self.of.sources:
            build_others(self.name, PATCH=self.patch)
        elif not self.of.repaired:
            subprocess.run(["patch", "-p1", "-s", "-i", self.patch], cwd=self.folder, check=True)
        return self.build(self.of.repaired or self.name)

    def row(self):
        """The row of the table, and what is wrong."""
        found = self.run_view(self.build(self.name))
        advised = [it for it in found["objects"] if it["tried"]]
        together = [it for it in found["notes"] if it.startswith("all fixes together")]
        before = found["total"]["false_sharing"], found["total"]["true_sharing"]
        foretold = before
        if together:
            counts = [int(it.replace(",", "")) for it in COUNTED.findall(together[0])[0]]
            foretold = counts[1], counts[3]
        elif advised:
            after = advised[0]["tried"]["after"]
            foretold = after["false_sharing"], after["true_sharing"]
        counted = self.count_misses(self.build_fixed())
        how = "; ".join(fix_text(it["fix"]) for it in advised) or "nothing"
        is_good = abs(sum(counted) - sum(foretold)) * 10 < sum(before) and (
            sum(counted) < sum(before) or not advised
        )
        wrong = (
            []
            if is_good
            else [f"{self.name}: {before} before, {foretold} foretold, {counted} counted"]
        )
        return [
            self.name,
            how,
            *(" + ".join(map(str, it)) for it in (before, foretold, counted)),
        ], wrong


def main():
    names, renews = parse_studies(__doc__, [*OTHERS, *SUITES])
    others = dict.fromkeys(OTHERS[it].by or it for it in names if it in OTHERS)
    if others:
        build_others(*others)
    rows, wrong = [], []
    for name in names:
        with tempfile.TemporaryDirectory() as folder:
            row, bad = Study(name, folder).row()
        rows.append(row)
        wrong += bad
    heads = ["Program", "Advice", "Before", "Tried on the trace", "After the change"]
    text = markdown_table(heads, rows)
    print(text)
    for fault in wrong:
        print(fault)
    if renews:
        renew_document({"advice": text})
    return 1 if wrong else 0


if __name__ == "__main__":
    sys.exit(main())
