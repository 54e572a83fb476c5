#!/usr/bin/env python3
"""Builds and runs the studies of code that nobody here wrote, recounts their traces, and prints the tables of
docs/STUDIES.md.

fetch.sh has fetched the sources; build.sh builds them. --renew puts the tables into the page. It ends with 1
where a program doesn't end with exit 0, or a recount says otherwise than a report, `misses` or `explain`."""

import os
import re
import subprocess
import sys
import tempfile

HERE = os.path.dirname(os.path.abspath(__file__))
sys.path.insert(0, os.path.join(HERE, "..", "studies"))
from costs import Build, program_output  # noqa: E402
from report import Run, address_text, markdown_table, parse_studies, renew_document  # noqa: E402

OUT = os.path.join(HERE, "out")
# Of each study its builds: as it is, and after each repair.
STUDIES = {
    "ck_anderson": ["ck_anderson", "ck_anderson-apart"],
    "ck_ring": ["ck_ring", "ck_ring-apart"],
    "kt_for": ["kt_for", "kt_for-apart", "kt_for-blocks"],
    "rte_ring": ["rte_ring", "rte_ring-together", "rte_ring-together-at-24"],
    "sqlite": ["sqlite", "sqlite-no_statistics", "sqlite-apart", "sqlite-own_lines"],
    "urcu_qsbr": ["urcu_qsbr"],
    "zstd": ["zstd"],
    "xz": ["xz"],
}
SETTINGS = "quantum = 10\n"
# (their coders want some MiB for each thread)
LARGE = {"zstd": SETTINGS + "memory = 67108864\n", "xz": SETTINGS + "memory = 67108864\n"}
# The builds of which a predicted line is looked at, and the one in which what the first of them predicts is
# observed, with how far its data moved.
PREDICTED = ["rte_ring", "rte_ring-together", "kt_for-apart"]
MOVED = {"rte_ring-together": ("rte_ring-together-at-24", 24)}


def count_false_sharing(text, base, size):
    """The useless misses of all lines of a text of misses that lie in a range."""
    found = re.findall(r"^line (\S+) cold \d+ useful \d+ useless (\d+)$", text, re.MULTILINE)
    return sum(int(count) for at, count in found if base <= int(at, 16) < base + size)


def prediction_row(name, runs):
    """The first predicted line of a report: what it costs under its own layout, what the lines of 64 bytes
    that it touches cost, and, where the data lie so in another build, what is observed there."""
    line = runs[name].report.lines_of_kind("shifted", "doubled")[0]
    with tempfile.TemporaryDirectory() as work:
        settings, trace = os.path.join(work, "settings"), os.path.join(work, "trace")
        with open(settings, "w") as file:
            file.write(SETTINGS)
        program_output(
            "run",
            os.path.join(OUT, f"{name}.elf"),
            "--settings",
            settings,
            "--trace",
            trace,
            "--output",
            os.devnull,
        )
        there = count_false_sharing(
            program_output(
                "misses", trace, "--size", str(line.size), "--shift", str(line.base % line.size)
            ),
            line.base,
            line.size,
        )
        inside = count_false_sharing(
            program_output("misses", trace), line.base & -64, line.size + line.base % 64
        )
    row = [
        name,
        line.kind,
        f"`{address_text(line.base)}`",
        line.size,
        line.count,
        there,
        inside,
        "-",
        "-",
    ]
    if name in MOVED:
        other, far = MOVED[name]
        seen = [
            seen_line
            for seen_line in runs[other].report.lines_of_kind("observed")
            if seen_line.base == line.base + far
        ]
        row[-2:] = [f"`{address_text(it.base)}` of {other}" for it in seen] + [
            own.count for own in seen
        ] or ["-", "-"]
    return row


def main():
    names, renews = parse_studies(__doc__, STUDIES)
    subprocess.run([os.path.join(HERE, "build.sh"), *names], check=True)
    runs, costs, conflicts, parts, wrong = {}, [], [], {}, []
    for study in names:
        for name in STUDIES[study]:
            path = os.path.join(OUT, f"{name}.elf")
            settings = LARGE.get(study, SETTINGS)
            run, build = Run(path, settings), Build(path, settings, is_worst=True)
            runs[name] = run
            counts = [
                len(run.report.lines_of_kind("observed")),
                run.report.sum_counts("observed"),
                run.by_word.sum_counts("observed"),
            ]
            lines = sum(it.useless > 0 for it in build.missed)
            costs.append(
                [name, run.report.steps, *counts, *build.total, lines, run.excerpt_title()]
            )
            if build.pair and name == STUDIES[study][0]:
                conflicts.append([name, f"`{address_text(build.base)}`", build.count, *build.pair])
            wrong += [f"{name}: {it}" for it in run.wrong + build.wrong]
    heads = [
        "Build",
        "Steps",
        "Observed lines",
        "Invalidations",
        "By word",
        "Cold",
        "True",
        "False",
        "Lines with false",
        "Recount",
    ]
    parts["others"] = markdown_table(heads, costs)
    heads = [
        "Build",
        "Line",
        "Invalidations",
        "Most frequent invalidator",
        "Invalidated",
        "Times",
        "Same word",
    ]
    parts["others' conflicts"] = markdown_table(heads, conflicts)
    heads = [
        "Build",
        "Kind",
        "Predicted line",
        "Size",
        "Invalidations",
        "False there",
        "False in its lines of 64",
        "Observed",
        "Invalidations",
    ]
    parts["others predicted"] = markdown_table(
        heads, [prediction_row(it, runs) for it in PREDICTED if it in runs]
    )
    for name, text in parts.items():
        print(f"\n== {name}\n\n{text}")
    for fault in wrong:
        print(fault)
    if renews:
        renew_document(parts)
    return 1 if wrong else 0


if __name__ == "__main__":
    sys.exit(main())
