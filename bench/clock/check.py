"""Tries the study without timing: the arithmetic on a made-up table, and of each pair, that both forms
compute the same on this machine and as guests, and that padding takes away what it is to take away."""

import os
import re
import shutil
import tempfile
from concurrent.futures import ThreadPoolExecutor
from typing import Iterator, Sequence

from counts import Count, can_run, count_guest
from judge import Row, band_summary, rank_correlation, ranks, spearman
from page import Box, place_labels, page, page_pictures, page_title, label_width
from pairs import FORMS, Built, Program, Trouble, build_all, find_programs
from studies import read_studies, renew_documents, parse_values
from tables import (
    Study,
    parse_counts,
    parse_study,
    study_markdown,
    study_json,
    number_text,
    counts_json,
    study_values,
)
from timing import Timed, run_once, default_rounds

# The status for a part of bin/try that skips itself.
SKIPPED = 77
THREADS = 2
# Guests run so: short turns, so that even what meets seldom does.
QUANTUM = 10


def make_row(name: str, kind: str, misses: Sequence[int], ns: Sequence[float]) -> Row:
    """A row whose guest makes 1000 steps, with so many false-sharing misses in both forms, and which takes so
    long."""
    timed = [Timed(100, it, it * 0.9, it * 1.1, 5, 5, 1, 0, 0) for it in ns]
    counts = {
        (form, quantum): Count(1000, 500, 3, number, 2 * number, 1)
        for form, number in zip(FORMS, misses)
        for quantum in (1, 10, 100, 1000)
    }
    return Row(Program(name, kind, "made up", ""), 2, 100, timed, counts, {})


def make_study() -> Study:
    rows = [
        make_row("none", "true", [0, 0], [100, 100]),
        make_row("some", "mixed", [2, 0], [150, 100]),
        make_row("more", "handover", [5, 1], [90, 100]),
        make_row("many", "false", [10, 0], [400, 100]),
        make_row("most", "false", [20, 0], [900, 100]),
    ]
    return Study(
        {"machine": "made up <&>"}, {"0 and 1": 50.0, "0 and 2": 60.0, "1 and 2": 55.0}, 0.5, rows
    )


def compare(name: str, found: object, wanted: object) -> Iterator[str]:
    if found != wanted:
        yield f"{name}: {found!r}, and not {wanted!r}"


def check_arithmetic() -> Iterator[str]:
    """What is wrong on the made-up table."""
    study = make_study()
    rows = study.rows
    yield from compare("ranks", ranks([5.0, 1.0, 5.0, 9.0]), [2.5, 1.0, 2.5, 4.0])
    yield from compare("spearman up", spearman([(1, 10), (2, 20), (3, 30)]), 1.0)
    yield from compare("spearman down", spearman([(1, 3), (2, 2), (3, 1)]), -1.0)
    yield from compare("spearman of equal ones", spearman([(1, 3), (1, 2), (1, 1)]), None)
    # (the third has the least slowdown: the ranks are 2, 3, 1, 4, 5)
    yield from compare(
        "correlated", rank_correlation(rows, lambda row: row.rate()), 1 - 6 * (1 + 1 + 4) / (5 * 24)
    )
    wanted = [
        ["below 0.05", 1, 1.0, 1.0, 1.0],
        ["0.05 to 3", 1, 1.5, 1.5, 1.5],
        ["3 to 8", 1, 0.9, 0.9, 0.9],
        ["8 and more", 2, 4.0, 6.5, 9.0],
    ]
    yield from compare("bands", band_summary(rows), wanted)
    yield from compare("latency", study.latency(), 55.0)
    yield from compare("saved", rows[3].saved(), 600.0)
    yield from compare("bound", rows[3].bound(55.0), 550.0)
    yield from compare("at most", rows[3].at_most(50.0, 0.5), 0.5)
    yield from compare("share", rows[3].share(), 0.75)
    yield from compare("the record", parse_study(study_json(study)), study)
    counted = {"some": rows[1].counts, "many": rows[3].counts}
    yield from compare("the record of counts", parse_counts(counts_json(counted)), counted)
    yield from compare(
        "lines of the table",
        len([it for it in study_values(study).splitlines() if it[:1] != "#"]),
        6,
    )
    yield from compare(
        "the table again", study_values(parse_values(study_values(study))), study_values(study)
    )
    yield from compare(
        "lines of the text", sum("made up" in it for it in study_markdown(study).splitlines()), 1
    )
    yield from check_page(study)
    yield from check_stored_studies()


def check_page(study: Study) -> Iterator[str]:
    """What is wrong with names on the picture, and with the page where it can be made."""
    spread = place_labels([(100.0, 100.0, "one"), (101.0, 100.0, "other"), (102.0, 101.0, "third")])
    boxes = [Box(it["x"], it["y"] - 9, it["x"] + label_width(it["text"]), it["y"]) for it in spread]
    yield from compare(
        "names", [a.meets(b) for at, a in enumerate(boxes) for b in boxes[:at]], [False] * 3
    )
    title = (
        "With the most false-sharing misses, padding made the middle program 6.50 times as fast,"
        " and 1.00 times with the fewest (one)"
    )
    yield from compare("the title", page_title({"one": study}), title)
    text = page({"one": study, "<other>": study})
    if text is not None:
        yield from compare("points of the page", text.count("<g transform"), 10)
        escaped = [it in text for it in ("made up &lt;&amp;&gt;", "&lt;other&gt;", "<other>")]
        yield from compare("escaped names", escaped, [True, True, False])
        texts = [
            f"{row.program.name}, 2 threads: slowdown {number_text(row.slowdown())} (" in text
            for row in study.rows
        ]
        yield from compare("the texts of the points", texts, [True] * 5)
        cells = re.findall(
            (
                r"<code>(\w+)</code></td><td[^>]*>\w+</td><td[^>]*>2</td><td[^>]*>(.*?)</td><td[^>]*>(\S+) \("
            ),
            text,
        )
        wanted = [
            (entry.program.name, number_text(entry.rate()), number_text(entry.slowdown()))
            for entry in study.rows
        ]
        yield from compare("the rows of the page", sorted(cells), sorted(wanted))


def check_stored_studies() -> Iterator[str]:
    """The faults of the kept studies, and of the documents that quote them."""
    studies = read_studies()
    for drawn in page_pictures(studies):
        names = [one["name"] for one in drawn["points"]]
        boxes = [
            Box(one["x"], one["y"] - 9, one["x"] + label_width(one["text"]), one["y"] + 2)
            for one in names
        ]
        over = [
            one["text"]
            for at, one in enumerate(names)
            if any(boxes[at].meets(other) for other in boxes[:at])
        ]
        yield from compare(
            f"{drawn['threads']} threads, {drawn['study']}: names over others", over, []
        )
    for name, study in studies.items():
        again = parse_values(study_values(study))
        kept_rows = [
            [(it.program, it.threads, it.counts, f"{it.slowdown():.3g}") for it in own.rows]
            for own in (again, study)
        ]
        yield from compare(f"{name}: the same rows again", kept_rows[0] == kept_rows[1], True)
        yield from compare(f"{name}: enough pairs", len(study.quiet_rows()) >= 24, True)
    for path, text, renewed in renew_documents(studies):
        yield from compare(
            f"{path}: the tables of bench/clock/studies.py --renew", text == renewed, True
        )


def check_pair(pair: Sequence[Built]) -> Iterator[str]:
    """What is wrong with a pair: its results, and what padding takes away."""
    program = pair[0].program
    results = {run_once(it, default_rounds(it), (), 120).result for it in pair}
    if pair[0].guest:
        counts = [count_guest(it, QUANTUM) for it in pair]
        results |= {it.result for it in counts}
        missed = [it.useful + it.useless for it in counts]
        if program.kind == "false" and not missed[1] < missed[0] / 2:
            yield f"{program.name}: {missed[0]} misses as it is, and {missed[1]} padded"
        if (
            program.kind in ("false", "mixed")
            and program.name != "bytes"
            and not counts[1].useless < counts[0].useless
        ):
            yield (
                f"{program.name}: {counts[0].useless} false-sharing misses unpadded, and"
                f" {counts[1].useless} padded"
            )
        if program.kind in ("true", "none") and counts[0].useless > counts[0].steps / 1000:
            yield (
                f"{program.name}: {counts[0].useless} false-sharing misses, and it should"
                " have none"
            )
    if len(results) > 1:
        yield f"{program.name} computes {sorted(results)}"


def try_pair(pair: Sequence[Built]) -> list[str]:
    try:
        return list(check_pair(pair))
    except Trouble as error:
        return [str(error)]


def check(only: Sequence[str]) -> int:
    """Prints what is wrong: the status is 1 if something is, and 77 without a compiler."""
    found = list(check_arithmetic())
    if not shutil.which("gcc"):
        print("gcc isn't installed")
        return 1 if found else SKIPPED
    guests = can_run() and all(
        map(shutil.which, ("clang", "ld.lld", "llvm-readelf", "llvm-objcopy"))
    )
    with tempfile.TemporaryDirectory() as folder:
        built = build_all(find_programs(only), [THREADS], 64, folder, guests)
        with ThreadPoolExecutor(os.cpu_count()) as pool:
            for own in pool.map(try_pair, zip(built[::2], built[1::2])):
                found += own
    for fault in found:
        print(fault)
    summary = (
        "on this machine and as guests"
        if guests
        else "on this machine alone: clang, lld, llvm or the program isn't there"
    )
    print(f"{len(built) // 2} pairs, {summary}; {len(found)} wrong")
    return 1 if found else 0
