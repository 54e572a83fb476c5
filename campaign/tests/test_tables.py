"""Tests of the tables: which lines of different runs are the same, and the numbers of each."""

import os
import sys
import unittest
from types import SimpleNamespace

HERE = os.path.dirname(os.path.abspath(__file__))
sys.path.insert(0, os.path.join(HERE, "..", ".."))

from campaign.observations import (  # noqa: E402
    Observations,
    PairRow,
    RowKey,
    SeedCounts,
    Spread,
    line_rows,
    object_rows,
    pair_rows,
    spread,
    worst_seed,
)
from campaign.tables import (  # noqa: E402
    LINE_HEADS,
    OBJECT_HEADS,
    PAIR_HEADS,
    pair_cells,
    row_cells,
)
from view.names.naming import Memory  # noqa: E402
from view.names.source_lines import SourceLine  # noqa: E402

LAYOUT = 64, 0
OBSERVED = RowKey(0, LAYOUT, "observed")


def report(*lines):
    head = [
        "predator report 1",
        "outcome exit 0",
        "steps 9",
        "accesses 8",
        "layout 64 0",
        "thresholds 16 64 100",
        f"lines {len(lines)}",
    ]
    return "\n".join([*head, *lines, "end"]) + "\n"


def record(seed, lines, blocks=None, **more):
    texts = {"run": report(*lines), **{call.replace("_", " "): it for call, it in more.items()}}
    program = {"name": "one", "file": "one"}
    results = {call: {"status": 0, "text": it} for call, it in texts.items()}
    return {
        "program": program,
        "settings": {},
        "schedule": None,
        "seed": seed,
        "results": results,
        "blocks": blocks or {},
        "failed": [],
    }


def observe(*records, memory=None):
    """The observations of runs of one group."""
    observations = Observations()
    for own in records:
        observations.add_run(0, own, memory or Memory())
    return observations


def misses_text(useless):
    counts = f"cold 1 useful 2 useless {useless}"
    line = f"line 0x00011000 {counts}\nobject symbol low 0x00010fe0 64\n"
    return f"misses 64 0\naccesses 8\nlines 1\n{line}total {counts}\nend\n"


def blame_text(*lines):
    """A text of `blame`: each line as its base, and its pairs as victim, invalidator, how often, and how
    often over one word."""
    rows, total = [], 0
    for base, *pairs in lines:
        count = sum(pair[2] for pair in pairs)
        rows.append(f"line {base} takings {count} pairs {len(pairs)} harts 1")
        rows += ["pair {} {} taken {} same {}".format(*pair) for pair in pairs]
        rows.append(f"from 0 to 1 taken {count}")
        total += count
    head = ["predator blame 1", "accesses 8", "layout 64 0", f"lines {len(lines)}"]
    return "\n".join([*head, *rows, f"total takings {total}", "end", ""])


def symbol(base, count, first, second=0):
    """A line on which `low` ends and `high` begins, with so many accesses of each."""
    words = [
        f"word {base:#010x} reads 0 writes {first} hart 0",
        f"word {base + 32:#010x} reads {second} writes 0 hart 1",
    ]
    objects = [
        f"object symbol low {base - 32:#010x} 64",
        f"object symbol high {base + 32:#010x} 64",
    ]
    return "\n".join(
        [f"line observed {base:#010x} 64 start 1 count {count} verdict false", *objects, *words]
    )


def block(addr, base, count, born, kind="observed"):
    head = f"line {kind} {base:#010x} 64 start 1 count {count} verdict false"
    return "\n".join(
        [
            head,
            f"object block {addr:#010x} 200 born {born} live",
            "site 0x00010010 malloc",
            "site 0x00010020 work",
        ]
    )


class Tables(unittest.TestCase):
    def test_the_median_is_one_of_the_numbers(self):
        self.assertEqual(spread([7, 1, 3]), (1, 3, 7))
        self.assertEqual(spread([7, 1, 3, 9, None]), (1, 3, 9))
        self.assertEqual(spread([None]), (None, None, None))

    def test_the_worst_seed_has_most_false_sharing_misses_then_most_invalidations(self):
        seeds = [(1, 900, 5), (2, 100, 9), (3, 200, 9), (4, 200, 9), (5, None, None)]
        self.assertEqual(worst_seed([SeedCounts(*seed) for seed in seeds]), 3)

    def test_a_line_of_variables_has_one_row_under_the_object_of_most_accesses(self):
        lines = line_rows(
            observe(
                record(1, [symbol(0x11000, 110, 5, 4)]),
                record(2, [symbol(0x11000, 130, 1, 90)]),
                record(3, []),
            )
        )
        (row,) = lines[OBSERVED]
        self.assertEqual((row.object, row.offset, row.others), ("high", -32, ["low"]))
        summary = row.summary
        self.assertEqual(
            (summary.listed, summary.invalidations, summary.worst_seed), (2, (110, 110, 130), 2)
        )
        self.assertEqual((summary.with_misses, summary.false_sharing), (0, (None, None, None)))

    def test_a_block_has_the_line_of_its_call_site(self):
        """Other builds have the line too, and not the address."""
        frames = [SourceLine("work", "src/made.c", 7)]
        sources = SimpleNamespace(frames=lambda addr: frames if addr == 0x10020 else [])
        observations = Observations()
        own = record(1, [block(0x20000, 0x20040, 120, 5)], {"0x00020000 5": 2})
        observations.add_run(0, own, Memory(), sources)
        (rows,) = line_rows(observations).values()
        self.assertEqual([it.object for it in rows], ["block 2 of work@made.c:7"])

    def test_a_block_is_the_same_at_any_address(self):
        first = record(1, [block(0x20000, 0x20040, 120, 5)], {"0x00020000 5": 2})
        other = record(
            2,
            [block(0x30020, 0x30060, 140, 9), block(0x40000, 0x40040, 101, 3)],
            {"0x00030020 9": 2, "0x00040000 3": 1},
        )
        observations = observe(first, other)
        found = {
            row.object: (
                row.offset,
                row.summary.listed,
                row.summary.invalidations,
                row.summary.worst_seed,
            )
            for row in line_rows(observations)[OBSERVED]
        }
        self.assertEqual(
            found,
            {
                "block 2 of work@0x00010020": (64, 2, (120, 120, 140), 2),
                "block 1 of work@0x00010020": (64, 1, (101, 101, 101), 2),
            },
        )
        (row,) = object_rows(observations)[OBSERVED]
        self.assertEqual((row.object, row.lines), ("blocks of work@0x00010020", 2))
        self.assertEqual((row.summary.listed, row.summary.invalidations), (2, (120, 120, 140)))

    def test_misses_count_where_no_report_lists_the_line(self):
        texts = {"misses_--size_64_--shift_0": misses_text(33)}
        lines = line_rows(
            observe(record(1, [], **texts), record(2, [symbol(0x11000, 110, 9)], **texts))
        )
        (row,) = lines[OBSERVED]
        self.assertEqual((row.object, row.summary.listed, row.summary.with_misses), ("low", 1, 2))
        self.assertEqual((row.summary.false_sharing, row.summary.worst_seed), ((33, 33, 33), 2))

    def test_a_line_without_invalidations_and_false_sharing_misses_is_left_out(self):
        observations = observe(record(1, [], **{"misses_--size_64_--shift_0": misses_text(0)}))
        self.assertEqual((line_rows(observations), object_rows(observations)), ({}, {}))

    def test_predicted_lines_have_rows_of_their_own_layout(self):
        lines = line_rows(observe(record(1, [block(0x20000, 0x20020, 120, 5, "shifted")])))
        self.assertEqual(list(lines), [(0, (64, 32), "shifted")])

    def test_a_stack_has_a_name(self):
        lines = line_rows(
            observe(
                record(1, ["line observed 0x00020fc0 64 start 1 count 101 verdict false"]),
                memory=Memory((0x20000, 0x21000), 2),
            )
        )
        self.assertEqual(lines[OBSERVED][0].object, "stack of hart 0")

    def test_pairs_of_instructions_go_by_their_lines(self):
        records = []
        for seed, count in ((1, 3), (2, 9)):
            own = ("0x00010044", "0x00010044", 5, 2), ("0x0001003c", "0x00010044", count, 0)
            other = ("0x00000004", "0x00000008", 1, 1)
            text = blame_text(("0x00011000", *own), ("-0x00000020", other))
            texts = {"blame_--size_64_--shift_0": text}
            records.append(record(seed, [symbol(0x11000, 110, 9)], **texts))
        found = [
            (
                *(row.object, row.offset, row.victim, row.invalidator, row.seeds),
                *(row.invalidations, row.same_word, row.worst_seed),
            )
            for row in pair_rows(observe(*records))[0, LAYOUT]
        ]
        self.assertEqual(
            found,
            [
                ("low", 32, "0x0001003c", "0x00010044", 2, (3, 3, 9), (0, 0, 0), 2),
                ("low", 32, "0x00010044", "0x00010044", 2, (5, 5, 5), (2, 2, 2), 1),
                ("-0x00000020", 0, "0x00000004", "0x00000008", 2, (1, 1, 1), (1, 1, 1), 1),
            ],
        )

    def test_pairs_of_a_block_go_by_the_block(self):
        records = []
        for seed, addr, born in ((1, 0x20000, 5), (2, 0x30020, 9)):
            text = blame_text((f"{addr + 64:#010x}", ("0x00010044", "0x00010044", 8, 0)))
            lines, numbers = [block(addr, addr + 64, 120, born)], {f"{addr:#010x} {born}": 2}
            records.append(record(seed, lines, numbers, **{"blame_--size_64_--shift_0": text}))
        (row,) = pair_rows(observe(*records))[0, LAYOUT]
        self.assertEqual((row.object, row.offset, row.seeds), ("block 2 of work@0x00010020", 64, 2))

    def test_cells_stand_under_their_heads(self):
        observations = observe(record(1, [symbol(0x11000, 110, 5)]))
        campaign = {"groups": [{"program": "one", "settings": {"quantum": 3}}]}
        row = line_rows(observations)[OBSERVED][0]
        cells = dict(zip(LINE_HEADS, row_cells(campaign, OBSERVED, row, {0: 4}), strict=True))
        self.assertEqual(
            (cells["settings"], cells["seeds"], cells["inval median"], cells["worst seed"]),
            ("quantum=3", 4, 110, 1),
        )
        row = object_rows(observations)[OBSERVED][0]
        cells = dict(zip(OBJECT_HEADS, row_cells(campaign, OBSERVED, row, {0: 4}), strict=True))
        self.assertEqual((cells["object"], cells["lines"]), ("low", 1))
        spreads = Spread(5, 6, 7), Spread(0, 1, 2)
        row = PairRow("low", 32, "0x00010004", "0x00010008", 1, *spreads, 3)
        cells = dict(zip(PAIR_HEADS, pair_cells(campaign, (0, LAYOUT), row, {0: 4}), strict=True))
        self.assertEqual(
            (cells["size"], cells["invalidator"], cells["seeds"], cells["same word max"]),
            (64, "0x00010008", 4, 2),
        )


if __name__ == "__main__":
    unittest.main()
