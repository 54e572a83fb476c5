"""Predicted lines: which of them are shown, and what is said of them."""

import os
import sys
import unittest
from types import SimpleNamespace

HERE = os.path.dirname(os.path.abspath(__file__))
sys.path[:0] = [os.path.join(HERE, "..", ".."), os.path.join(HERE, "..", "..", "tools")]

from view.names.naming import Naming  # noqa: E402
from view.model.predicted_lines import (  # noqa: E402
    can_begin_there,
    judge_predicted_lines,
    group_predicted_lines,
)
from view.reading.reports import Line, Misses  # noqa: E402
from view.output.screen import prediction  # noqa: E402
from small_reports import view_of  # noqa: E402


class PredictedLines(unittest.TestCase):
    def test_predictions(self):
        rows = [
            "line shifted 0x00001020 64 start 3 count 150 verdict false",
            "object symbol a 0x00001000 128",
        ]
        rows += [
            "line shifted 0x00001060 64 start 3 count 140 verdict false",
            "object symbol a 0x00001000 128",
        ]
        view = view_of(rows)
        native = Misses(
            "misses 64 0\naccesses 9\nlines 1\nline 0x00001040 cold 2 useful 0 useless 9\ntotal cold 2 useful 0 useless 9\nend\n"
        )
        text = "misses 64 32\naccesses 9\nlines 2\nline 0x00001020 cold 2 useful 0 useless 10\nline 0x00001060 cold 2 useful 0 useless 9\n"
        own = Misses(text + "total cold 4 useful 0 useless 19\nend\n")
        found = judge_predicted_lines(view.report, native, {(64, 32): own}, view.naming)
        self.assertEqual(
            [(it.line.base, it.useless, it.observed_useless, it.is_shown) for it in found],
            [(0x1020, 10, 9, True), (0x1060, 9, 9, False)],
        )
        self.assertEqual(len(group_predicted_lines(found)), 2)
        view.misses, view.objects_by_key = native, {
            key: SimpleNamespace(name=f"o{key}", example=None) for key in range(5)
        }
        self.assertIn(
            "o0, o1, o2 and 2 more: with lines starting at 0x00001020, 10 false-sharing misses instead of 9; ",
            prediction(view, [found[0]._replace(keys=tuple(range(5)))]),
        )

    def judge(self, kind, base, rows, native, own, naming=None):
        """Whether a predicted line is shown, by the misses of observed lines and its own, and why not."""
        size = 128 if kind == "doubled" else 64
        view = view_of([f"line {kind} 0x{base:08x} {size} start 3 count 150 verdict false", *rows])
        lines = "".join(f"line 0x{at:08x} cold 2 useful 0 useless {much}\n" for at, much in native)
        observed = Misses(
            f"misses 64 0\naccesses 9\nlines {len(native)}\n{lines}total cold 2 useful 0 useless 0\nend\n"
        )
        text = f"misses {size} {base % size}\naccesses 9\nlines 1\nline 0x{base:08x} cold 2 useful 0 useless {own}\n"
        text += f"total cold 2 useful 0 useless {own}\nend\n"
        (found,) = judge_predicted_lines(
            view.report, observed, {(size, base % size): Misses(text)}, naming or view.naming
        )
        return found.is_shown, found.reason

    def test_what_says_nothing_new_is_folded(self):
        no_more = (False, "it adds no false sharing to that of the observed lines")
        ring = ["object symbol ring 0x00001000 256"]
        # A pad that was cleared once, beside words that are contended anyway; a doubled line around one that is observed.
        self.assertEqual(self.judge("shifted", 0x1020, ring, [(0x1000, 300)], 300), no_more)
        self.assertEqual(self.judge("doubled", 0x1000, ring, [(0x1000, 300)], 300), no_more)
        self.assertEqual(
            self.judge("doubled", 0x1000, ring, [(0x1000, 300), (0x1040, 9)], 309), no_more
        )
        # One more miss there is something new.
        self.assertEqual(self.judge("doubled", 0x1000, ring, [(0x1000, 300)], 301), (True, ""))
        self.assertEqual(self.judge("shifted", 0x1020, ring, [], 1), (True, ""))

    def test_what_no_placement_reaches_is_folded(self):
        unreachable = (False, "the data's alignment rules it out")
        for alignment, base, wanted in (
            (8, 0x1024, unreachable),
            (8, 0x1028, (True, "")),
            (64, 0x1020, unreachable),
            (4, 0x1024, (True, "")),
        ):
            variable = SimpleNamespace(alignment=lambda alignment=alignment: alignment, type=None)
            naming = Naming(view_of([]).report)
            naming.program = SimpleNamespace(variable=lambda _, it=variable: it)
            self.assertEqual(
                self.judge(
                    "shifted", base, ["object symbol counters 0x00001000 512"], [], 900, naming
                ),
                wanted,
            )

    def test_what_alignment_allows(self):
        block = "object block 0x00002010 64 born 0 live\n"
        for base, wanted in ((0x2020, True), (0x2018, False), (0x2010, True)):
            line = Line(
                block,
                block,
                len(block),
                len(block),
                ("shifted", hex(base), 64, 0, 100, "false", block),
            )
            self.assertEqual(can_begin_there(line, view_of([]).naming), wanted)


if __name__ == "__main__":
    unittest.main()
