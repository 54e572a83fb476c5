"""Two views compared: which objects are the same one, and the rows of the table."""

import os
import sys
import unittest

HERE = os.path.dirname(os.path.abspath(__file__))
sys.path[:0] = [os.path.join(HERE, "..", ".."), os.path.join(HERE, "..", "..", "tools")]

from view.model import comparison  # noqa: E402
from small_reports import view_of  # noqa: E402


def made(useless, *lines, functions=("malloc", "make", "main"), useful=0):
    """A record of blocks that are made at some lines of ring.c."""
    sites = [
        {"function": function, "file": "/src/ring.c" if function != "malloc" else "", "line": at}
        for function, at in zip(functions, (0, *lines))
    ]
    key = "block " + " < ".join(functions[1:])
    return {
        "key": key,
        "name": f"block made at ring.c:{lines[0]}",
        "false_sharing": useless,
        "true_sharing": useful,
        "reported_invalidations": 0,
        "neighbours": [],
    } | {
        "words": [],
        "sites": sites,
        "declared": None,
    }


def field(name):
    return {"field": name, "own": True, "writes": 3}


class Compared(unittest.TestCase):
    def pairs(self, old, new):
        return sorted(
            (a and a["false_sharing"] or 0, b and b["false_sharing"] or 0)
            for a, b in comparison.pair_objects(old, new)
        )

    def test_blocks_whose_lines_have_moved(self):
        old = [made(11, 9, 40), made(12, 100, 40), made(13, 20, 50)]
        for by in (0, 7, -5):
            new = [
                made(91, 9 + by, 40 + by),
                made(92, 100 + by, 40 + by),
                made(93, 20 + by, 50 + by),
            ]
            self.assertEqual(self.pairs(old, new), [(11, 91), (12, 92), (13, 93)])
            # One that is gone, or new, isn't taken for another one.
            self.assertEqual(self.pairs(old, new[1:]), [(11, 0), (12, 92), (13, 93)])
            self.assertEqual(self.pairs(old[1:], new), [(0, 91), (12, 92), (13, 93)])

    def test_callers_and_order(self):
        old, new = [made(1, 9, 40), made(2, 9, 50)], [made(5, 9, 50)]
        self.assertEqual(self.pairs(old, new), [(1, 0), (2, 5)])
        self.assertEqual(
            self.pairs([made(1, 9), made(2, 30)], [made(5, 9), made(6, 33)]), [(1, 5), (2, 6)]
        )
        other = made(7, 9, functions=("malloc", "grow"))
        self.assertEqual(self.pairs([other], [made(5, 9)]), [(0, 5), (7, 0)])
        # (a kept report has no lines)
        self.assertEqual(
            self.pairs([made(1, 0), made(2, 0)], [made(5, 0)]), [(0, 5), (1, 0), (2, 0)]
        )

    def test_rows(self):
        def row(before, after):
            return tuple(comparison.row(before, after, comparison.MISSES))

        name = "block made at ring.c:9"
        self.assertEqual(row(made(3, 9), made(3, 9)), ([(3, 3), (0, 0)], name))
        self.assertEqual(row(made(3, 9), None), ([(3, None), (0, None)], f"{name} (gone)"))
        new = row(None, made(3, 9, useful=2))
        self.assertEqual(new, ([(None, 3), (None, 2)], f"{name} (new)"))
        self.assertEqual(
            row(made(300, 9, useful=1), made(0, 9, useful=900)), ([(300, 0), (1, 900)], name)
        )
        old, new = ({**made(1, 9), "words": [field(it)]} for it in ("a", "b"))
        self.assertEqual(row(old, new)[1], f"{name} (new fields b; gone fields a)")

    def test_what_was_saved_and_costs_more(self):
        view = view_of(
            [], "misses 64 0\naccesses 900\nlines 0\ntotal cold 4 useful 901 useless 0\nend\n"
        )
        total = {"true_sharing": 1, "false_sharing": 300}
        before = comparison.Before([made(300, 9, useful=1)], "exit 0", total)
        self.assertEqual(
            list(comparison.compare_views(view, before, "old")),
            [
                "",
                "against old:",
                "  false before  now  true before  now  object",
                "           300    0            1  901  all: worse",
                "           300    -            1    -  block made at ring.c:9 (gone)",
            ],
        )
        nothing = comparison.Before([made(0, 9)], "budget", {"true_sharing": 0, "false_sharing": 0})
        self.assertEqual(
            list(comparison.compare_views(view, nothing, "old"))[2:],
            [
                "the outcome was budget and is exit 0",
                "  false before  now  true before  now  object",
                "             0    0            0  901  all: worse",
            ],
        )


if __name__ == "__main__":
    unittest.main()
