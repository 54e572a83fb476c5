"""Whose the false-sharing misses of a line are, and the columns that are made of numbers."""

import os
import sys
import unittest

TOP = os.path.dirname(os.path.dirname(os.path.dirname(os.path.dirname(os.path.abspath(__file__)))))
sys.path.insert(0, TOP)

from native.allocators import findings, tables  # noqa: E402
from view.reading.reports import Blame, Misses  # noqa: E402

# Of each line its base, its false-sharing misses, whether a block was on it, and its pairs: the one that loses its
# copy, the one that invalidates it, how often, and how often over the same word. Below 0x100 is the allocator's code.
LINES = (
    (0x1000, 5, True, [(0x110, 0x120, 9, 0), (0x10, 0x20, 50, 50)]),
    (0x1040, 7, True, [(0x10, 0x20, 9, 0), (0x110, 0x120, 50, 48)]),
    (0x1080, 11, False, [(0x10, 0x120, 9, 0)]),
    (0x10C0, 13, False, [(0x110, 0x120, 9, 0)]),
    (0x1100, 17, True, [(0x10, 0x120, 9, 0)]),
    (0x1140, 19, False, [(0x20, 0x10, 9, 0)]),
    (0x1180, 0, False, [(0x20, 0x10, 9, 9)]),
)


def misses_text():
    rows = "".join(f"line {base:#010x} cold 2 useful 3 useless {it}\n" for base, it, _, _ in LINES)
    total = sum(count for _, count, _, _ in LINES)
    head = f"misses 64 0\naccesses 100\nlines {len(LINES)}\n"
    return f"{head}{rows}total cold 14 useful 21 useless {total}\nend\n"


def blame_text():
    rows = ""
    for base, _, _, pairs in LINES:
        times = sum(pair[2] for pair in pairs)
        rows += f"line {base:#010x} takings {times} pairs {len(pairs)} harts 1\n"
        for victim, invalidator, count, same in pairs:
            rows += f"pair {victim:#010x} {invalidator:#010x} taken {count} same {same}\n"
        rows += f"from 0 to 1 taken {times}\n"
    head = f"predator blame 1\naccesses 100\nlayout 64 0\nlines {len(LINES)}\n"
    return f"{head}{rows}total takings 1\nend\n"


class Findings(unittest.TestCase):
    def test_whose_misses(self):
        block_lines = {base // 64 for base, _, has_block, _ in LINES if has_block}
        found = findings.split_misses(
            Misses(misses_text()),
            Blame(blame_text()),
            block_lines,
            lambda pc: pc < 0x100,
            lambda pcs: {it: f"f{it:x}" for it in pcs},
        )
        self.assertEqual(found.in_blocks, 5 + 17)
        self.assertEqual(found.in_own_data, 7 + 11 + 19)
        self.assertEqual(found.elsewhere, 13)
        self.assertEqual(found.false_misses, 5 + 7 + 11 + 13 + 17 + 19)
        self.assertEqual(found.all_misses(), found.false_misses + 14 + 21)
        self.assertEqual(
            [(it.users, it.false_misses, it.lines) for it in found.own_data],
            [("f10 and f20", 19, 1), ("f120 and f10", 11, 1), ("f20 and f10", 7, 1)],
        )

    def test_columns(self):
        row = {"lines": 3, "live_bytes": 40, "cold": 1, "true": 2, "false": 4, "calls": 8}
        self.assertEqual(tables.bytes_per_byte(row), "4.80")
        self.assertEqual(tables.misses_per_call(row), "0.87")
        seeds = {"in_blocks": 3, "in_own_data": 2, "active": 1, "passive": 0}
        greatest = {**seeds, "in_blocks": 9, "in_own_data": 8, "blocks_and_own": 12}
        self.assertEqual(tables.gate_value(seeds, "false"), 5)
        self.assertEqual(tables.gate_value({**seeds, "greatest": greatest}, "false"), 12)
        self.assertEqual(tables.gate_value({**seeds, "greatest": greatest}, "own"), 8)
        self.assertEqual(tables.spread_text({**seeds, "greatest": greatest}, "in_blocks"), "3 (9)")
        self.assertEqual(tables.spread_text({**seeds, "greatest": greatest}, "active"), "1")


if __name__ == "__main__":
    unittest.main()
