"""Recordings of several parts of a run: how many misses are at the beginning of a part."""

import os
import random
import shutil
import sys
import tempfile
import unittest
from unittest import mock

from calling import PROGRAM, STAND_IN, TOP, has, joined, view

sys.path[:0] = [TOP, os.path.join(TOP, "tools")]

import judge_filter  # noqa: E402
from view.model.part_misses import count_later_misses  # noqa: E402
from view.reading.engine import Predator  # noqa: E402

USED = PROGRAM if has(PROGRAM, "misses", "convert") else STAND_IN


def first_misses(accesses, begins, size, offset=0):
    """By the rules: the misses, and those that are a thread's first access of a line in its part."""
    holders, seen = {}, set()
    misses = first = 0
    for position, (hart, addr, writes) in enumerate(accesses):
        if position in begins:
            seen.clear()
        line = (addr - offset) // size
        own = holders.setdefault(line, set())
        if hart not in own:
            misses += 1
            first += (hart, line) not in seen
        seen.add((hart, line))
        holders[line] = {hart} if writes else own | {hart}
    return misses, first


def random_parts(dice, harts):
    accesses = [
        (dice.randrange(harts), 0x10000 + 4 * dice.randrange(64), dice.random() < 0.4)
        for _ in range(dice.randrange(2, 120))
    ]
    begins = sorted(dice.sample(range(len(accesses)), min(len(accesses), dice.randrange(1, 9))))
    return accesses, [0, *begins]


class Parts(unittest.TestCase):
    def setUp(self):
        self.folder = tempfile.mkdtemp()
        self.addCleanup(shutil.rmtree, self.folder)
        names = {"PREDATOR_PROGRAM": USED, "STAND_IN_HAS": "move", "PREDATOR_BUILD": "no"}
        own = mock.patch.dict(os.environ, names)
        own.start()
        self.addCleanup(own.stop)

    def write(self, name, data):
        with open(os.path.join(self.folder, name), "wb") as file:
            file.write(data)
        return os.path.join(self.folder, name)

    def whole_trace(self, accesses):
        return judge_filter.encode_trace(accesses, [0x1000] * len(accesses), 256)

    def test_random_parts(self):
        dice, predator = random.Random(7), Predator()
        for harts in (1, 2, 3, 90, 200, 256):
            accesses, begins = random_parts(dice, harts)
            trace = self.write("trace", self.whole_trace(accesses))
            for layout in ((16, 0), (64, 0), (64, 32)):
                with self.subTest(harts=harts, layout=layout):
                    misses, first = first_misses(accesses, begins, *layout)
                    later = count_later_misses(predator, trace, begins, layout)
                    self.assertEqual(misses - later, first)

    def test_filtered_parts(self):
        dice, predator = random.Random(8), Predator()
        for harts in (2, 4, 100):
            accesses, begins = random_parts(dice, harts)
            trace = self.whole_trace(accesses)
            own = self.write("filtered", judge_filter.filter_trace(trace, 12, begins)[2])
            kept = judge_filter.keep_by_parts(accesses, 12, begins)
            kept_begins = [sum(it < begin for it in kept) for begin in begins]
            with self.subTest(harts):
                misses, first = first_misses(accesses, begins, 64)
                later = count_later_misses(predator, own, kept_begins, (64, 0))
                self.assertEqual(misses - later, first)

    def screen(self, begins):
        """What is said of two threads that write to a line in turns, in parts."""
        accesses = [(it % 2, 0x10000 + 4 * (it % 2), True) for it in range(200)]
        trace = self.write("trace", self.whole_trace(accesses))
        rows = "".join(f"resume {it}\n" for it in begins)
        table = f"program /bin/true\n0x00010000 0x7000\n{rows}end 200 exit\n"
        self.write("trace.table", table.encode())
        status, text, said = view("replay", trace, "--explain", "0", program=USED)
        self.assertEqual((status, said.count("Traceback")), (0, 0))
        return joined(text)

    def test_the_screen(self):
        said = "of these misses are a thread's first access of a line in a part, which the gap"
        text = self.screen([0, 50, 51, 150])
        self.assertIn("4 parts of the run, each of which begins with cold misses", text)
        # (two threads in each part, but for the one with one access)
        self.assertIn(f"; 7 {said} may have caused", text)
        for begins in ([], [0]):
            self.assertNotIn(said, self.screen(begins))
        self.assertIn("a part of the run, which begins with cold misses", self.screen([0]))


if __name__ == "__main__":
    unittest.main()
