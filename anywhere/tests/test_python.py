"""The Python package: its counts, its faults, and that it needs no program of its own."""

from __future__ import annotations

import os
import shutil
import tempfile
import unittest
from unittest import mock

from calling import BUILT, EXAMPLES, native_program, run_in

import predator
from predator import calling as predator_calling


class Package(unittest.TestCase):
    def setUp(self) -> None:
        work = tempfile.TemporaryDirectory(prefix="predator-python-")
        self.addCleanup(work.cleanup)
        self.trace = os.path.join(work.name, "t")
        self.program = os.path.join(BUILT, "counters.elf")
        self.report = predator.run(self.program, trace=self.trace, pcs=True)

    def check_counts(self) -> None:
        """The counts of README's program."""
        report = predator.replay(self.trace, size=64)
        self.assertEqual((report.outcome, report.size, report.shift), ("exit 0", 64, 0))
        (line,) = report.lines
        self.assertEqual((line.kind, line.invalidations, line.verdict), ("observed", 4007, "mixed"))
        self.assertEqual([it.name for it in line.objects], ["counters"])
        self.assertEqual([it.hart for it in line.words], [0, *[None] * 7])
        counts = predator.misses(self.trace)
        self.assertEqual((counts.cold, counts.true_sharing, counts.false_sharing), (10, 1, 4000))
        self.assertEqual([it.false_sharing for it in counts.lines], [4000])
        (blamed,) = predator.blame(self.trace).lines
        self.assertEqual(sum(it.invalidations for it in blamed.pairs), 4007)
        self.assertEqual(sum(blamed.harts.values()), 4007)
        self.assertEqual(max(blamed.pairs, key=lambda it: it.invalidations).victim, 0x10364)

    def test_counts(self) -> None:
        self.assertEqual([it.invalidations for it in self.report.lines], [4007])
        self.check_counts()

    def test_counts_by_node(self) -> None:
        if not shutil.which("node"):
            self.skipTest("node isn't installed")
        with mock.patch.object(predator_calling, "runs_here", lambda: False):
            self.assertEqual(predator_calling.find_command()[1], predator_calling.NODE_SCRIPT)
            self.check_counts()

    def test_texts_are_the_program_s(self) -> None:
        folder = os.path.dirname(self.trace)
        native = run_in(
            folder, [native_program()], ["misses", "t", "--size", "128", "--shift", "4"]
        )
        self.assertEqual(predator.misses(self.trace, 128, 4).text, native.stdout.decode("latin-1"))
        swept = run_in(folder, [native_program()], ["sweep", "t", "--size", "64"])
        answer = predator.call(["sweep", self.trace, "--size", "64"])
        self.assertEqual(answer.text, swept.stdout.decode("latin-1"))

    def test_raises_what_the_program_refuses(self) -> None:
        heap = os.path.join(EXAMPLES, "heap.trace")
        for words, status, part in (
            (["misses", self.program], 5, "not a trace"),
            (["replay", "missing"], 7, "missing"),
            (["blame", heap], 5, "pcs"),
            (["replay", self.trace, "--size", "48"], 1, "power of two"),
        ):
            with self.assertRaises(predator.PredatorError) as raised:
                predator.call(words)
            self.assertEqual(raised.exception.status, status)
            self.assertIn(part, str(raised.exception))

    def test_says_where_nothing_can_be_called(self) -> None:
        with mock.patch.object(predator_calling, "runs_here", lambda: False), mock.patch(
            "shutil.which", lambda _: None
        ), self.assertRaises(predator.PredatorError) as raised:
            predator.misses(self.trace)
        self.assertEqual(raised.exception.status, 127)


if __name__ == "__main__":
    unittest.main()
