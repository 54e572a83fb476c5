"""Traces that are spelled anew byte by byte, several `--set`, and a fine interleaving."""

import contextlib
import os
import re
import shutil
import subprocess
import sys
import tempfile
import unittest
from collections import Counter
from types import SimpleNamespace

from calling import HERE, PROGRAM, TOP, has, joined, view

sys.path[:0] = [os.path.join(HERE, "..", ".."), os.path.join(HERE, "..", "..", "tools")]

from judge_report import Access, Case, Ending, trace_bytes  # noqa: E402
from traces import Access as Accessed, located_records  # noqa: E402
from view.faults import Fault  # noqa: E402
from view.model.comparison import pair_objects, row  # noqa: E402
from view.model.fine_grain import (  # noqa: E402
    set_quantum,
    wants_all_accesses,
    wants_fine_recording,
    wants_fine_run,
    why_not_again,
)
from view.reading.byte_traces import (  # noqa: E402
    Occupied,
    spread,
    write_moved_bytes,
    write_stretched,
)
from view.reading.calls import Call, Recording  # noqa: E402
from view.reading.recording import without  # noqa: E402
from view.reading.trace_files import narrow_atomics  # noqa: E402

FOLLOWED = os.path.join(HERE, "programs", "followed")


class Bytes(unittest.TestCase):
    def setUp(self):
        self.folder = tempfile.mkdtemp()
        self.addCleanup(shutil.rmtree, self.folder)

    def path(self, name):
        return os.path.join(self.folder, name)

    def trace(self, *accesses):
        ending = Ending("exit 0", 9, (0, 0, 0, 0))
        case = Case([Access(*it) for it in accesses], [], ending, 8, 16, 64, 100, 64, None)
        with open(self.path("trace"), "wb") as file:
            file.write(trace_bytes(case))
        return self.path("trace")

    def accesses(self, name):
        with open(self.path(name), "rb") as file:
            data = file.read()
        self.assertEqual(
            int.from_bytes(data[-8:], "little"),
            sum(isinstance(it, Accessed) for *_, it in located_records(data)),
        )
        return [
            (record.hart, record.writes, record.addr)
            for *_, record in located_records(data)
            if isinstance(record, Accessed)
        ]

    def test_each_byte_as_a_word(self):
        trace = self.trace((0, True, 0x1002, 2), (1, False, 0x2000, 4), (2, True, 0x1040, 1))
        self.assertEqual(write_stretched(trace, self.path("out"), [0x1040, 0x1000], 64), [0, 256])
        self.assertEqual(self.accesses("out"), [(0, True, 8), (0, True, 12), (2, True, 256)])

    def test_bytes_at_other_places(self):
        trace = self.trace(
            (0, True, 0x1000, 1), (1, True, 0x1001, 1), (2, False, 0x1000, 4), (0, True, 0x1004, 4)
        )
        places = {0x1000: 0x8000, 0x1001: 0x8040}
        write_moved_bytes(trace, self.path("out"), places)
        self.assertEqual(
            self.accesses("out"),
            [
                (0, True, 0x8000),
                (1, True, 0x8040),
                *((2, False, it) for it in (0x8000, 0x8040, 0x1002, 0x1003)),
                (0, True, 0x1004),
            ],
        )
        self.assertEqual(list(spread(0x1002, 2, {0x1002: 0x8002, 0x1003: 0x8003})), [(0x8002, 2)])
        self.assertRaises(Occupied, write_moved_bytes, trace, self.path("out"), {0x1000: 0x1005})

    @unittest.skipUnless(has(PROGRAM, "misses"), "the program isn't built")
    def test_misses_of_stretched_lines(self):
        """Two harts and their bytes of one word: true sharing by words, false sharing by bytes, and as many of both."""
        trace = self.trace(*[(1, True, 0x1000, 1), (2, True, 0x1001, 1)] * 50)
        write_stretched(trace, self.path("out"), [0x1000], 64)
        counts = []
        for name, size in ((trace, 64), (self.path("out"), 256)):
            ran = subprocess.run(
                [PROGRAM, "misses", name, "--size", str(size)], capture_output=True
            )
            found = re.search(rb"^total cold (\d+) useful (\d+) useless (\d+)$", ran.stdout, re.M)
            counts.append([int(it) for it in found.groups()])
        self.assertEqual(counts, [[2, 98, 0], [2, 0, 98]])


class WideAtomics(unittest.TestCase):
    def key(self, is_read, hart, addr, size):
        return (1 if is_read else 2) | hart << 8 | addr << 24 | size << 56

    def test_bytes_by_whole_words(self):
        """A hart's atomic instructions for a word are for the byte that it uses else, where there is one."""
        counts = Counter()
        for hart, byte in ((1, 0), (2, 1), (3, 2)):
            for is_read in (False, True):
                counts[self.key(is_read, hart, 0x1000, 4)] = 9
            counts[self.key(False, hart, 0x1000 + byte, 1)] = 5
        # (one that uses two of the bytes, one that only reads the word, and one that only writes it)
        counts[self.key(False, 3, 0x1000, 1)] = 1
        counts[self.key(True, 4, 0x1000, 4)] = counts[self.key(True, 4, 0x1003, 1)] = 3
        counts[self.key(False, 5, 0x1000, 4)] = counts[self.key(True, 5, 0x1003, 1)] = 3
        self.assertEqual(narrow_atomics(counts), {(1, 0x1000): (0, 1), (2, 0x1000): (1, 1)})


class Settings(unittest.TestCase):
    def test_several_sets_are_one_list(self):
        call = Call(["run", "p", "--set", "quantum=7,line=64", "--set=quantum=3", "--", "--set"])
        self.assertEqual(call.words, ["p", "--set", "quantum=3,line=64"])
        self.assertEqual(call.guest_words, ["--", "--set"])
        self.assertRaises(Fault, Call, ["run", "p", "--set", "quantum=7", "--set", "quantity=3"])

    def test_the_quantum_of_a_fine_run(self):
        self.assertEqual(set_quantum(["p"], 3), ["--set", "quantum=3", "p"])
        self.assertEqual(
            set_quantum(["p", "--set", "quantum=100,line=32"], 3), ["p", "--set=line=32,quantum=3"]
        )
        for words, accesses, is_wanted in (
            ([], 100, True),
            (["--no-fine"], 100, False),
            (["--set", "quantum=3"], 100, False),
            (["--set", "seed=3"], 100, False),
            ([], 10_000_000, False),
            (["--fine"], 10_000_000, True),
        ):
            self.assertEqual(wants_fine_run(Call(["run", "p", *words]), accesses), is_wanted, words)
        self.assertRaises(Fault, Call, ["replay", "t", "--fine"])
        self.assertIn("fine", Call(["native", "p", "--fine"]).options)
        self.assertRaises(Fault, Call, ["run", "p", "--fine", "--no-fine"])


class Recorded(unittest.TestCase):
    """Whether a program of this machine is recorded once more."""

    def call(self, *options, quantum=100, words=()):
        call = Call(["native", "p", *words])
        call.recording = Recording([*options], ["./p"], [], "/tmp", 1.0)
        call.recorded_quantum = quantum
        return call

    def test_what_repeats(self):
        good = SimpleNamespace(outcome="exit 0", accesses=1000)
        for call, report, is_wanted in (
            (self.call(), good, True),
            (self.call("--all"), good, True),
            (self.call("--for", "2s"), good, False),
            (self.call("--most=90"), good, False),
            (self.call(quantum=10), good, False),
            (self.call(words=["--no-fine"]), good, False),
            (self.call(), SimpleNamespace(outcome="exit 1", accesses=1000), False),
            (self.call(), SimpleNamespace(outcome="exit 0", accesses=10**8), False),
            (
                self.call(words=["--fine"]),
                SimpleNamespace(outcome="exit 0", accesses=10**8),
                True,
            ),
        ):
            with open(os.devnull, "rb") as empty, stdin_of(empty.fileno()):
                self.assertEqual(wants_fine_recording(call, report, report.accesses), is_wanted)
        reading, writing = os.pipe()
        with stdin_of(reading):
            self.assertEqual(
                why_not_again(self.call(), good), "its standard input can be read once"
            )
        os.close(reading)
        os.close(writing)

    def test_what_is_recorded_with_all_accesses(self):
        """A filtered recording is replaced where bytes may matter, and nothing speaks against another run."""

        def wants(call, outcome="exit 0", is_unknown=True):
            report = SimpleNamespace(outcome=outcome)
            with open(os.devnull, "rb") as empty, stdin_of(empty.fileno()):
                return wants_all_accesses(
                    SimpleNamespace(call=call, report=report, has_unknown_bytes=is_unknown)
                )

        self.assertTrue(wants(self.call("--filtered")))
        self.assertTrue(wants(self.call("--filtered", quantum=3)))
        self.assertFalse(wants(self.call("--filtered"), is_unknown=False))
        self.assertFalse(wants(self.call("--filtered"), "exit 1"))
        self.assertFalse(wants(self.call("--filtered", "--windows", "1M/2M")))
        self.assertFalse(wants(self.call("--filtered", "--trace", "t")))
        for words in (["--no-fine"], ["--filtered"], ["--filtered=512"]):
            self.assertFalse(wants(self.call("--filtered", words=words)), words)
        again = self.call("--filtered")
        again.is_again = True
        self.assertFalse(wants(again))

    def test_options_of_another_recording(self):
        words = ["--no-pcs", "--quantum", "7", "--trace=t", "--all", "--max-disk", "1G"]
        kept = ["--no-pcs", "--all", "--max-disk", "1G"]
        self.assertEqual(without(words, ("--quantum", "--trace")), kept)


@contextlib.contextmanager
def stdin_of(number):
    """Has another file as standard input."""
    kept = os.dup(0)
    os.dup2(number, 0)
    try:
        yield
    finally:
        os.dup2(kept, 0)
        os.close(kept)


class Compared(unittest.TestCase):
    def record(self, key, of, *fields):
        return {
            "key": key,
            "name": key.partition(" ")[2],
            "type": of,
            "false_sharing": 5,
            "sites": [],
            "declared": None,
            "neighbours": [],
            "words": [{"field": it, "writes": 1, "own": True} for it in fields],
        }

    def test_a_type_that_one_object_has_alone(self):
        old, new = self.record("symbol a", "struct s"), self.record("block b", "struct s")
        self.assertEqual(list(pair_objects([old], [new])), [(old, new)])
        other = self.record("block c", "struct s")
        self.assertEqual(len(list(pair_objects([old], [new, other]))), 3)

    def test_a_field_that_moved(self):
        new = self.record("symbol own", "struct own[4]", "[0].hits")
        text = row(self.record("symbol hits", "int[4]"), None, ("false_sharing",), [new]).text
        self.assertEqual(text, "hits (moved to own)")
        text = row(self.record("symbol hit", "int[4]"), None, ("false_sharing",), [new]).text
        self.assertEqual(text, "hit (gone)")


@unittest.skipUnless(shutil.which("clang") and shutil.which("ld.lld"), "clang or lld is missing")
@unittest.skipUnless(has(PROGRAM, "misses", "move"), "the program isn't built, or has no move")
class Fine(unittest.TestCase):
    def test_a_ring(self):
        """A ring in a block whose type its source has: at the usual quantum nothing helps, at the fine one its fields go apart."""
        with tempfile.TemporaryDirectory() as folder:
            shutil.copy(os.path.join(FOLLOWED, "spsc.c"), folder)
            build = [os.path.join(TOP, "guest", "build.sh"), "spsc.elf", "spsc.c"]
            subprocess.run(build, cwd=folder, check=True, capture_output=True)
            words = ("run", "spsc.elf", "--explain", "0", "--fine")
            status, text, said = view(*words, program=PROGRAM, cwd=folder)
        self.assertEqual((status, said), (0, ""))
        usual, _, fine = joined(text).partition(
            "only at fine interleaving (quantum 3), typical of queues and spinning:"
        )
        self.assertIn("at this interleaving (quantum 100)", usual)
        self.assertIn("queue.body: struct spsc", fine)
        self.assertIn(
            "group the fields of struct spsc (spsc.c:9), each group on its own lines", fine
        )
        self.assertIn("tried misses ", fine)


class Rows(unittest.TestCase):
    def test_a_test_of_nothing_fails(self):
        from view.main import ENDED, status_of

        report = SimpleNamespace(ended_well=lambda: True, accesses=0)
        call = SimpleNamespace(options={"fail-above": "0"})
        own = SimpleNamespace(call=call, report=report, missing_harts="")
        self.assertEqual(status_of(own), ENDED)


if __name__ == "__main__":
    unittest.main()
