"""Elements for other threads: who uses the elements beside its own, and where accesses go once a thread has neighbouring elements."""

import os
import struct
import sys
import tempfile
import unittest

HERE = os.path.dirname(os.path.abspath(__file__))
sys.path[:0] = [os.path.join(HERE, "..", ".."), os.path.join(HERE, "..", "..", "tools")]

import traces  # noqa: E402
from view.repairs.layouts import MovedRange  # noqa: E402
from view.repairs.reassignment import (  # noqa: E402
    Reassignment,
    uses_neighbours,
    write_reassigned,
)
from view.repairs.repair import Repair, join_repairs  # noqa: E402

# Eight elements of eight bytes, of which threads 1 and 2 have each second one between the first and the last.
BEGIN, WIDE, COUNT = 0x1000, 8, 8
BEGINS = [BEGIN + WIDE * at for at in range(COUNT)]
OWNERS = {at: 1 + (at - 1) % 2 for at in range(1, COUNT - 1)}
PLACES = {1: 1, 3: 2, 5: 3, 2: 4, 4: 5, 6: 6}
ARRAY = Reassignment(BEGINS, WIDE, COUNT, OWNERS, PLACES)


def trace_of(accesses):
    """A trace of version 1 of accesses, each a thread, an element and whether it writes."""
    rows = [struct.pack("<BHIB", 1 + writes, hart, BEGINS[at], 4) for hart, at, writes in accesses]
    head = struct.pack("<8sQHH", b"PRDTRC01", 0, 8, 0)
    return head + b"".join(rows) + struct.pack("<BBBHIQQ", 6, 0, 0, 0, 0, 0, len(rows))


def stencil():
    """Each thread reads the elements beside each of its own, and writes that."""
    for at, hart in OWNERS.items():
        yield from (
            (hart, at, True),
            (hart, at - 1, False),
            (hart, at + 1, False),
            (hart, at, True),
        )


def all_to_all():
    """Each thread reads all elements of others for each of its own, many times as many as lie beside that."""
    for at, hart in OWNERS.items():
        yield hart, at, True
        yield from ((hart, other, False) for other in (*range(COUNT),) * 2 if abs(other - at) > 2)
        yield hart, at - 1, False


class Reassigned(unittest.TestCase):
    def setUp(self):
        folder = tempfile.TemporaryDirectory()
        self.addCleanup(folder.cleanup)
        self.trace, self.out = (os.path.join(folder.name, it) for it in ("trace", "out"))

    def write(self, accesses):
        with open(self.trace, "wb") as file:
            file.write(trace_of(accesses))

    def test_who_uses_neighbours(self):
        for accesses, is_near in ((stencil(), True), (all_to_all(), False)):
            self.write(accesses)
            self.assertEqual(uses_neighbours(self.trace, ARRAY), is_near)

    def test_where_accesses_go(self):
        """A thread's own elements go together, and the uses of those beside them along; other threads use what they did."""
        made = [
            (1, 3, True),
            (1, 6, False),
            (2, 6, True),
            (2, 7, False),
            (1, 0, False),
            (3, 3, False),
        ]
        self.write(made)
        write_reassigned(self.trace, self.out, [ARRAY])
        with open(self.out, "rb") as file:
            found = [it for *_, it in traces.located_records(file.read())]
        elements = [(it.hart, (it.addr - BEGIN) // WIDE, it.writes) for it in found]
        self.assertEqual(elements, [(1, 2, True), (1, 4, False), *made[2:]])

    def test_two_measures_as_one(self):
        padded = Repair(["pad"], [MovedRange(0x2000, 4, 0)], 64, [], (4, 64))
        order = Repair(["assign"], [], 0, None, (64, 64), is_in_place=True, reassignments=(ARRAY,))
        both = join_repairs([padded, order], 64)
        self.assertEqual((both.hows, both.sizes, both.edits), (["pad", "assign"], (4, 64), None))
        self.assertEqual((both.changes, both.reassignments), (2, (ARRAY,)))
        self.assertEqual(both.moved(), {(0x2000, 4), *((it, WIDE) for it in BEGINS)})


if __name__ == "__main__":
    unittest.main()
