"""Blocks, their threads and their shared lines: the worked lists of the judge, and random ones, by both."""

import os
import random
import struct
import sys
import tempfile
import unittest

TOP = os.path.dirname(os.path.dirname(os.path.dirname(os.path.dirname(os.path.abspath(__file__)))))
sys.path[:0] = [TOP, os.path.join(TOP, "tools")]

import judge_allocators  # noqa: E402
from traces import FUNCTION, Access, Alloc, Free, Symbol  # noqa: E402

from native.allocators import lives  # noqa: E402

RANDOM_LISTS, RECORDS, THREADS = 400, 60, 3
# (a page ends among the places of the random lists)
PLACES = 0x1F80


def trace_bytes(records):
    """A trace of version 1 with some records, each with the size of its access."""
    parts, accesses = [b"PRDTRC01" + bytes(8) + struct.pack("<HH", 8, 0)], 0
    for record, size in records:
        if isinstance(record, Access):
            accesses += 1
            parts.append(struct.pack("<BHIB", 1 + record.writes, record.hart, record.addr, size))
        elif isinstance(record, Alloc):
            parts.append(struct.pack("<B6I", 3, record.addr, record.size, *record.sites))
        elif isinstance(record, Free):
            parts.append(struct.pack("<BI", 4, record.addr))
        else:
            head = struct.pack("<BBIIH", 5, record.kind, record.addr, record.size, len(record.name))
            parts.append(head + record.name)
    return b"".join(parts) + struct.pack("<BBBHIQQ", 6, 0, 0, 0, 0, 0, accesses)


def count_both(records, prefix=None):
    """What the table's way and the judge's come to."""
    data = trace_bytes(records)
    with tempfile.NamedTemporaryFile() as file:
        file.write(data)
        file.flush()
        is_counted = lives.counts_every_block
        if prefix:
            is_counted = lives.counts_blocks_noted_by(lives.read_functions(file.name), prefix)
        own = lives.measure_placement(lives.read_blocks(file.name, is_counted))
        judged = judge_allocators.read_trace(file.name, prefix and prefix.decode())
    counts = (own.active, own.passive)
    lines = tuple(sorted(lives.LINE_BYTES * it for it in found) for found in counts)
    return (*lines, len(own.lines), own.pages, own.live_bytes, own.calls), tuple(judged)


def random_records(draw):
    """Blocks that come and go at a few places around a page's end, some within others or at the place of one that
    wasn't freed, and accesses of several threads."""
    records, places = [(Access(0, 0xF000, True, None), 4)], []
    for _ in range(RECORDS):
        kind = draw.randrange(4)
        if kind == 0:
            size = draw.choice((1, 4, 8, 24, 100))
            addr = PLACES + draw.choice((8, 8, 8, 2)) * draw.randrange(40)
            places.append(addr)
            records.append((Alloc(addr, size, (0, 0, 0, 0)), 0))
            records.append((Access(draw.randrange(THREADS), addr, True, None), 1))
        elif kind == 1 and places:
            records.append((Free(draw.choice(places)), 0))
        else:
            size = draw.choice((1, 2, 4))
            addr = PLACES + size * draw.randrange(320 // size)
            records.append((Access(draw.randrange(THREADS), addr, bool(kind), None), size))
    return records


class Lives(unittest.TestCase):
    def test_worked_lists(self):
        for text, wanted in judge_allocators.WORKED:
            own, judged = count_both(judge_allocators.worked_records(text))
            self.assertEqual((*own[:3], *own[4:]), wanted, text)
            self.assertEqual(own, judged, text)

    def test_edges(self):
        """A block that ends with a page, and an access that begins before a block."""
        begin = (Access(0, 0xF000, True, None), 4)
        block, access = Alloc(0x1FF8, 8, (0, 0, 0, 0)), Access(1, 0x1FF8, True, None)
        own, judged = count_both([begin, (block, 0), (access, 4)])
        self.assertEqual(own, ([], [], 1, 1, 8, 1))
        self.assertEqual(own, judged)
        block, access = Alloc(0x1002, 2, (0, 0, 0, 0)), Access(1, 0x1000, True, None)
        own, judged = count_both([begin, (block, 0), (access, 4)])
        self.assertEqual(own, ([], [], 1, 1, 2, 1))
        self.assertEqual(own, judged)

    def test_random_lists(self):
        draw, shared = random.Random(1), 0
        for _ in range(RANDOM_LISTS):
            records = random_records(draw)
            own, judged = count_both(records)
            self.assertEqual(own, judged, records)
            shared += bool(own[0]) + bool(own[1])
        self.assertGreater(shared, RANDOM_LISTS)

    def test_blocks_that_another_function_notes(self):
        own_site, other_site = (0x108, 0, 0, 0), (0x208, 0, 0, 0)
        records = [
            (Symbol(FUNCTION, 0x100, 16, b"__wrap_malloc"), 0),
            (Symbol(FUNCTION, 0x200, 16, b"sbrk"), 0),
            (Access(0, 0xF000, True, None), 4),
            (Alloc(0x1000, 4096, other_site), 0),
            (Access(0, 0x1000, True, None), 4),
            (Alloc(0x1010, 8, own_site), 0),
            (Access(1, 0x1010, True, None), 4),
        ]
        own, judged = count_both(records, b"__wrap_")
        self.assertEqual(own, ([], [], 1, 1, 8, 1))
        self.assertEqual(own, judged)
        # (the memory that is taken in one piece would be a block of thread 0 on the line of thread 1's)
        self.assertEqual(count_both(records)[0][0], [0x1000])


if __name__ == "__main__":
    unittest.main()
