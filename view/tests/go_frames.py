"""A small program of Go that pclntab.py makes, and the frames at its places."""

import os
import sys
import tempfile
import unittest

from calling import TOP

sys.path[:0] = [TOP, os.path.join(TOP, "native", "others")]

from view.names.go import Table, find_table  # noqa: E402
from pclntab import TEXT  # noqa: E402

VERSIONS, WAYS = ("1.16", "1.18", "1.20"), ("fixed", "addends", "packed")

A, B, C = "/src/a.go", "/src/b.go", "lib/c.go"
# The frames at some places of the functions, as offsets from the first one.
FRAMES = {
    0: [("main.plain", B, 7)],
    15: [("main.plain", B, 7)],
    16: [("main.plain", B, 8)],
    24: [("main.plain", B, 6)],
    31: [("main.plain", B, 6)],
    32: [("main.outer", A, 300)],
    47: [("main.outer", A, 301)],
    48: [("lib.inner", B, 20), ("main.outer", A, 301)],
    63: [("lib.inner", B, 21), ("main.outer", A, 301)],
    64: [("lib.deep", B, 50), ("lib.inner", B, 21), ("main.outer", A, 301)],
    79: [("lib.deep", B, 50), ("lib.inner", B, 21), ("main.outer", A, 301)],
    80: [("main.outer", A, 302)],
    96: [("github.com/x/y%2ev3.(*T).M", C, 1000000)],
    # (inlined, but the tree isn't there)
    112: [("", A, 90)],
    127: [("", A, 90)],
    128: [("main.bare", A, 91)],
    144: [("main.unknown", "", 0)],
    160: [("main.short", A, 60)],
    163: [("main.short", A, 60)],
    # (behind the end of a function, and of all)
    164: [],
    176: [],
    -1: [],
}


class OfBytes(unittest.TestCase):
    def setUp(self):
        folder = tempfile.TemporaryDirectory()
        self.addCleanup(folder.cleanup)
        self.path = os.path.join(folder.name, "program")

    def table(self, made, **how):
        """The table that is found in a program, or in its bytes."""
        with open(self.path, "wb") as file:
            file.write(made if isinstance(made, bytes) else made.bytes(**how))
        return find_table(self.path)

    def frames_of(self, made):
        table = self.table(made)
        self.assertIsInstance(table, Table)
        return {at: [tuple(it) for it in table.frames(TEXT + at)] for at in FRAMES}


if __name__ == "__main__":
    unittest.main()
