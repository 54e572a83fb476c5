"""The stand-in for `move`, and the program's, by rows that were worked by hand."""

import os
import struct
import subprocess
import sys
import tempfile
import unittest

HERE = os.path.dirname(os.path.abspath(__file__))
sys.path[:0] = [os.path.join(HERE, "..", ".."), os.path.join(HERE, "..", "..", "tools")]

import moving  # noqa: E402
from calling import PROGRAM, has  # noqa: E402
import recount_misses  # noqa: E402
import traces  # noqa: E402

# Three writes, by harts 0, 1 and 0, in version 2: to 0x1000, 0x1004 and 0x1000.
HEAD = struct.pack("<8sQHH", b"PRDTRC02", 0, 8, 0)
END = struct.pack("<BBBHIQQ", 6, 0, 0, 0, 0, 3, 3)
WRITES = HEAD + bytes.fromhex("24008040 240108 240007") + END
# A run of three harts in version 3, of which each access has its instruction: the first nine accesses, and ten more as they are spelled
# at the beginning of a file.
FIRST = "240090c008888008 110107f88008 21010010 110202f88008 1101010f 11000770 21020a10 21010110 21000710"
REST = "11028ac008f88008 110101f88008 110007f88008 21020a10 21010110 21000710 11020a0f 1100090f 21020a10 21000910"
SYMBOL = "0502300001002c0000000400776f726b"


def whole():
    """The trace of the nineteen accesses."""
    head, end = struct.pack("<8sQHH", b"PRDTRC03", 0, 8, 0), struct.pack(
        "<BBBHIQQ", 6, 0, 0, 0, 0, 60, 19
    )
    text, before, pcs = head + bytes.fromhex(SYMBOL), 0, {}
    for part in (FIRST, REST):
        own = head + bytes.fromhex(part) + end
        for begin, end_of, access in traces.located_records(own):
            text += moving.spelled(3, (own[begin], own[end_of - 1]), access, before, pcs)
            before = access.addr
    return text + end


class Moved(unittest.TestCase):
    def move(self, trace, table):
        """What is printed, the status, and the file."""
        with tempfile.TemporaryDirectory() as folder:
            names = [os.path.join(folder, it) for it in ("trace", "table", "out")]
            for name, text in zip(names, (trace, table.encode())):
                with open(name, "wb") as file:
                    file.write(text)
            try:
                said, status = moving.move(names), 0
            except moving.Refused as fault:
                said, status = str(fault), fault.status
            if not os.path.exists(names[2]):
                return said, status, b""
            with open(names[2], "rb") as file:
                return said, status, file.read()

    def total(self, trace):
        return [*recount_misses.misses_text(trace, 64, 0)][-2]

    def test_a_trace_with_instructions(self):
        trace = whole()
        self.assertEqual(len(trace), 145)
        said, status, out = self.move(trace, "0x11000 4 0x11080\n0x11004 4 0x11040\n")
        self.assertEqual((said, status, len(out)), ("move 19 18", 0, 149))
        begin = bytes.fromhex(
            SYMBOL + "240090c008888008 110170f88008 21010010 110202f88008 1101010f 1100800170"
        )
        self.assertTrue(out[20:].startswith(begin))
        self.assertEqual(self.total(trace), "total cold 3 useful 4 useless 5")
        self.assertEqual(self.total(out), "total cold 4 useful 4 useless 0")

    def test_a_trace_of_version_2(self):
        said, status, out = self.move(WRITES, "0x1004 4 0x1040")
        self.assertEqual(
            (said, status, out),
            ("move 3 1", 0, HEAD + bytes.fromhex("24008040 24018001 24007f") + END),
        )

    def test_a_place_that_is_not_free(self):
        self.assertEqual(
            self.move(WRITES, "0x1004 4 0x1000")[:2], ("table Occupied 0x00001000", 14)
        )

    def test_two_that_change_places(self):
        self.assertEqual(
            self.move(WRITES, "0x1000 4 0x1004\n0x1004 4 0x1000\n")[:2], ("move 3 3", 0)
        )

    def test_tables(self):
        for table, said in (
            ("0 4 8 ", "BadLine 1"),
            ("\n0 6 8", "BadLine 2"),
            ("0 8 64\n8 4 68", "Overlap 2"),
            ("0 0 8", "BadLine 1"),
            ("8 4 0\n0 4 64", "BadLine 2"),
            ("0 4 4294967296", "BadLine 1"),
            ("\n" * (1 << 20) + "\n", "TooLong"),
        ):
            self.assertEqual(self.move(WRITES, table), (f"table {said}", 14, b""), table[:20])
        said, _, out = self.move(WRITES, "")
        self.assertEqual((said, out), ("move 3 0", WRITES))
        self.assertEqual(self.move(WRITES, "0 4294967296 0")[0], "move 3 3")


@unittest.skipUnless(has(PROGRAM, "move"), "the program isn't built, or has no move")
class OfTheProgram(Moved):
    """The same rows, by the program."""

    def move(self, trace, table):
        with tempfile.TemporaryDirectory() as folder:
            names = [os.path.join(folder, it) for it in ("trace", "table", "out")]
            for name, text in zip(names, (trace, table.encode())):
                with open(name, "wb") as file:
                    file.write(text)
            ran = subprocess.run([PROGRAM, "move", *names], capture_output=True, text=True)
            if not os.path.exists(names[2]):
                return ran.stdout.strip().removeprefix("predator: "), ran.returncode, b""
            with open(names[2], "rb") as file:
                return ran.stdout.strip().removeprefix("predator: "), ran.returncode, file.read()


if __name__ == "__main__":
    unittest.main()
