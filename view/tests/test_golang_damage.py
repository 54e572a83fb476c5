"""Damaged, cut and strange tables of Go: they give fewer names, and quickly."""

import functools
import itertools
import os
import random
import struct
import sys
import time
import unittest
from unittest import mock

from calling import TOP

sys.path[:0] = [TOP, os.path.join(TOP, "native", "others")]

from view.names import go  # noqa: E402
from view.names.fields import value_or_default  # noqa: E402
from view.names.native import NativeProgram  # noqa: E402
from pclntab import MODULE, OWN, TABLE, TEXT, Made, encoded  # noqa: E402
from view.names.source_lines import SourceLine  # noqa: E402
from go_frames import A, B, FRAMES, VERSIONS, WAYS, OfBytes  # noqa: E402


class Strange(OfBytes):
    """Damaged tables: nothing is reported that they don't contain."""

    def refused(self, place, data, version="1.18", **how):
        made = Made(version, **how)
        made.put(place, data)
        self.assertIsNone(self.table(made), (hex(place), data))

    def test_headers(self):
        for place, data in (
            # (another magic number, bytes that aren't zero, steps of code of 4 bytes, addresses of 4)
            *(
                (TABLE, b"\xfb"),
                (TABLE + 3, b"\0"),
                (TABLE + 4, b"\1"),
                (TABLE + 6, b"\4"),
                (TABLE + 7, b"\4"),
            ),
            # (no function, and more than there are)
            *((TABLE + 8, struct.pack("<Q", it)) for it in (0, 7, 1 << 19, 1 << 40, 1 << 63)),
            # (parts that aren't in order, or beyond the end)
            *((TABLE + 32 + 8 * it, struct.pack("<Q", 0)) for it in range(5)),
            *((TABLE + 32 + 8 * it, struct.pack("<Q", 0x10000)) for it in range(5)),
            (TABLE + 32, struct.pack("<Q", 71)),
        ):
            self.refused(place, data)

    def test_a_header_between_two_words(self):
        made = Made(has_module=False)
        made.parts[TABLE + 4] = made.parts.pop(TABLE)
        self.assertIsNone(self.table(made))

    def test_functions(self):
        first = Made().places[4]
        for at, start in ((1, 97), (0, 33), (6, 159), (6, 1 << 20), (0, 1 << 31)):
            self.refused(first + 8 * at, struct.pack("<I", start), has_module=False)
        # (one without any code)
        made = Made()
        made.put(first + 8, bytes(4))
        self.assertEqual(
            [it[-1].function for it in map(self.table(made).frames, (TEXT, TEXT + 63))],
            ["main.outer"] * 2,
        )
        self.refused(TABLE + 24, struct.pack("<Q", TEXT - 16), has_module=False)
        # (data is no code)
        self.refused(TABLE + 24, struct.pack("<Q", MODULE), has_module=False)

    def test_the_record_of_the_module(self):
        # (one that doesn't fit isn't the module's)
        for word in (0, 1, 4, 7, 10, 13, 16, 17):
            made = Made()
            made.put(MODULE + 8 * word, struct.pack("<Q", made.get(MODULE + 8 * word, 8) + 8))
            table = self.table(made)
            self.assertFalse(table.module, word)
            self.assertEqual([tuple(it) for it in table.frames(TEXT + 64)], [("", B, 50)])
        for word in (20, 21, 22):
            self.refused(MODULE + 8 * word, struct.pack("<Q", TEXT + 8))

    def test_trees(self):
        """An inlined call out of order isn't reported, and nor is the outer function in its place."""
        for version, size, name_at, place_at in (
            ("1.16", 20, 12, 16),
            ("1.18", 20, 12, 16),
            ("1.20", 16, 4, 8),
        ):
            inner = Made(version).tree + 8
            deep = inner + size
            for place, value in (
                *(
                    (begin + name_at, value)
                    for begin in (inner, deep)
                    for value in (12, 0x7FFFFFF, 0xFFFFFFFF)
                ),
                # (outside of the function; in itself; in one that isn't reported)
                *(
                    (begin + place_at, value)
                    for begin in (inner, deep)
                    for value in (64, 0xFFFFFFFF, 0x7FFFFFFF)
                ),
                *(
                    (deep + place_at, 32),
                    (deep + place_at, 63),
                    (inner + place_at, 20),
                    (inner + place_at, 40),
                ),
            ):
                made = Made(version)
                made.put(place, struct.pack("<I", value))
                table = self.table(made)
                found = [tuple(it) for it in table.frames(TEXT + 64)]
                if (place, value) == (deep + place_at, 63):
                    self.assertEqual(found, [("lib.deep", B, 50), ("main.outer", A, 302)])
                else:
                    self.assertEqual(found, [("", B, 50)], (version, hex(place), value))
                self.assertEqual(table.frames(TEXT + 80), [SourceLine("main.outer", A, 302)])
            # (the outer one behind the inner one; and a record without a tree)
            made = Made(version)
            made.put(inner + place_at, struct.pack("<I", 47))
            made.put(deep + place_at, struct.pack("<I", 15))
            self.assertEqual(self.table(made).frames(TEXT + 48), [SourceLine("", B, 20)])
            made = Made(version)
            made.put(made.records[1] + {"1.18": 39}.get(version, 43), b"\3")
            self.assertEqual(self.table(made).frames(TEXT + 48), [SourceLine("", B, 20)])
            # (the first name is one like others, unless nothing at all is there)
            made = Made(version)
            made.put(inner + name_at, bytes(4))
            self.assertEqual(self.table(made).frames(TEXT + 48)[0], SourceLine("go.buildid", B, 20))
            made.put(inner, bytes(size))
            self.assertEqual(self.table(made).frames(TEXT + 48), [SourceLine("", B, 20)])

    def test_how_deep_calls_are(self):
        for deep, wanted in ((2, FRAMES[64]), (1, [("", B, 50)])):
            with mock.patch.object(go, "DEEP", deep):
                self.assertEqual([tuple(it) for it in self.table(Made()).frames(TEXT + 64)], wanted)

    def test_a_tree_elsewhere(self):
        for to in (0, TABLE + 0x1100, TABLE + 0x10000, TABLE + 0x1FF8, (1 << 64) - 8):
            made = Made()
            made.put(MODULE + 8 * 38, struct.pack("<Q", to))
            self.assertEqual(
                [tuple(it) for it in self.table(made).frames(TEXT + 48)], [("", B, 20)], hex(to)
            )

    def test_names(self):
        made = Made()
        # (one that begins within another one, and one that is longer than all)
        made.put(made.records[0] + 4, struct.pack("<I", made.get(made.records[0] + 4) + 1))
        self.assertEqual(self.table(made).frames(TEXT), [SourceLine("", B, 7)])
        made.put(made.records[1] + 4, struct.pack("<I", made.get(made.records[1] + 4) + 1))
        self.assertEqual(self.table(made).frames(TEXT + 48), [SourceLine("", B, 20)])
        with mock.patch.object(go, "NAME", len("main.plain")):
            self.assertEqual(self.table(Made()).frames(TEXT), [SourceLine("", B, 7)])
        with mock.patch.object(go, "NAME", len("main.plain") + 1):
            self.assertEqual(self.table(Made()).frames(TEXT), [SourceLine("main.plain", B, 7)])

    def test_files(self):
        made = Made()
        for place, value in (
            # (one that begins within another one, and a table that isn't there)
            (made.places[1] + 4, made.get(made.places[1] + 4) + 1),
            (made.records[0] + 20, 1 << 30),
            (made.records[0] + 20, 0),
        ):
            made = Made()
            made.put(place, struct.pack("<I", value))
            self.assertEqual(
                self.table(made).frames(TEXT),
                [SourceLine("main.plain", "", 0)],
                (hex(place), value),
            )
        # (no file, and one behind the list of them)
        for unit, at in ((2, -1), (0, (TABLE + 0x1800 - made.places[1]) // 4), (1 << 20, 0)):
            made = Made(own=[OWN[0]._replace(unit=unit, files=[(at, 32)])])
            self.assertEqual(
                self.table(made).frames(TEXT), [SourceLine("main.plain", "", 0)], (unit, at)
            )

    def test_lines(self):
        for line in (-1, 0, -7):
            made = Made(own=[OWN[0]._replace(lines=[(line, 32)])])
            self.assertEqual(self.table(made).frames(TEXT), [SourceLine("main.plain", "", 0)])

    def test_what_ends_early(self):
        whole = Made().bytes()
        for size in range(0, len(whole), 37):
            table = value_or_default(functools.partial(self.table, whole[:size]), None)
            for at in FRAMES if table else ():
                found = value_or_default(functools.partial(table.frames, TEXT + at), [])
                # (all, or the line alone, or the function alone, or nothing)
                line, function = [("", *it[1:]) for it in FRAMES[at][:1]], [
                    (frame[0], "", 0) for frame in FRAMES[at][-1:]
                ]
                self.assertIn(
                    [tuple(it) for it in found], (FRAMES[at], line, function, []), (size, at)
                )

    def test_any_bytes(self):
        """Whatever a file has, nothing is raised beyond what leaves names as they are."""
        dice = random.Random(7)
        native = object.__new__(NativeProgram)
        for version in VERSIONS:
            for way in WAYS:
                whole = Made(version, way).bytes()
                for _ in range(20):
                    data = bytearray(whole)
                    for _ in range(dice.choice((1, 4, 32))):
                        data[dice.randrange(len(data))] = dice.choice(
                            (0, 1, 0x7F, 0x80, 0xFF, dice.randrange(256))
                        )
                    with open(self.path, "wb") as file:
                        file.write(data)
                    native.go_tables = {}
                    for at in FRAMES:
                        for frame in native.go_frames(mock.Mock(path=self.path), TEXT + at):
                            self.assertTrue(frame.function or frame.file)

    def test_segments_without_end(self):
        """Few segments that repeat the whole file are read, and relocations of too many words end."""
        made = Made(way="packed")
        made.parts[0x900000] = bytearray(1 << 20)
        data = bytearray(made.bytes())
        table, count = struct.unpack_from("<Q", data, 32)[0], struct.unpack_from("<H", data, 56)[0]
        one = struct.pack("<IIQQQQQQ", 1, 6, 0, 0x1000000, 0x1000000, len(data), len(data), 8)
        struct.pack_into("<Q", data, 32, len(data))
        struct.pack_into("<H", data, 56, 60000)
        begin = time.process_time()
        self.assertIsNotNone(
            self.table(bytes(data + data[table : table + 56 * count] + one * (60000 - count)))
        )
        made.parts[0x900000] = bytearray(b"\xff" * (1 << 20))
        made.moves = lambda: (
            b"",
            b"".join(struct.pack("<QQ", *it) for it in ((36, 0x900000), (35, 1 << 20), (0, 0))),
        )
        self.assertIsNotNone(self.table(made))
        self.assertLess(time.process_time() - begin, 4)

    def test_what_is_large_takes_no_time(self):
        """Headers and pointers without end, and more functions than any program has."""
        head = bytes(Made().parts[TABLE][:72])
        for grown in (head * (1 << 15), struct.pack("<Q", TABLE) * (1 << 18)):
            made = Made()
            made.parts = {0x10000: bytearray(grown), **made.parts}
            begin = time.process_time()
            table = self.table(made)
            self.assertEqual(
                table and table.frames(TEXT),
                None if grown[:4] == head[:4] else [SourceLine("main.plain", B, 7)],
            )
            self.assertLess(time.process_time() - begin, 4)
        with mock.patch.object(go, "FUNCTIONS", len(OWN) - 1):
            self.assertIsNone(self.table(Made()))

    def test_steps(self):
        table = self.table(Made())
        for steps in ([(5, 4)], [(-1, 1), (300, 200), (-5, 1 << 20), (0, 1)]):
            table.begin, table.values, table.data = 0, 0, encoded(steps) + encoded([(7, 4)])
            table.steps.cache_clear()
            self.assertEqual(
                table.steps(0),
                ([*itertools.accumulate(size for _, size in steps)], [value for value, _ in steps]),
            )

    def test_steps_without_end(self):
        table = self.table(Made())
        # (steps of one byte, and a number of too many)
        for values in (b"\2\1" * (1 << 22), b"\xff" * (1 << 19)):
            begin = time.process_time()
            table.begin, table.data, table.values, table.left = 0, values, 0, go.STEPS
            table.steps.cache_clear()
            self.assertEqual(len(table.steps(0)[0]), go.STEPS if values[0] == 2 else 0)
            self.assertEqual(table.steps(2), ([], []))
            self.assertLess(time.process_time() - begin, 4)


if __name__ == "__main__":
    unittest.main()
