"""The answers of `place` for an object, and the fix on the screen: over the stand-in, and over the program where it is built."""

import os
import re
import sys
import tempfile
import unittest

from calling import PROGRAM, STAND_IN, TOP, has, joined, view

sys.path.insert(0, os.path.join(TOP, "tools"))

from judge_report import Access, Case, Ending, trace_bytes  # noqa: E402
from traces import OBJECT, Alloc, Free, Symbol  # noqa: E402


def contend(*words, turns=120):
    """Each hart writes a word of its own in turn."""
    return [Access(hart, True, addr, 4) for _ in range(turns) for hart, addr in enumerate(words)]


def named(name, addr, size):
    return (0, Symbol(OBJECT, addr, size, name))


class Places(unittest.TestCase):
    program = STAND_IN

    def todo(self, accesses, *records, shows=1, options=()):
        """The fix on the screen for the first object of a trace, or more of them."""
        with tempfile.TemporaryDirectory() as folder:
            trace = os.path.join(folder, "t")
            with open(trace, "wb") as file:
                file.write(
                    trace_bytes(
                        Case(
                            accesses,
                            list(records),
                            Ending("exit 0", 9, (0, 0, 0, 0)),
                            2,
                            16,
                            64,
                            100,
                            64,
                            None,
                        )
                    )
                )
            status, text, said = view("replay", trace, *options, program=self.program)
        self.assertEqual((status, said), (0, ""))
        fixes = [joined(it) for it in text.partition("predicted")[0].split("   fix     ")[1:]]
        return [re.split(r" \d+ [\d,]+ \d+ | \d+ predicted", it)[0] for it in fixes][:shows]

    def test_apart_by_harts(self):
        (fix,) = self.todo(contend(0x1000, 0x1004), named(b"queue", 0x1000, 8))
        self.assertIn(
            "saves up to 238 of 238 misses; grouped by thread (queue (hart 0); queue+4 (hart 1)), invalidations ",
            fix,
        )
        self.assertIn("), invalidations 239 → 0 (place)", fix)

    def test_words_of_many_harts(self):
        (fix,) = self.todo(contend(0x1000, 0x1000), named(b"lock", 0x1000, 4))
        # (one word has no other place)
        self.assertIn("none: all its misses are true sharing", fix)
        self.assertNotIn("(place)", fix)
        (fix,) = self.todo(
            [*contend(0x1000, 0x1004), *contend(0x1008, 0x1008)], named(b"both", 0x1000, 12)
        )
        self.assertIn(
            "(both (hart 0); both+4 (hart 1); both+8 (several threads)), invalidations 479 → 239 (place)",
            fix,
        )

    def test_lines_of_another_size(self):
        (fix,) = self.todo(
            contend(0x1000, 0x1044), named(b"wide", 0x1000, 72), options=("--size", "128")
        )
        self.assertIn(
            "(wide (hart 0); wide+68 (hart 1)), invalidations 239 → 0 (place)",
            fix,
        )

    def test_names_as_they_are_spelled(self):
        for name, printed in (
            (b"--size", "--size"),
            (b"two words\\", "two\\x20words\\x5c"),
            (b"\xc3\xa9\x1b[31m", "\\xc3\\xa9\\x1b[31m"),
        ):
            (fix,) = self.todo(contend(0x1000, 0x1004), named(name, 0x1000, 8))
            self.assertIn(f"({printed} (hart 0); {printed}+4 (hart 1)), invalidations ", fix)
        # (no word of a call may be so)
        (fix,) = self.todo(contend(0x1000, 0x1004), named(b"\xff", 0x1000, 8))
        self.assertNotIn("(place)", fix)

    def test_too_large_and_no_room(self):
        for symbol, words in (
            (named(b"table", 0x1000, 2**24 + 4), (0x1000, 0x1004)),
            (named(b"last", 0xFFFFFFC0, 64), (0xFFFFFFC0, 0xFFFFFFFC)),
        ):
            (fix,) = self.todo(contend(*words), symbol)
            self.assertRegex(
                fix,
                "^(give each thread|separate these groups|start) .*saves up to 238 of 238 misses( offset .*)?$",
            )

    def test_the_first_of_one_name(self):
        first, second = self.todo(
            [*contend(0x1000, 0x1004), *contend(0x2000, 0x2004, turns=90)],
            named(b"own", 0x1000, 8),
            named(b"own", 0x2000, 8),
            shows=2,
        )
        self.assertIn("; grouped by thread (", first)
        self.assertNotIn("place", second)

    def test_a_block_by_its_address(self):
        made = (0, Alloc(0x2000, 16, (0x104, 0, 0, 0)))
        (fix,) = self.todo(contend(0x2000, 0x2004), made)
        self.assertIn(
            "; grouped by thread (+0 (hart 0); +4 (hart 1)), invalidations 239 → 0 (place)",
            fix,
        )
        # (of several that were made there none is meant)
        earlier = [(0, Alloc(0x2000, 16, (0x200, 0, 0, 0))), (0, Free(0x2000))]
        (fix,) = self.todo(contend(0x2000, 0x2004), *earlier, made)
        self.assertNotIn("(place)", fix)


@unittest.skipUnless(has(PROGRAM, "misses", "place"), "the program isn't built, or has no place")
class PlacesOfTheProgram(Places):
    program = PROGRAM

    def test_the_largest(self):
        (fix,) = self.todo(contend(0x1000, 0x1004), named(b"table", 0x1000, 2**24))
        self.assertIn("), invalidations 239 → 0 (place)", fix)


if __name__ == "__main__":
    unittest.main()
