"""The screen and the page of caches of some shapes: over the stand-in, and over the program where it is built."""

import os
import re
import subprocess
import sys
import tempfile
import unittest

from calling import PROGRAM, STAND_IN, TOP, has, view

sys.path[:0] = [TOP, os.path.join(TOP, "tools")]

from view.output.caches import (  # noqa: E402
    LINES,
    USUAL,
    Caches,
    Shape,
    Sized,
    page,
    rows,
    shape_of,
)
from view.output.drawings import BAR, bar  # noqa: E402
from view.faults import Fault  # noqa: E402
from judge_report import Access, Case, Ending, trace_bytes  # noqa: E402
from traces import Symbol  # noqa: E402

TEXT = "caches 64 1 1\naccesses 9\nlines {0}\n{1}total bounded {2} unbounded {3} evicted 0\nend\n"


def contend(addr, times=10):
    """Two harts that write words of a line in turn."""
    return [Access(hart, True, addr + 4 * hart, 4) for _ in range(times) for hart in range(2)]


def lost(addr, by, times=10):
    """A hart that reads as many lines as push a line out of its small cache before another one writes that."""
    found = []
    for _ in range(times):
        found += [
            Access(0, True, addr, 4),
            *(Access(0, False, by + 64 * it, 4) for it in range(64)),
            Access(1, True, addr + 4, 4),
        ]
    return found


class CachesOfShapes(unittest.TestCase):
    program = STAND_IN

    def setUp(self):
        work = tempfile.TemporaryDirectory()
        self.addCleanup(work.cleanup)
        self.trace, self.html = os.path.join(work.name, "<i>t"), os.path.join(work.name, "h")
        accesses = contend(0x1000, 20) + lost(0x2000, 0x3000)
        self.write(
            accesses, [(0, Symbol(1, 0x1000, 8, b"<b>&mine")), (0, Symbol(1, 0x2000, 8, b"lost"))]
        )

    def write(self, accesses, records=()):
        with open(self.trace, "wb") as file:
            file.write(
                trace_bytes(
                    Case(
                        accesses,
                        list(records),
                        Ending("exit 0", 9, (0, 0, 0, 0)),
                        2,
                        16,
                        64,
                        100,
                        64,
                        None,
                    )
                )
            )

    def call(self, *words):
        return view("caches", self.trace, *words, program=self.program)

    def test_the_screen(self):
        status, text, said = self.call("--shape", "64x16x2", "--shape=64x64x8")
        self.assertEqual((status, said), (0, ""))
        found = text.split("\n")
        expected = "48 in caches of 2 KiB (64x16x2), 58 in caches of 32 KiB (64x64x8)"
        self.assertEqual(
            found[0],
            f"64-byte lines: 58 invalidations on 2 lines in infinite caches, {expected} (700 accesses)",
        )
        self.assertEqual(found[3].split(), ["39", "39", "39", "0x00001000", "<b>&mine"])
        self.assertEqual(found[4].split(), ["19", "9", "19", "0x00002000", "lost"])
        self.assertEqual(found[5].split(), ["58", "48", "58", "all", "lines", "(2)"])
        self.assertEqual(found[6].split()[0::3], ["-", "evictions"])
        # Without shapes those that are usual.
        self.assertEqual(
            self.call()[1].split("\n")[2].split(), ["infinite", *USUAL, "line", "object"]
        )

    def test_the_page_has_what_the_table_has(self):
        status, text, said = self.call("--shape", "64x16x2", "--shape=64x64x8", "--html", "-")
        self.assertEqual((status, said), (0, ""))
        for pattern in (r"<script", r"https?:", r"""(src|href)=""", "<i>", "<b>&"):
            self.assertNotRegex(text, pattern)
        self.assertIn("<h1>&lt;i&gt;t: 64-byte lines: 58 invalidations on 2 lines", text)
        self.assertIn("<th>2 KiB (64x16x2)</th><th>32 KiB (64x64x8)</th>", text)
        asked = [self.asked(it) for it in ("64x16x2", "64x64x8")]
        (all_lines, *lines) = re.findall(
            r"<tr><t[hd]>(?:<code>(0x\w+)</code>|all lines \(2\))(.*?)</tr>", text, re.DOTALL
        )
        self.assertEqual([int(it[0], 16) for it in lines], list(asked[0].lines))
        for base, row in lines:
            self.cells(row, [it.lines[int(base, 16)] for it in asked], 39)
        self.cells(all_lines[1], [it.total for it in asked], 58)
        self.assertIn("</code> &lt;b&gt;&amp;mine", text)
        # The file has the same.
        self.assertEqual(
            self.call("--shape", "64x16x2", "--shape=64x64x8", "--html", self.html)[0], 0
        )
        with open(self.html, encoding="utf-8") as file:
            self.assertEqual(file.read(), text)

    def asked(self, name):
        """What the program says of a shape."""
        words = [self.program, *shape_of(name).words(), "--", self.trace]
        return Caches(
            subprocess.run(words, capture_output=True, text=True).stdout, shape_of(name), LINES
        )

    def cells(self, row, own, greatest):
        """Compares the texts and the marks of a row with the counts of each shape."""
        found = re.findall(
            r'<rect .*?width="(\d+)".*?<rect .*?width="(\d+)".*?<b>(\d+)</b> <span class="soft">(\d+) evictions<',
            row,
        )
        self.assertEqual(
            [(int(it[2]), int(it[3])) for it in found], [(it.bounded, it.evicted) for it in own]
        )
        for count, (fill, frame, _, _) in zip(own, found):
            drawn = bar(count.bounded, count.unbounded, greatest)
            self.assertEqual((int(fill), int(frame)), (drawn["fill"], drawn["frame"]))
        self.assertIn(f'<td class="n" data-of="infinite caches">{own[0].unbounded}</td>', row)
        self.assertEqual(
            re.findall(r"<title>.*?: (\d+) of (\d+) invalidations in caches of ", row),
            [(str(it.bounded), str(it.unbounded)) for it in own],
        )

    def test_lines_of_several_sizes(self):
        status, text, _ = self.call("--shape", "64x64x8", "--shape=8x64x8", "--html", "-")
        self.assertEqual(status, 0)
        self.assertEqual(
            [re.findall(r"^(\d+)-byte lines", it)[0] for it in re.findall("<h2>(.*)</h2>", text)],
            ["64", "8"],
        )

    def test_a_line_that_is_taken_in_no_shape(self):
        self.write(lost(0x2000, 0x3000))
        text = self.call("--shape", "64x1x1", "--shape", "64x2x1")[1]
        self.assertIn(
            "64-byte lines: 19 invalidations on 1 line in infinite caches, 9 in caches of all 2 shapes",
            text,
        )
        self.assertNotIn("none in these", text)
        # (each write behind a read of another line, by the same hart)
        alone = [
            access
            for at in range(20)
            for access in (Access(at % 2, True, 0x2000, 4), Access(at % 2, False, 0x2040, 4))
        ]
        self.write(alone)
        status, text, _ = self.call("--shape", "64x1x1", "--html", "-")
        self.assertIn(
            "64-byte lines: 19 invalidations on 1 line in infinite caches, 0 in caches of 64 bytes (64x1x1)",
            text,
        )
        self.assertIn('<span class="soft">none in these caches</span>', text)
        self.assertRegex(text, '<rect x="1" y="3" width="0"')
        self.assertIn("(none in these caches)", self.call("--shape", "64x1x1")[1])

    def test_nothing(self):
        for accesses in ([], [Access(0, True, 0x1000, 4)]):
            self.write(accesses)
            status, text, said = self.call()
            expected = "64-byte lines: no invalidation, even in infinite caches"
            much = "0 accesses" if not accesses else "1 access"
            self.assertEqual((status, text, said), (0, f"{expected} ({much})\n", ""))
            status, text, _ = self.call("--html", "-")
            self.assertIn(f"{expected}</h1>", text)
            self.assertNotIn("<svg", text)

    def test_lines_that_are_too_many(self):
        self.write([it for at in range(50) for it in contend(0x10000 + 64 * at, 1 + at)])
        text = self.call("--html", "-", "--shape", "64x64x8")[1]
        self.assertEqual(text.count("<svg"), LINES + 1)
        self.assertIn("10 more lines aren't drawn: --top 50 draws all", text.replace("&#39;", "'"))
        self.assertIn("10 more lines (--top 50 shows all)", self.call("--shape", "64x64x8")[1])
        self.assertEqual(
            self.call("--html", "-", "--top", "50", "--shape", "64x64x8")[1].count("<svg"), 51
        )

    def test_a_pipe(self):
        env = {**os.environ, "PREDATOR_PROGRAM": self.program, "PREDATOR_BUILD": "no"}
        with open(self.trace, "rb") as file:
            command = [os.path.join(TOP, "bin", "predator"), "view", "caches", "-"]
            ran = subprocess.run(command, input=file.read(), capture_output=True, env=env)
        self.assertEqual(ran.stdout.decode(), self.call()[1])

    def test_refused(self):
        for bad in (
            "64x64",
            "63x64x8",
            "64x3x8",
            "64x0x8",
            "64x64x65",
            "64x1024x64",
            "2x64x8",
            "2048x1x1",
            "064x64x8",
            "axbxc",
            "1x1",
        ):
            status, _, said = self.call("--shape", bad)
            self.assertEqual(
                (
                    status,
                    f"'--shape' takes SIZExSETSxWAYS, such as 64x64x8, not '{bad}': a line size"
                    in said,
                ),
                (2, True),
                bad,
            )
        for words, expected in (
            (["--shape", "64x1x1", "--shape=64x1x1"], "'--shape 64x1x1' is given twice"),
            (["--html", self.trace], "is used twice: outputs must differ"),
            (
                ["--json", "j"],
                "`view caches` has no option '--json'; it takes --html, --shape, --top",
            ),
            (["--size", "64"], "view caches has no option '--size'"),
            (["--top", "all"], "'--top' takes a number, not 'all'"),
        ):
            status, _, said = self.call(*words)
            self.assertEqual((status, expected in said), (2, True), said)
        status, _, said = view(
            "sweep", self.trace, "--size", "64", "--shape", "64x1x1", program=self.program
        )
        self.assertEqual((status, "'--shape' applies to `view caches` only" in said), (2, True))
        status, _, said = view("caches", __file__, program=self.program)
        self.assertEqual((status, "`predator caches` failed: " in said), (2, True))


@unittest.skipUnless(has(PROGRAM, "caches"), "the program isn't built, or has no caches")
class CachesOfTheProgram(CachesOfShapes):
    program = PROGRAM


class Texts(unittest.TestCase):
    def test_what_caches_prints(self):
        line = "line 0x00001000 bounded 1 unbounded 3 evicted 0\n"
        own = Caches(TEXT.format(1, line, 1, 3), Shape(64, 1, 1), 9)
        self.assertEqual(own.lines, {0x1000: (1, 3, 0)})
        # (one time, of one line)
        self.assertIn(
            "64-byte lines: 3 invalidations on 1 line in infinite caches, 1 in caches of 64 bytes",
            Sized([own], {}).sentence(),
        )
        for bad in (
            "",
            TEXT.format(2, line, 1, 3),
            TEXT.format(1, line, 1, 3)[:-4],
            TEXT.format(0, "", 0, 0).replace("64", "32"),
        ):
            with self.assertRaises(Fault):
                Caches(bad, Shape(64, 1, 1), 9)
        other = Caches(TEXT.format(1, line.replace("3", "4"), 1, 4), Shape(64, 1, 1), 9)
        with self.assertRaises(Fault):
            Sized([own, other], {})

    def test_a_million_lines(self):
        lines = "".join(
            f"line {64 * number:#010x} bounded {number % 3} unbounded {2_000_000 - number} evicted 1\n"
            for number in range(1_000_000)
        )
        text = TEXT.format(1_000_000, lines, 999_999, 1_500_000_500_000)
        own = Sized([Caches(text, shape_of("64x1x1"), LINES)], {0: "n" * 300})
        self.assertEqual(len(list(rows(own))), LINES + 6)
        drawn = page([own], "t")
        self.assertIn("999960 more lines", drawn)
        self.assertLess(len(drawn.encode()), 100_000)

    def test_a_bar(self):
        self.assertEqual(bar(5, 10, 10), {"width": BAR, "frame": BAR, "fill": BAR // 2})
        # What isn't 0 is seen, and what isn't all isn't full.
        self.assertEqual(
            [bar(it, 1000, 1000)["fill"] for it in (0, 1, 999, 1000)], [0, 1, BAR - 1, BAR]
        )
        self.assertEqual(bar(0, 1, 1000), {"width": BAR, "frame": 1, "fill": 0})

    def test_how_large_a_cache_is(self):
        sizes = [shape_of(it).text().partition(" (")[0] for it in (*USUAL, "64x1x1", "4x128x3")]
        self.assertEqual(sizes, ["2 KiB", "8 KiB", "32 KiB", "256 KiB", "64 bytes", "1.5 KiB"])


if __name__ == "__main__":
    unittest.main()
