"""The screen and the page of a sweep: over the stand-in, and over the program where it is built."""

import os
import re
import subprocess
import sys
import tempfile
import unittest

from calling import PROGRAM, STAND_IN, TOP, has, view

sys.path[:0] = [TOP, os.path.join(TOP, "tools")]

from view.model.line_borders import ShiftedLines, order_crossings  # noqa: E402
from view.output.drawings import curve  # noqa: E402
from view.faults import Fault  # noqa: E402
from judge_report import Access, Case, Ending, trace_bytes  # noqa: E402
from view.output.sweep import Sweep, page  # noqa: E402
from traces import Symbol  # noqa: E402

TITLE = "8-byte lines: 39 invalidations as placed, 0 at best (shift 4); most of the difference is in memory at 0x00001000"
TEXT = "sweep 8\naccesses 9\nshift 0 total {} lines 1\nshift 4 total {} lines 1\nleast {} total {}\nend\n"


def cells_of(text):
    """The cells of each row of a page's tables that names no shift first."""
    rows = [
        re.findall(r"<td[^>]*>(.*?)</td>", row) for row in re.findall(r"(?s)<tr>(.*?)</tr>", text)
    ]
    return [it for it in rows if it and not it[0].isdigit()]


def in_turn(*addresses):
    """Writes of two harts and more, each at a place of its own, twenty times in turn."""
    return [Access(hart, True, addr, 4) for _ in range(20) for hart, addr in enumerate(addresses)]


class Sweeps(unittest.TestCase):
    program = STAND_IN

    def setUp(self):
        work = tempfile.TemporaryDirectory()
        self.addCleanup(work.cleanup)
        self.trace, self.html = os.path.join(work.name, "<i>t"), os.path.join(work.name, "h")
        self.write(in_turn(0x1000, 0x1004))

    def write(self, accesses, symbols=()):
        records = [(0, Symbol(1, addr, size, name.encode())) for name, addr, size in symbols]
        with open(self.trace, "wb") as file:
            file.write(
                trace_bytes(
                    Case(
                        accesses,
                        records,
                        Ending("exit 0", 9, (0, 0, 0, 0)),
                        8,
                        16,
                        64,
                        100,
                        64,
                        None,
                    )
                )
            )

    def sweep_text(self, *words):
        status, text, said = view("sweep", self.trace, "--size", "8", *words, program=self.program)
        self.assertEqual((status, said), (0, ""))
        return text

    def test_the_screen(self):
        status, text, said = view("sweep", self.trace, "--size", "8", program=self.program)
        self.assertEqual((status, said), (0, ""))
        rows = text.split("\n")
        self.assertEqual(rows[0], f"{TITLE} (40 accesses)")
        self.assertEqual(
            rows[3:5],
            [
                "       0       39      1  as placed, most",
                "       4        0      0  fewest",
            ],
        )
        self.assertEqual(rows[1:3], ["", "   shift    inval  lines"])
        self.assertEqual(rows[6].split("  ")[-1], "object (and its worst line at shift 0)")
        self.assertEqual(
            rows[7:], ["         39          0  memory at 0x00001000 (0x00001000)", ""]
        )

    def test_the_page(self):
        status, text, said = view(
            "sweep", self.trace, "--size=8", "--html", "-", program=self.program
        )
        self.assertEqual((status, said), (0, ""))
        self.assertTrue(text.startswith("<!DOCTYPE html>"))
        for pattern in (r"<script", r"https?:", r"""(src|href)=""", "<i>"):
            self.assertNotRegex(text, pattern)
        self.assertIn(f"<h1>&lt;i&gt;t: {TITLE}</h1>", text)
        labels = re.findall(r"<rect .*?</svg> (.*?); <svg .*?<circle .*?</svg> (.*?)</p>", text)
        self.assertEqual(labels, [("as placed: 39", "fewest, shift 4: 0")])
        # Each mark is beside its text, and in the picture on the line.
        self.assertEqual(re.findall(r'<rect x="(\S+)" y="(\S+)"', text), [("-5", "-5"), ("7", "7")])
        self.assertEqual(
            re.findall(r'<circle cx="(\S+)" cy="(\S+)"', text), [("0", "0"), ("628", "188")]
        )
        self.assertIn('points="12,12 628,188"', text)
        self.assertEqual(cells_of(text)[0], ["memory at 0x00001000", "39", "0", "0x00001000"])
        self.assertIn(
            '<th class="n">shift 0 (as placed, most)</th><th class="n">shift 4 (fewest)</th>',
            text,
        )
        # Each shift has a tick with its name, and a row with what `sweep` prints of it.
        self.assertEqual(
            re.findall(r'v4"/><text x="(\S+)" y="\S+" text-anchor="middle">(.*?)</text>', text),
            [("12", "0"), ("628", "4")],
        )
        words = [self.program, "sweep", self.trace, "--size", "8"]
        printed = subprocess.run(words, capture_output=True, text=True).stdout
        wanted = [
            list(numbers)
            for numbers in re.findall(
                r"^shift (\d+) total (\d+) lines (\d+)$", printed, re.MULTILINE
            )
        ]
        rows = [
            re.findall(r"<td[^>]*>(.*?)</td>", row) for row in re.findall(r"<tr>(.*?)</tr>", text)
        ]
        self.assertEqual([it[:3] for it in rows if it and it[0].isdigit()], wanted)
        # The file has the same.
        self.assertEqual(
            view("sweep", self.trace, "--size=8", "--html", self.html, program=self.program)[0], 0
        )
        with open(self.html, encoding="utf-8") as file:
            self.assertEqual(file.read(), text)

    def test_a_pipe(self):
        env = {**os.environ, "PREDATOR_PROGRAM": self.program, "PREDATOR_BUILD": "no"}
        with open(self.trace, "rb") as file:
            command = [os.path.join(TOP, "bin", "predator"), "view", "sweep", "-", "--size", "8"]
            ran = subprocess.run(command, input=file.read(), capture_output=True, env=env)
        self.assertEqual(
            ran.stdout.decode(), view("sweep", self.trace, "--size", "8", program=self.program)[1]
        )

    def test_the_object_whose_border_makes_the_peak(self):
        # (`far` is contended under any shift, and the words of `near` meet under the shift 4 alone)
        self.write(
            in_turn(0x1004, 0x1008) + in_turn(0x2000, 0x2000),
            [("<b>near", 0x1000, 12), ("far", 0x2000, 4), ("next&", 0x100C, 4)],
        )
        rows = self.sweep_text().split("\n")
        self.assertTrue(
            rows[0].endswith(
                "39 invalidations as placed, the fewest; 78 at worst (shift 4); most of the difference is in <b>near (80 accesses)"
            ),
            rows[0],
        )
        self.assertEqual(
            [it.split()[:3] for it in rows[7:9]], [["0", "39", "<b>near"], ["39", "39", "far"]]
        )
        self.assertIn("<b>near (0x00001004: bytes 4 to 11 of <b>near)", rows[7])
        page = self.sweep_text("--html", "-")
        near = ["&lt;b&gt;near", "0", "39", "0x00001004: bytes 4 to 11 of &lt;b&gt;near"]
        self.assertEqual(
            cells_of(page), [near, ["far", "39", "39", "0x00001ffc: bytes 0 to 3 of far"]]
        )
        # Each number is that of the reports under the shift.
        for at, shift in enumerate((0, 4)):
            words = [
                self.program,
                "replay",
                self.trace,
                "--set",
                "tracking=1,report=1",
                "--size",
                "8",
                "--shift",
                str(shift),
            ]
            report = subprocess.run(words, capture_output=True, text=True).stdout
            counts = [
                int(count)
                for count in re.findall(r"^line observed .* count (\d+) ", report, re.MULTILINE)
            ]
            self.assertEqual(
                sorted(counts),
                sorted(int(it[1 + at]) for it in cells_of(page) if it[1 + at] != "0"),
            )
        self.assertIn("1 more object (--top 2 shows all)", self.sweep_text("--top", "1"))
        self.assertIn(
            "1 more object isn&#39;t shown: --top 2 shows all",
            self.sweep_text("--top", "1", "--html", "-"),
        )

    def test_nothing_is_taken(self):
        self.write(in_turn(0x1000))
        expected = "8-byte lines: 0 invalidations as placed, and under every shift (20 accesses)\n"
        self.assertTrue(self.sweep_text().startswith(expected))
        page = self.sweep_text("--html", "-")
        self.assertEqual((page.count("<h2>"), cells_of(page)), (0, []))

    def test_names_with_control_characters(self):
        self.write(in_turn(0x1000, 0x1004), [("a\x1b[31m\x07\"'&<b>", 0x1000, 8)])
        page = self.sweep_text("--html", "-")
        self.assertEqual(re.findall("[\x00-\x08\x0b-\x1f]", page), [])
        self.assertEqual(cells_of(page)[0][0], "a\\x1b[31m\\x07&#34;&#39;&amp;&lt;b&gt;")

    def test_many_objects(self):
        self.write(
            in_turn(*(0x1000 + 16 * (it // 2) + 4 * (it % 2) for it in range(8))) * 3,
            [(f"many{it}", 0x1000 + 16 * it, 8) for it in range(4)],
        )
        self.assertEqual(len(cells_of(self.sweep_text("--html", "-"))), 4)
        self.assertIn("2 more objects (--top 4 shows all)", self.sweep_text("--top=2"))

    def test_refused(self):
        status, _, said = view(
            "sweep", self.trace, "--size", "8", "--html", self.trace, program=self.program
        )
        self.assertEqual((status, "is used twice: outputs must differ" in said), (2, True))
        for path, why in (
            (os.path.dirname(self.trace), "Is a directory"),
            ("/dev/full", "No space left on device"),
        ):
            status, _, said = view(
                "sweep", self.trace, "--size", "8", "--html", path, program=self.program
            )
            self.assertEqual((status, said), (2, f"predator view: {path}: {why}\n"))
        status, _, said = view("sweep", __file__, "--size", "8", program=self.program)
        self.assertEqual((status, "`predator sweep` failed: " in said), (2, True))


@unittest.skipUnless(has(PROGRAM, "sweep"), "the program isn't built, or has no sweep")
class SweepsOfTheProgram(Sweeps):
    program = PROGRAM


class Texts(unittest.TestCase):
    def test_what_is_the_least(self):
        title = Sweep(TEXT.format(7, 9, 0, 7)).title()
        self.assertTrue(
            title.endswith(
                "8-byte lines: 7 invalidations as placed, the fewest; 9 at worst (shift 4)"
            ),
            title,
        )
        own = page(Sweep(TEXT.format(7, 9, 0, 7)), "t")
        self.assertEqual(
            (own.count("<rect"), own.count("<circle"), own.count("l-6 -11z")), (2, 0, 2)
        )
        self.assertIn("as placed, fewest", own)
        same = page(Sweep(TEXT.format(7, 7, 0, 7)), "t")
        self.assertEqual(
            (same.count("<rect"), same.count("<circle"), same.count("l-6 -11z")), (2, 0, 0)
        )
        self.assertIn("8-byte lines: 7 invalidations as placed, and under every shift", same)
        for bad in (
            "",
            TEXT,
            TEXT.format(7, 9, 0, 7)[:-4],
            "sweep 8\naccesses 9\nleast 0 total 0\nend\n",
        ):
            with self.assertRaises(Fault):
                Sweep(bad)

    def test_which_object_differs_most(self):
        one, two = ShiftedLines({1: 5, 2: 90}, {1: "a", 2: "b"}, {1: "x"}), ShiftedLines(
            {1: 1, 2: 89, 3: 4}, {1: "a", 2: "b", 3: "c"}, {}
        )
        rows = [(it.name, it.counts, it.border) for it in order_crossings([one, two], 0, 1)]
        self.assertEqual(rows, [("a", [5, 1], "x"), ("b", [90, 89], ""), ("c", [0, 4], "")])

    def test_a_curve_is_drawn_from_zero_up(self):
        drawn = curve([0, 50, 100, 25], [(2, "most")], [0, 4, 8, 12])
        self.assertEqual(drawn["points"], "12,188 217,100 422,12 628,144")
        self.assertEqual(drawn["marks"], [{"x": 422, "y": 12, "text": "most"}])
        self.assertEqual(
            [(it["x"], it["text"]) for it in drawn["ticks"]],
            [(12, 0), (217, 4), (422, 8), (628, 12)],
        )
        self.assertEqual(curve([0], [], [0])["points"], "12,188")
        # (of many, at most eight have a name)
        names = [it["text"] for it in curve([1] * 64, [], range(0, 256, 4))["ticks"]]
        self.assertEqual((len(names), [it for it in names if it != ""]), (64, [*range(0, 256, 32)]))


if __name__ == "__main__":
    unittest.main()
