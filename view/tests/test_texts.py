"""The texts that view reads: reports, counts of misses, explained lines, the arguments of a call, and the messages for bad ones."""

import functools
import os
import sys
import tempfile
import unittest

HERE = os.path.dirname(os.path.abspath(__file__))
sys.path.insert(0, os.path.dirname(os.path.dirname(HERE)))

from view.reading.calls import Call  # noqa: E402
from view.output.drawings import visible  # noqa: E402
from view.faults import Fault, plain  # noqa: E402
from view.output.page import PLACE  # noqa: E402
from view.reading.recording import split_words  # noqa: E402
from view.reading.reports import Explanation, Misses, Report  # noqa: E402

HEAD = "predator report 1\noutcome exit 0\nsteps 3\naccesses 3\nlayout 64 0\nthresholds 1 64 1\n"
ROWS = """line observed 0x00001000 64 start 0 count 2 verdict false
object symbol a\\x20b 0x00001000 8
object block 0x00001008 24 born 0 died 2
site 0x000100b0 worker
site 0x000100c0 -
object block 0x00001020 24 born 1 live
word 0x00001000 reads 0 writes 2 hart 0
word 0x00001008 reads 1 writes 1 many
line shifted -0x0000001c 64 start 1 count 1 verdict true
"""
WHOLE = HEAD + "lines 2\n" + ROWS + "end\n"
MISSES = "misses 64 0\naccesses 4\nlines 1\nline 0x00001000 cold 2 useful 0 useless 2\nobject symbol a 0x00001000 8\n"
MISSES += "total cold 5 useful 0 useless 2\nend\n"
EXPLAINED = """predator explain 1
outcome exit 0
steps 75
accesses 19
line 0x00011000 64 start 0 count 9
sites 3
site 0x00010004 reads 0 writes 1 hart 0 -
site 0x0001003c reads 9 writes 0 many work
site 0x00010044 reads 0 writes 9 many work
pairs 3
pair 0x00010044 0x00010044 taken 5 same 2
pair 0x0001003c 0x00010044 taken 3 same 0
pair 0x00010004 0x00010044 taken 1 same 0
harts 2
from 0 to 1 taken 1
from 0 to 2 taken 8
end
"""


class Texts(unittest.TestCase):
    def fault(self, text, said):
        with self.assertRaises(Fault) as caught:
            Report(text, "r")
        self.assertIn(said, str(caught.exception))

    def test_report(self):
        report = Report(WHOLE)
        first, second = report.lines
        self.assertEqual(
            (first.kind, first.base, first.count, first.verdict), ("observed", 0x1000, 2, "false")
        )
        self.assertEqual((second.kind, second.base, second.words()), ("shifted", -0x1C, []))
        symbol, block, other = first.objects()
        self.assertEqual((symbol.name, symbol.size), ("a\\x20b", 8))
        self.assertEqual((block.died, [it.name for it in block.sites]), (2, ["worker", "-"]))
        self.assertEqual((other.died, other.sites), (None, ()))
        self.assertEqual(
            [(it.addr, it.reads, it.writes, it.hart) for it in first.words()],
            [(0x1000, 0, 2, "0"), (0x1008, 1, 1, "many")],
        )

    def test_report_followed_by_its_sites(self):
        self.assertEqual(
            Report(WHOLE + "where 0x000100b0 /home/me/kinds.c:59\n").site_places,
            {0x100B0: "/home/me/kinds.c:59"},
        )

    def test_report_without_lines(self):
        self.assertEqual(Report(HEAD + "lines 0\nend\n").lines, [])

    def test_bad_reports(self):
        self.fault("", "r is empty")
        self.fault("\n", "r is empty")
        self.fault(
            "predator report 2\nend\n", "r has an unknown report version: the first line isn't"
        )
        self.fault("\x7fELF", "r isn't a report: the first line isn't `predator report 1`")
        self.fault(
            "PRDTRC01\1", "r isn't a report but a trace: use `predator view replay -` to read one"
        )
        self.fault(
            '{"format": 1}', "r isn't a report but JSON of `predator view --json`: use `--against`"
        )
        self.fault("PRDSTA01", "r isn't a report but a saved state: use `predator replay --resume`")
        self.fault("#!/bin/sh\n", "r isn't a report but a script: record the program that runs it")
        self.fault("predator: trace BadMagic\n", "r isn't a report: ")
        for cut in range(30, len(WHOLE) - 4, 11):
            self.fault(WHOLE[:cut], "r is cut short: the last line `end` is missing")
        self.fault(
            HEAD + "lines 3\n" + ROWS + "end\n", "r: the header says 3 lines, the file has 2"
        )
        self.fault(WHOLE.replace("exit 0", "exit well"), "r has no valid line `outcome`")
        self.fault(
            WHOLE.replace("layout 64 0", "layout 64"),
            "r has no valid line `layout` or `thresholds`",
        )
        self.fault(
            WHOLE.replace("layout 64 0", "layout 63 0"),
            "r has no valid line `layout` or `thresholds`",
        )
        self.fault(
            WHOLE.replace("layout 64 0", "layout 64 64"),
            "r has no valid line `layout` or `thresholds`",
        )
        self.fault(WHOLE.replace("steps 3", "steps \xb2"), "r has no line `steps N` in its head")
        self.fault(
            WHOLE.replace("0x00001000 64 start", "0x00001000 32 start"), "lines of another size"
        )
        for row, bad in (
            (9, "object symbol a 0x00001000"),
            (11, "site 0x000100b0"),
            (14, "word 0x00001000 reads 0 writes 2 hart"),
            (12, "word up"),
        ):
            rows = WHOLE.split("\n")
            rows[row - 1] = bad
            self.fault("\n".join(rows), f"r, line {row}: unexpected `{bad}`")
        self.fault(
            WHOLE.replace("count 2", f"count {'9' * 5000}"), "r, line 8: unexpected `line observed"
        )

    def test_where_rows_end(self):
        for row, wanted in (
            ("object symbol word 0x00001000 8\nword 0x00001000 reads 0 writes 2 hart 0\n", 1),
            ("word 0x00001000 reads 0 writes 2 many\n", 0),
            ("", 0),
        ):
            line = Report(
                f"{HEAD}lines 1\nline observed 0x00001000 64 start 0 count 2 verdict false\n{row}end\n"
            ).lines[0]
            self.assertEqual(
                (len(line.objects()), len(line.words())),
                (wanted, row.count("\nword ") or row.count("word 0")),
            )

    def test_misses(self):
        misses = Misses(MISSES)
        self.assertEqual(
            (misses.size, misses.accesses, misses.total),
            (64, 4, {"cold": 5, "useful": 0, "useless": 2}),
        )
        self.assertEqual(misses.lines[0x1000].useless, 2)
        self.assertEqual([it.name for it in misses.lines[0x1000].objects()], ["a"])
        for bad in ("", MISSES[:-5], MISSES.replace("lines 1", "lines 2")):
            with self.assertRaises(Fault):
                Misses(bad)

    def test_explained(self):
        found = Explanation(EXPLAINED)
        self.assertEqual((found.base, found.count, found.accesses), (0x11000, 9, 19))
        self.assertEqual(tuple(found.pairs[0]), (0x10044, 0x10044, 5, 2))
        self.assertEqual(found.harts, {(0, 1): 1, (0, 2): 8})
        self.assertEqual(found.sites[0x10004], (0, 1, "hart 0", "-"))
        with self.assertRaises(Fault):
            Explanation(EXPLAINED[:-4])

    def test_names_on_a_terminal(self):
        self.assertEqual(plain("a\x1b[31mb\nc"), "a\\x1b[31mb\\nc")
        self.assertEqual(plain("héap"), "héap")


class Words(unittest.TestCase):
    def refused(self, *words):
        with self.assertRaises(Fault) as caught:
            Call(words)
        return str(caught.exception)

    def test_run(self):
        call = Call(
            [
                "run",
                "p.elf",
                "--settings",
                "s",
                "--top",
                "3",
                "--trace=t",
                "--set",
                "quantum=1",
                "--words",
            ]
        )
        self.assertEqual((call.action, call.subject, call.program), ("run", "p.elf", "p.elf"))
        self.assertEqual(
            call.words, ["p.elf", "--settings", "s", "--trace=t", "--set", "quantum=1"]
        )
        self.assertEqual(call.settings_words(), ["--settings", "s", "--set", "quantum=1"])
        self.assertEqual(
            call.rerun_words(), ["run", "p.elf", "--settings", "s", "--set", "quantum=1"]
        )
        self.assertEqual(
            (call.number_option("top", 10), call.option_value("--trace"), "words" in call.options),
            (3, "t", True),
        )

    def test_words_of_the_guest(self):
        call = Call(["run", "--top=3", "p.elf", "--settings", "s", "--", "--words", "a"])
        self.assertEqual(
            (call.subject, call.words, call.guest_words),
            ("p.elf", ["p.elf", "--settings", "s"], ["--", "--words", "a"]),
        )
        self.assertEqual(
            (call.rerun_words(), "words" in call.options),
            (["run", "p.elf", "--settings", "s"], False),
        )

    def test_others(self):
        self.assertEqual(Call(["replay", "t", "--program", "p"]).program, "p")
        self.assertEqual(Call(["r.report"]).action, "file")
        self.assertEqual(Call(["run", "--", "-p.elf"]).subject, "-p.elf")
        self.assertEqual(
            Call(["run", "p", "--type", "a.c:7=node", "--type=b=c"]).options["type"],
            ["a.c:7=node", "b=c"],
        )

    def test_sweeps(self):
        call = Call(["sweep", "t", "--size", "64", "--html=f"])
        self.assertEqual(
            (call.action, call.subject, call.words), ("sweep", "t", ["t", "--size", "64"])
        )
        self.assertEqual(
            "`view sweep` needs a line size, such as '--size 64'", self.refused("sweep", "t")
        )
        self.assertIn(
            "`view sweep` has no option '--json'; it takes --html, --top",
            self.refused("sweep", "t", "--size=64", "--json=f"),
        )
        self.assertIn(
            "view sweep has no option '--shift'",
            self.refused("sweep", "t", "--size=64", "--shift", "4"),
        )

    def test_what_a_file_is(self):
        with tempfile.TemporaryDirectory() as folder:
            at = functools.partial(os.path.join, folder)
            own = b"\x7fELF\2\1\1" + bytes(9) + b"\3\0\x3e\0"
            for name, head in (("guest", b"\x7fELF\1\1\1"), ("own", own), ("trace", b"PRDTRC02")):
                with open(at(name), "wb") as file:
                    file.write(head)
            call = Call([at("guest"), "--set", "quantum=3", "--top", "2", "--", "--words"])
            self.assertEqual(
                (call.action, call.program, call.guest_words, call.options["top"]),
                ("run", at("guest"), ["--", "--words"], "2"),
            )
            self.assertEqual(call.words, [at("guest"), "--set", "quantum=3"])
            self.assertEqual(Call([at("trace"), "--size=32"]).action, "replay")
            call = Call(["--quantum", "10", "--all", at("own"), "--size", "32", "--", "a"])
            self.assertEqual(
                (call.action, call.named, call.guest_words, call.recorder_flags),
                ("native", at("own"), ["--", "a"], ["--all"]),
            )
            self.assertEqual(
                split_words(call.words, at("own")), (["--quantum", "10"], ["--size", "32"])
            )
            call = Call(["native", "--all", "--", at("own"), "a", "--b"])
            self.assertEqual(
                (call.subject, call.guest_words, call.recorder_flags),
                (at("own"), ["--", "a", "--b"], ["--all"]),
            )
            strange = (
                ("run", "trace", "a trace"),
                ("run", "own", "a native program"),
                ("replay", "guest", "a program for RV32"),
            )
            for how, name, said in strange:
                self.assertIn(
                    f"{at(name)} is {said}: use `predator view {at(name)}`",
                    self.refused(how, at(name)),
                )
            self.assertIn(
                "view run has no option '--quantum'", self.refused(at("guest"), "--quantum", "10")
            )
            self.assertIn(
                "'--all' applies to native programs only", self.refused(at("guest"), "--all")
            )
            self.assertIn(
                "'--sources' takes a folder, and ",
                self.refused(at("guest"), "--sources", at("trace")),
            )

    def test_refusals(self):
        self.assertIn(
            "view replay has no option '--saves=1'; did you mean `--save`?",
            self.refused("replay", "t", "--saves=1"),
        )
        near = "'--set quantom=3': there is no setting 'quantom'; did you mean `quantum`? the settings are harts, "
        self.assertIn(near, self.refused("run", "p", "--set=quantom=3"))
        self.assertIn(
            "'--set x=3': there is no setting 'x'; the settings are harts, ",
            self.refused("run", "p", "--set", "quantum=1,x=3"),
        )
        self.assertIn("missing argument: a report\n", self.refused())
        self.assertIn("missing argument: a program\n", self.refused("run", "--top", "3"))
        self.assertIn("unexpected argument 'b'\n", self.refused("a", "b"))
        self.assertIn("'--top' takes a number, not 'many'", self.refused("a", "--top", "many"))
        self.assertIn("'--top' is given twice", self.refused("a", "--top=1", "--top=2"))
        self.assertIn("'--map' is given twice", self.refused("a", "--map=1", "--back=2"))
        self.assertIn("'--top' needs a value", self.refused("a", "--top"))
        self.assertIn("view has no option '--fast=1'", self.refused("a", "--fast=1"))
        self.assertIn(
            "'--by' takes false-sharing or invalidations, not 'size'",
            self.refused("a", "--by", "size"),
        )
        self.assertIn(
            "'--json-version' takes 1 or 2, not '3'", self.refused("a", "--json-version", "3")
        )
        self.assertIn("'--json-version' needs '--json'", self.refused("a", "--json-version", "1"))
        self.assertIn("'--type' takes SITE=TYPE, such as", self.refused("a", "--type", "node"))
        self.assertIn(
            "'--type' needs a program's types: name the program with '--program'",
            self.refused("a", "--type", "a.c:7=node"),
        )
        self.assertIn(
            "'--fail-above' takes a number", self.refused("a", "--fail-above", "9" * 5000)
        )
        self.assertIn("'--fail-above' takes a number", self.refused("a", "--fail-above", "\u0663"))
        self.assertIn("'--by' needs '--fail-above'", self.refused("a", "--by", "count"))
        self.assertIn(
            "'--program' applies to a trace or a report, not to `view run`",
            self.refused("run", "p", "--program", "q"),
        )

    def test_what_pages_are_given(self):
        self.assertEqual(visible("a\tb\n\x1b[1m\u202e\x00é"), "a\tb\n\\x1b[1m\\u202e\\x00é")
        self.assertEqual([visible(it) for it in (None, 3, ["\x00"])], [None, 3, ["\x00"]])
        # (a cell says where a word of a stack is without its address)
        for name, expected in (
            ("0x006479c8, 1,592 bytes below its top", "1,592 bytes below its top"),
            ("0x00001000", "0x00001000"),
            ("a, b", "a, b"),
        ):
            self.assertEqual(PLACE.sub("", name), expected)


if __name__ == "__main__":
    unittest.main()
