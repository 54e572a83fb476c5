"""Conflicts in a trace with program counters, and the names that come of these."""

import json
import os
import subprocess
import sys
import tempfile
import unittest

from calling import PROGRAM, STAND_IN, TOP, TURNS, ScreenTest, built, has, joined, view

sys.path[:0] = [TOP]

from view.faults import Fault  # noqa: E402
from view.reading.reports import Blame, InstructionPair  # noqa: E402

TEXT = (
    "predator blame 1\naccesses 19\nlayout 64 0\nlines 2\n"
    "line 0x00011000 takings 6 pairs 2 harts 1\n"
    "pair 0x00010044 0x0001003c taken 5 same 2\npair 0xfffffffc 0x00010044 taken 1 same 0\nfrom 0 to 255 taken 6\n"
    "line -0x00000020 takings 1 pairs 1 harts 1\npair 0x00000000 0x00010044 taken 1 same 1\nfrom 1 to 0 taken 1\n"
    "total takings 7\nend\n"
)
EMPTY = "predator blame 1\naccesses 0\nlayout 64 0\nlines 0\ntotal takings 0\nend\n"
ROLES = ("victim", "invalidator")
# Notes each call of the program behind it.
NOTES = '#!/bin/sh\necho "$*" >>"$CALLS"\nexec "$BEHIND" "$@"\n'


class Read(unittest.TestCase):
    def test_lines(self):
        found = Blame(TEXT)
        self.assertEqual(found.accesses, 19)
        first, other = found.invalidations(0x11000), found.invalidations(-0x20)
        self.assertEqual(
            first.pairs,
            [InstructionPair(0x10044, 0x1003C, 5, 2), InstructionPair(0xFFFFFFFC, 0x10044, 1, 0)],
        )
        self.assertEqual((first.base, first.harts), (0x11000, {(0, 255): 6}))
        self.assertEqual(
            (other.pairs, other.harts), ([InstructionPair(0, 0x10044, 1, 1)], {(1, 0): 1})
        )
        self.assertIsNone(found.invalidations(0x11040))
        self.assertIsNone(Blame(EMPTY).invalidations(0))

    def test_what_is_none(self):
        for text in (
            "",
            TEXT[:-4],
            TEXT.replace("lines 2", "lines 3"),
            TEXT.replace("blame 1", "blame 2"),
            "predator: trace NoPcs\n",
        ):
            with self.assertRaises(Fault):
                Blame(text)


class Shown(ScreenTest):
    def setUp(self):
        folder = tempfile.TemporaryDirectory()
        self.addCleanup(folder.cleanup)
        self.folder = folder.name

    def path(self, name):
        return os.path.join(self.folder, name)

    def calls(self, *words, program=STAND_IN, **more):
        """The status of a call of view, its text, and the commands of the program that it made."""
        with open(self.path("notes"), "w", encoding="ascii") as file:
            file.write(NOTES)
        os.chmod(file.name, 0o755)
        status, text, said = view(
            *words, program=file.name, CALLS=self.path("calls"), BEHIND=program, **more
        )
        self.assertEqual((status, said), (0, ""))
        with open(self.path("calls"), encoding="utf-8") as file:
            made = [it.split(" ", 1)[0] for it in file.read().split("\n")]
        os.remove(file.name)
        return text, [it for it in made if it]


class Traces(Shown):
    """Traces of guests."""

    program = STAND_IN

    def setUp(self):
        super().setUp()
        self.trace = self.path("trace")

    def record(self, name, *words):
        words = ["run", built(f"{name}.elf"), *TURNS, "--trace", self.trace, *words]
        # (one of the programs ends by a trap)
        subprocess.run([self.program, *words], stdout=subprocess.DEVNULL)

    def found(self, *words, **more):
        """The screen of a replay, and its record."""
        path = self.path("json")
        status, text, said = view(
            "replay", self.trace, *words, "--json", path, program=self.program, **more
        )
        self.assertEqual((status, said), (0, ""))
        with open(path, encoding="utf-8") as file:
            return text, json.load(file)


class Guests(Traces):
    def test_the_same_as_by_a_run(self):
        for name in ("ring", "arena", "flags"):
            self.record(name, "--pcs")
            _, found = self.found("--program", built(f"{name}.elf"), "--words")
            for obj in found["objects"]:
                base = max(
                    obj["lines"],
                    key=lambda line: (
                        line["false_sharing"],
                        line["reported_invalidations"] or 0,
                        -int(line["base"], 16),
                    ),
                )["base"]
                words = ["explain", built(f"{name}.elf"), base, "64", "0", *TURNS]
                rows = subprocess.run(
                    [self.program, *words], capture_output=True, text=True, check=True
                ).stdout.split("\n")
                pairs = [it.split()[1:] for it in rows if it.startswith("pair ")]
                wanted = sorted(
                    (int(pair[5]) - int(pair[3]), -int(pair[3]), pair[0], pair[1]) for pair in pairs
                )[:8]
                counted = [
                    (
                        conflict["same_word"] - conflict["invalidations"],
                        -conflict["invalidations"],
                        *(conflict[one]["address"] for one in ROLES),
                    )
                    for conflict in obj["conflicts"]
                ]
                self.assertEqual(sorted(counted), wanted, (name, obj["name"]))
                harts = [
                    f"from {pair['victim']} to {pair['invalidator']} taken {pair['invalidations']}"
                    for pair in obj["harts"]
                ]
                self.assertEqual(harts, [it for it in rows if it.startswith("from ")])

    def test_rows_and_page(self):
        self.record("ring", "--pcs")
        text, calls = self.calls(
            "replay",
            self.trace,
            "--program",
            built("ring.elf"),
            "--html",
            self.path("html"),
            program=self.program,
        )
        self.shows(text, "ring.c:34 (note < consumer) invalidates ring.c:34 (note < producer): ")
        self.assertEqual((calls.count("blame"), calls.count("explain")), (1, 0))
        with open(self.path("html"), encoding="utf-8") as file:
            page = file.read()
        self.assertIn("<h4>invalidates: ring.c:34 (note &lt; consumer), 0x", page)
        self.assertIn("<h4>loses the line: ring.c:34 (note &lt; producer), 0x", page)
        self.assertIn("seen[", page)
        # (a program isn't wanted)
        text, _ = self.found()
        self.assertRegex(
            joined(text),
            "where 0x0001[0-9a-f]{4} invalidates 0x0001[0-9a-f]{4}: 150 times, ",
        )

    def test_a_run_whose_trace_is_kept(self):
        words = ("run", built("ring.elf"), *TURNS, "--trace", self.trace)
        text, calls = self.calls(*words, "--pcs", program=self.program)
        self.assertEqual(
            (calls.count("blame"), calls.count("explain"), calls.count("run")), (1, 0, 1)
        )
        self.shows(text, "ring.c:34 (note < consumer) invalidates ring.c:34 (note < producer): ")
        _, calls = self.calls(*words, program=self.program)
        self.assertEqual((calls.count("blame"), calls.count("explain")), (0, 2))

    def test_without_instructions(self):
        self.record("ring")
        text, calls = self.calls("replay", self.trace, program=self.program)
        self.assertNotIn("invalidates", text)
        self.assertNotIn("blame", calls)
        self.record("ring", "--pcs")
        text, calls = self.calls("replay", self.trace, "--explain", "0", program=self.program)
        self.assertNotIn("invalidates", text)
        self.assertNotIn("blame", calls)

    def test_a_stack_and_memory(self):
        self.record("pieces", "--pcs")
        text, found = self.found("--program", built("pieces.elf"))
        self.assertNotIn("(an arena", text)
        self.record("odd", "--pcs")
        for name in ("stack of hart 0", "own"):
            text, _ = self.found("--program", built("odd.elf"), "--object", name)
            self.shows(text, "own: uint32_t[2], odd.c:39 (in main, on the stack of hart 0)")
        # (without debug information its variables have no names)
        stripped = self.path("stripped.elf")
        words = ["llvm-objcopy", "--strip-debug", built("odd.elf"), stripped]
        subprocess.run(words, check=True)
        words = ("replay", self.trace, "--program", stripped)
        _, text, _ = view(*words, "--json", self.path("json"), program=self.program)
        self.shows(text, "stack of hart 0, used in ")
        with open(self.path("json"), encoding="utf-8") as file:
            objects = json.load(file)["objects"]
        names = [it["name"] for it in objects if it["kind"] == "stack"]
        for name in ("stack of hart 0", *names):
            _, text, _ = view(*words, "--object", name, program=self.program)
            self.shows(text, names[0])


@unittest.skipUnless(has(PROGRAM, "misses", "blame"), "the program isn't built, or has no blame")
class GuestsOfTheProgram(Guests):
    program = PROGRAM


class Lacking(Traces):
    def test_a_program_without_blame(self):
        self.record("ring", "--pcs")
        text, _ = self.found(lacks="blame")
        self.assertNotIn("invalidates", text)
        self.shows(
            text,
            "note: this predator has no command `blame`, so the conflicting instructions are unknown",
        )
        text, found = self.found("--program", built("ring.elf"), *TURNS, lacks="blame")
        self.assertEqual(found["notes"], [])
        self.shows(
            text,
            "ring.c:34 (note < consumer) invalidates ring.c:34 (note < producer): 142 times, always different words",
        )


class Predictions(Shown):
    def test_none_are_asked_for(self):
        words = ("run", built("apart.elf"), *TURNS, "--explain", "0")
        text, some = self.calls(*words)
        self.assertIn("predicted, if data were placed otherwise or lines were longer:\n", text)
        text, none = self.calls(*words, "--no-predicted", "--json", self.path("json"))
        self.assertNotIn("redicted", text)
        self.assertEqual(none.count("misses"), 2)
        with open(self.path("json"), encoding="utf-8") as file:
            self.assertEqual(json.load(file)["predicted"], [])
        _, every = self.calls(*words, "--predicted")
        self.assertLess(some.count("misses"), every.count("misses"))
        self.assertLessEqual(some.count("misses"), 6)
        status, _, said = view(*words, "--predicted", "--no-predicted")
        self.assertEqual((status, "'--no-predicted' exclude each other" in said), (2, True))

    def test_those_that_could_be_shown_are(self):
        for name in ("apart", "ring", "arena", "anderson", "flags"):
            shown = []
            for word in ((), ("--predicted",)):
                view(
                    "run",
                    built(f"{name}.elf"),
                    *TURNS,
                    "--explain",
                    "0",
                    *word,
                    "--json",
                    self.path("json"),
                )
                with open(self.path("json"), encoding="utf-8") as file:
                    shown.append(
                        [
                            (line["base"], line["size"], line["false_sharing"])
                            for line in json.load(file)["predicted"]
                            if line["shown"]
                        ]
                    )
            self.assertEqual(*shown, name)


RECORDER = os.path.join(TOP, "native", "out", "predator-amd64-linux")


class Compiled(Shown):
    def compiled(self, name, *words):
        source = os.path.join(TOP, "native", "tries", f"{name}.c")
        subprocess.run(
            ["gcc", "-g", "-O1", "-pthread", source, "-o", name, *words],
            cwd=self.folder,
            check=True,
        )
        return f"./{name}"


@unittest.skipUnless(os.path.exists(RECORDER), "the recorder of native/ isn't built")
class OfThisMachine(Compiled):
    """A program whose words lie in no object, by both recorders."""

    program = STAND_IN

    def shown(self, program, *words):
        """What one call shows of a program, which leaves nothing behind."""
        left = self.path("left")
        os.makedirs(left, exist_ok=True)
        status, text, said = view(
            *words, program, program=self.program, cwd=self.folder, TMPDIR=left
        )
        self.assertEqual(status, 0)
        self.assertTrue(said.startswith("stack 0x"), said)
        self.assertEqual(os.listdir(left), [])
        return text

    def judge(self, text, stack):
        self.shows(text, stack, "(in_plain)")
        self.assertRegex(
            joined(text),
            r"[0-9] memory of data file, used at nameless\.c:[0-9]+ \(in_file\) where ",
        )
        self.assertRegex(
            joined(text), r"[0-9] memory used at nameless\.c:[0-9]+ \(in_plain\) where "
        )
        self.assertRegex(
            joined(text),
            r"where nameless\.c:[0-9]+ \(in_file\) invalidates nameless\.c:[0-9]+ \(in_file\): ",
        )
        # (the variable that the block is assigned to has its type)
        self.assertRegex(
            joined(text), r"block made at nameless\.c:[0-9]+ < main: unsigned int where "
        )
        self.assertRegex(
            joined(text),
            r"where nameless\.c:[0-9]+ \((odd|even)\) invalidates nameless\.c:[0-9]+ \((odd|even)\): ",
        )

    def test_by_valgrind(self):
        # (valgrind's instructions are the program's, which say where the variable lies)
        program = self.compiled("nameless")
        stack = "own: unsigned int[32], nameless.c:46 (in main, on the stack of thread 0)"
        self.judge(self.shown(program, "--top", "4"), stack)
        self.judge(self.shown(program, "native", "--top=4", "--no-predicted", "--"), stack)

    def test_by_the_compiler(self):
        # (which of the two records it the program's file says)
        library = os.path.join(TOP, "native", "out", "lib")
        program = self.compiled("nameless", "-fsanitize=thread", f"-L{library}")
        self.judge(self.shown(program, "--top", "4"), "stack of thread 0, used in on_stack")


@unittest.skipUnless(
    os.path.exists(RECORDER) and has(PROGRAM, "misses", "blame"),
    "one of the two isn't built, or has no blame",
)
class OfThisMachineByTheProgram(OfThisMachine):
    program = PROGRAM


@unittest.skipUnless(os.path.exists(RECORDER), "the recorder of native/ isn't built")
class WithoutInstructions(Compiled):
    def test_a_program_without_debug_information(self):
        _, _, said = view(
            "native", "--explain", "0", self.compiled("counters", "-s", "-g0"), cwd=self.folder
        )
        note = "/counters has no debug information, so fields and source lines are unknown: build it with -g, or install its debug package"
        self.shows(said, f"{note} (Debian: NAME-dbgsym)")

    def test_what_has_no_name_then(self):
        program = self.compiled("nameless")
        for more in ({"lacks": "blame"}, {}):
            words = () if more else ("--explain", "0")
            _, text, _ = view("native", program, *words, cwd=self.folder, **more)
            self.assertNotIn("invalidates", text)
            self.shows(text, "stack of thread 0", "memory of data file", "memory at 0x")


if __name__ == "__main__":
    unittest.main()
