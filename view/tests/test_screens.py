"""The first screen of each kind of program, and the statuses of calls."""

import json
import os
import pty
import shutil
import subprocess
import tempfile
import unittest

from calling import PROGRAM, STAND_IN, TOP, TURNS, ScreenTest, built, has, joined, view

# The fix for a contended stack.
OF_STACK = "other threads use variables on this stack: put __attribute__((aligned(64))) on their types, or move them off the stack"


class Screens(ScreenTest):
    def test_ring_with_statistics(self):
        status, text, said = view("run", built("ring.elf"), *TURNS)
        self.assertEqual((status, said), (0, ""))
        self.shows(text, "1 298 0 299 1 stats: struct stats[4], ring.c:29 where ")
        self.shows(
            text,
            "fix give each element of stats its own line: struct __attribute__((aligned(64))) stats (ring.c:24)",
        )
        self.shows(
            text,
            "where ring.c:34 (note < consumer) invalidates ring.c:34 (note < producer): 142 times, always different words "
            "(write after write); in all 284 write → write",
        )
        self.shows(
            text,
            "who each thread writes its own element: hart 1: [1]; hart 2: [2] (72 writes) fix",
        )
        self.shows(
            text,
            "2 44 314 359 2 ring: struct ring, ring.c:28",
            "write ring.head, ring.tail and ring.slots[..] less often (314 of 358 misses are true sharing)",
        )

    def test_the_first_lines(self):
        _, text, _ = view("run", built("ring.elf"), "--explain", "0", "--no-predicted")
        self.assertEqual(
            text.split("\n")[:6],
            [
                "ring.elf: exit 0, 6,107 instructions, 2,111 accesses; 64-byte lines, quantum 100",
                "61 false-sharing misses, 68 true-sharing, 9 cold: 9.99 false per 1,000 instructions (severe: such",
                "  programs ran 1.1 to 4.1 times as fast once padded; one in five gained nothing)",
                "",
                "   false    true   inval   lines  object",
                "1     60       0      61       1  stats: struct stats[4], ring.c:29",
            ],
        )

    def test_options_that_match_nothing(self):
        with tempfile.TemporaryDirectory() as folder:
            words = ("--type", "arena.c:18=node", "--sources", folder, "--json", "-")
            status, text, said = view("run", built("arena.elf"), *TURNS, "--explain", "0", *words)
            self.assertEqual((status, said), (0, ""))
            first, second = json.loads(text)["notes"]
            self.assertEqual(
                first,
                "`--type arena.c:18=..` matches no contended block: contended blocks are made at arena.c:17",
            )
            self.assertIn(f"`--sources {folder}` has none of the program's sources (", second)
            self.assertIn("arena.c", second)

    def test_arena(self):
        _, text, _ = view("run", built("arena.elf"), *TURNS, "--type", "arena.c:17=node", "--words")
        self.shows(
            text,
            "1 1,187 1 797 1 block made at arena.c:17 < main: struct node (4 blocks) where",
            "fix allocate each of these blocks on its own lines: aligned_alloc(64, ..) with sizes rounded up to multiples of 64",
        )
        self.shows(
            text, "address reads writes alone thread field", "0x00011014 199 200 0 hart 2 .count"
        )

    def test_a_trap_is_loud(self):
        _, text, _ = view(
            "run", built("odd.elf"), *TURNS, "--explain=0", "--object", "stack of hart 0"
        )
        self.shows(
            text,
            "!! THE RUN DID NOT END WITH EXIT 0: trap hart 0",
            "store-outside, at odd.c:48 (main)",
            "1 77 0 78 1 own: uint32_t[2], odd.c:39 (in main, on the stack of hart 0)",
        )
        self.assertNotIn("flags", text)

    def test_a_fight_in_a_stack(self):
        """Without debug information it is one of that stack, whose words are neither fields to be put apart nor several in a word; with it
        the variable has a name and a fix of its own."""
        folder = tempfile.mkdtemp()
        self.addCleanup(shutil.rmtree, folder)
        stripped = os.path.join(folder, "odd.elf")
        subprocess.run(["llvm-objcopy", "--strip-debug", built("odd.elf"), stripped], check=True)
        options = (*TURNS, "--explain=0", "--words", "--object")
        words, named = ("run", stripped, *options), ("run", built("odd.elf"), *options)
        for program in (STAND_IN, PROGRAM) if has(PROGRAM, "misses", "move") else (STAND_IN,):
            status, text, _ = view(*words, "stack of hart 0", program=program)
            self.assertEqual(status, 0)
            self.shows(
                text,
                f"fix {OF_STACK}; saves up to 77 of 77 misses address ",
                "60 61 0 threads 0x0100fff8, 8 bytes below its top",
            )
            for part in (
                "several fields",
                "separate these",
                "padding",
                "group the fields",
                "memory at",
            ):
                self.assertNotIn(part, joined(text), program)
            # (what is said of a variable whose words are fields)
            for name, variable in (("flags", "flags"), ("stack of hart 0", "own"), ("own", "own")):
                self.assertRegex(
                    joined(view(*named, name, program=program)[1]),
                    f"fix give each element of {variable} its own line",
                )

    def test_statuses(self):
        words = ("run", built("ring.elf"), *TURNS, "--explain", "0", "--fail-above")
        self.assertEqual(view(*words, "298")[0], 0)
        status, _, said = view(*words, "297")
        self.assertEqual(
            (status, said),
            (1, "predator view: stats has 298 false-sharing misses, more than 297\n"),
        )
        self.assertEqual(view(*words, "297", "--object", "ring")[0], 0)
        self.assertEqual(
            view("run", built("odd.elf"), *TURNS, "--explain", "0", "--fail-above", "9999")[0], 3
        )

    def test_a_thread_for_which_no_hart_was_free(self):
        says = "predator: the last thread could not start: all 8 harts are in use (setting `harts`, at most 256)\n"
        words = ("run", built("ring.elf"), *TURNS, "--explain", "0")
        for lacks in ("", "pipes"):
            status, text, _ = view(*words, STAND_IN_SAYS=says, lacks=lacks)
            self.assertEqual(status, 0)
            self.shows(
                text,
                "note: the last thread never ran, because all 8 harts were in use: use `--set harts=16`",
            )
            status, _, said = view(*words, "--fail-above", "9999", STAND_IN_SAYS=says, lacks=lacks)
            self.assertEqual(
                (status, "predator view: the last thread never ran" in said), (3, True)
            )

    def test_all_that_fight(self):
        _, text, _ = view("run", built("ring.elf"), *TURNS, "--explain", "1", "--words")
        self.shows(
            text,
            "where ring.c:34 (note < consumer) invalidates ring.c:34 (note < producer): 142 times, always different words",
        )
        self.shows(
            text,
            "where ring.c:34 (note < producer) invalidates ring.c:34 (note < consumer): 142 times, always different words",
        )

    def test_without_misses_and_explain(self):
        status, text, _ = view("run", built("ring.elf"), *TURNS, lacks="misses explain")
        self.assertEqual(status, 0)
        self.shows(
            text,
            "note: this predator has no command `misses`, so misses are unknown",
            "note: this predator has no command `explain`, so the conflicting instructions are unknown",
            "inval lines object 1 331 1 ring",
        )
        words = ("run", built("ring.elf"), *TURNS, "--fail-above", "300")
        self.assertEqual(view(*words, lacks="misses explain")[0], 2)
        for by in ("count", "invalidations"):
            status, _, said = view(*words, "--by", by, lacks="misses explain")
            self.assertEqual(
                (status, said), (1, "predator view: ring has 331 invalidations, more than 300\n")
            )

    def test_what_the_program_puts_out_is_shown_once(self):
        for lacks in ("", "pipes"):
            self.assertEqual(
                view("run", built("ring.elf"), *TURNS, lacks=lacks, STAND_IN_PUTS="put out")[2],
                "put out\n",
            )

    def test_without_pipes_it_is_the_same(self):
        words = ("run", built("ring.elf"), *TURNS, "--explain", "0")
        self.assertEqual(view(*words, lacks="pipes"), view(*words))

    def test_a_trace_and_its_program(self):
        with tempfile.TemporaryDirectory() as folder:
            trace, report = os.path.join(folder, "t"), os.path.join(folder, "r")
            subprocess.run(
                [STAND_IN, "run", built("ring.elf"), *TURNS, "--trace", trace],
                check=True,
                stdout=subprocess.DEVNULL,
            )
            _, text, said = view("replay", trace, "--program", built("ring.elf"), *TURNS)
            self.shows(
                text, "1 298 0 299 1 stats", "[2].seen[0].high", "ring.c:34 (note < consumer)"
            )
            self.shows(
                text,
                "grouped by thread (stats[1].seen[0].high and stats[1].seen[1].high (hart 1); ",
            )
            self.shows(
                text,
                "), invalidations 658 → 359 (place)",
                "grouping its words by thread gains nothing: invalidations 658 → ",
            )
            self.assertEqual(said, "")
            _, text, said = view(
                "replay",
                trace,
                "--program",
                built("ring.elf"),
                *TURNS,
                "--explain=0",
                lacks="place",
            )
            self.assertEqual(("place" in text, said), (False, ""))
            _, text, _ = view("replay", trace, "--program", built("ring.elf"))
            self.shows(text, "makes another trace, so line 0x00011200 isn't explained")
            _, text, said = view("replay", trace, "--program", built("odd.elf"))
            self.shows(
                said,
                "odd.elf isn't the program of this report and isn't used: it has no symbol ring of 72 bytes at ",
            )
            self.shows(
                text,
                "1 298 0 299 1 stats who each thread writes its own words: hart 1: +20 and +28; hart 2: +36",
            )
            with open(report, "wb") as file:
                file.write(
                    subprocess.run(
                        [STAND_IN, "replay", trace], check=True, capture_output=True
                    ).stdout
                )
            _, text, _ = view(report, "--program", built("ring.elf"), "--object", "sum")
            self.shows(text, "sum is not contended")
            status, _, said = view(report, "--program", built("ring.elf"), "--object", "stat")
            self.assertEqual(status, 2)
            self.assertIn("ring.elf has no variable 'stat'; did you mean `stats`?", said)
            status, _, said = view(report, "--object", "stat", "--by", "count", "--fail-above", "0")
            self.assertEqual(
                (status, "'stat' isn't in the report: add '--program'" in said), (2, True)
            )
            _, text, _ = view(report)
            self.shows(
                text,
                "note: a report has no misses: use `predator view run` or `predator view replay` to count them",
                "inval lines object 1 331 1 ring",
            )
            _, text, _ = view(report, "--program", built("ring.elf"), "--words")
            self.shows(text, "0x00011004 579 145 threads ring.tail")

    def test_what_has_few_misses_is_left(self):
        rows = 120 * ["0 W 1000 4", "1 W 1004 4"] + ["0 W 5000 4", "1 W 5004 4", "0 W 5000 4"]
        with tempfile.TemporaryDirectory() as folder:
            trace = os.path.join(folder, "t")
            words = [os.path.join(TOP, "tools", "to_trace.py"), "-", trace]
            subprocess.run(
                words, input="\n".join(rows), text=True, check=True, stdout=subprocess.DEVNULL
            )
            _, text, _ = view("replay", trace)
            self.shows(
                text,
                "not worth a change: memory at 0x00012000 (1 miss)",
            )
            self.assertNotIn("2 1 0", joined(text))
            _, text, _ = view("replay", trace, "--object", "memory at 0x00012000")
            self.shows(text, "1 1 0 2 1 memory at 0x00012000")
            self.assertNotIn("not worth a change", text)

    def test_a_report_with_its_lines_behind_it(self):
        rows = "line observed 0x00001000 64 start 0 count 200 verdict false\nobject block 0x00001000 24 born 0 live\nsite 0x000100b0 work\n"
        text = "predator report 1\noutcome exit 0\nsteps 0\naccesses 9\nlayout 64 0\nthresholds 16 64 100\nlines 1\n"
        with tempfile.TemporaryDirectory() as folder:
            report = os.path.join(folder, "r")
            with open(report, "w", encoding="utf-8") as file:
                file.write(
                    f"{text}{rows}word 0x00001008 reads 1 writes 9 hart 3\nend\nwhere 0x000100b0 /home/me/kinds.c:59\n"
                )
            _, text, _ = view(report, "--object", "kinds.c:59")
            self.shows(
                text,
                "1 200 1 block made at kinds.c:59 (work) who hart 3: +8 (9 writes, 1 read)",
            )

    def test_refusals(self):
        for words, said in (
            (("missing",), "missing: No such file or directory"),
            (("run", "missing.elf"), "missing.elf: No such file or directory"),
            (("replay", __file__), "`predator replay` failed: "),
            (("replay", built("ring.elf")), "ring.elf is a program for RV32: use `predator view"),
            (
                ("run", built("ring.elf"), "--object", "stat"),
                "ring.elf has no variable 'stat'; did you mean `stats`?",
            ),
            (
                ("run", built("ring.elf"), "--json", "-", "--html", "-"),
                "only one output can be `-`, standard output",
            ),
            ((__file__,), "isn't a report: the first line isn't"),
            (
                ("run", built("ring.elf"), "--html", "/no/where"),
                "/no/where: No such file or directory",
            ),
            (
                ("run", built("ring.elf"), "--html", built("../programs/ring.elf")),
                "is used twice: outputs must differ from each other and from inputs",
            ),
            (
                ("run", built("ring.elf"), "--html", "/tmp/a", "--json", "/tmp/a"),
                "is used twice: outputs must differ from each other and from inputs",
            ),
            (
                ("run", built("ring.elf"), "--settings=/etc/hosts", "--sarif", "/etc/hosts"),
                "is used twice: outputs must differ from each other and from inputs",
            ),
            (
                ("run", built("ring.elf"), "--trace", "/tmp/none", "--sarif", "/tmp/../tmp/none"),
                "is used twice: outputs must differ from each other and from inputs",
            ),
            (
                ("run", built("ring.elf"), "--against", "/etc/hosts", "--html", "/etc/hosts"),
                "is used twice: outputs must differ from each other and from inputs",
            ),
        ):
            status, _, printed = view(*words, *(TURNS if words[0] == "run" else ()))
            self.assertEqual(status, 2)
            self.assertIn(said, printed)

    def test_no_room_for_the_screen(self):
        env = {**os.environ, "PREDATOR_BUILD": "no"}
        with tempfile.TemporaryDirectory() as folder, open(
            "/dev/full", "w", encoding="utf-8"
        ) as full:
            report = os.path.join(folder, "r")
            with open(report, "w", encoding="utf-8") as file:
                file.write(
                    "predator report 1\noutcome budget\nsteps 0\naccesses 0\nlayout 64 0\nthresholds 16 64 100\nlines 0\nend\n"
                )
            command = [os.path.join(TOP, "bin", "predator"), "view", report]
            ran = subprocess.run(command, stdout=full, stderr=subprocess.PIPE, text=True, env=env)
            self.assertEqual(
                (ran.returncode, ran.stderr),
                (2, "predator view: standard output: No space left on device\n"),
            )

    def test_missing_packages(self):
        with tempfile.TemporaryDirectory() as folder:
            for name in ("elftools", "jinja2"):
                with open(os.path.join(folder, f"{name}.py"), "w", encoding="utf-8") as file:
                    file.write("raise ImportError\n")
            status, _, said = view(
                "run", built("ring.elf"), *TURNS, PYTHONPATH=folder, lacks="misses explain"
            )
            self.assertEqual(status, 127)
            self.assertRegex(
                said, r"^predator view: python3-pyelftools isn't installed: apt-get install .*\n$"
            )
            report = os.path.join(folder, "r")
            with open(report, "w", encoding="utf-8") as file:
                file.write(
                    "predator report 1\noutcome exit 0\nsteps 0\naccesses 0\nlayout 64 0\nthresholds 16 64 100\nlines 0\nend\n"
                )
            status, text, _ = view(report, PYTHONPATH=folder)
            self.assertEqual(status, 0)
            self.shows(
                text,
                "r: exit 0, 0 accesses; 64-byte lines note: a report has no misses",
                "no line is contended",
            )
            self.assertEqual(
                view(report, "--html", os.path.join(folder, "h"), PYTHONPATH=folder)[0], 127
            )

    def test_help(self):
        for words in (["view", "--help"], ["help", "view"], ["view", "run", "-h"]):
            env = {**os.environ, "PREDATOR_BUILD": "no"}
            ran = subprocess.run(
                [os.path.join(TOP, "bin", "predator"), *words],
                capture_output=True,
                text=True,
                env=env,
            )
            self.assertEqual(ran.returncode, 0)
            self.assertIn("--fail-above", ran.stdout)

    def test_colours_on_a_terminal_only(self):
        command = [
            os.path.join(TOP, "bin", "predator"),
            "view",
            "run",
            built("odd.elf"),
            *TURNS,
            "--explain",
            "0",
        ]
        texts = []
        for more in ({}, {"NO_COLOR": "1"}):
            main, end = pty.openpty()
            env = {
                **os.environ,
                "TERM": "xterm",
                "PREDATOR_PROGRAM": STAND_IN,
                "STAND_IN_LACKS": "misses explain",
                **more,
            }
            child = subprocess.Popen(command, stdout=end, stdin=subprocess.DEVNULL, env=env)
            os.close(end)
            text = b""
            while True:
                try:
                    piece = os.read(main, 4096)
                except OSError:
                    break
                if not piece:
                    break
                text += piece
            child.wait()
            os.close(main)
            texts.append(text)
        self.assertIn(b"\033[1;31m!! THE RUN", texts[0])
        self.assertNotIn(b"\033", texts[1])


RECORDER = os.path.join(TOP, "native", "out", "predator-amd64-linux")


@unittest.skipUnless(
    os.path.exists(RECORDER) and has(PROGRAM, "misses"),
    "the recorder of native/ or the program isn't built",
)
class OfThisMachine(ScreenTest):
    def test_a_program_is_recorded(self):
        with tempfile.TemporaryDirectory() as folder:
            source = os.path.join(TOP, "native", "tries", "counters.c")
            subprocess.run(
                ["gcc", "-g", "-O1", "-pthread", source, "-o", "counters"], cwd=folder, check=True
            )
            for words in (
                ("--top=1", "counters"),
                ("native", "--top=1", "--quantum", "10", "--", "./counters"),
            ):
                status, text, said = view(*words, program=PROGRAM, cwd=folder)
                self.assertEqual((status, said), (0, "sum 80000\n"))
                self.shows(
                    text,
                    "counters: exit 0, ",
                    "counters: struct own[400], counters.c:12",
                    "give each element of counters its own line: struct __attribute__((aligned(64))) own",
                    "each thread writes its own element: thread 1: [0]",
                )
                self.assertNotIn("instructions,", text)
                self.assertRegex(text, r"[1-9] objects? of the C library \(--library shows")
            status, _, said = view(
                "native", "./counters", "--quantum", "0", program=PROGRAM, cwd=folder
            )
            self.assertEqual((status, "'--quantum' is 1 to 100000" in said), (2, True))


if __name__ == "__main__":
    unittest.main()
