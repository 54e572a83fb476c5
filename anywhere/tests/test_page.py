"""The page in Debian's chromium: each control, each kind of file, and what is refused.

What it prints is what the native program prints."""

from __future__ import annotations

import gzip
import os
import shutil
import tempfile
import unittest
from typing import Any, ClassVar

from browser import Browser
from calling import BUILT, EXAMPLES, LAUNCHER, native_program, run_in

from view.reading.reports import Blame, Misses, Report

PROGRAM = "counters.elf"
LARGE_ACCESSES = 3_000_000
TOO_LARGE_BYTES = 3 << 30
# The settings that the page begins with.
USUAL = {"size": 64, "shift": 0, "tracking": 16, "report": 100, "quantum": 100, "seed": 0}
NATIVE_SIZES = (32, 64, 128, 256)
NO_MEMORY64 = "WebAssembly.validate = () => false;"


def replay_words(trace: str, settings: dict[str, int]) -> list[str]:
    size, shift = settings["size"], settings["shift"]
    changes = f"tracking={settings['tracking']},report={settings['report']}"
    if shift == 0 and size in NATIVE_SIZES:
        return ["replay", "--set", f"{changes},line={size}", trace]
    return ["replay", "--set", changes, "--size", f"{size}", "--shift", f"{shift}", trace]


class Page(unittest.TestCase):
    folder: ClassVar[str]
    page: ClassVar[str]
    browser: ClassVar[Browser]

    @classmethod
    def setUpClass(cls) -> None:
        cls.folder = tempfile.mkdtemp(prefix="predator-page-")
        cls.addClassCleanup(shutil.rmtree, cls.folder)
        cls.page = os.path.join(cls.folder, "page.html")
        ran = run_in(cls.folder, [LAUNCHER], ["view", "--page-app", cls.page])
        assert ran.returncode == 0, ran.stderr
        shutil.copy(os.path.join(BUILT, PROGRAM), cls.folder)
        for name in ("queue.trace", "heap.trace"):
            shutil.copy(os.path.join(EXAMPLES, name), cls.folder)
        cls.native("run", PROGRAM, "--trace", "pcs.trace", "--pcs", "--output", "out")
        cls.native("filter", "pcs.trace", "filtered.trace")
        # (a recorded program has no steps: the last three numbers are steps, accesses and all accesses)
        with open(cls.path("filtered.trace"), "rb") as file:
            trace = file.read()
        cls.write("filtered.trace", trace[:-24] + bytes(8) + trace[-16:])
        cls.native("gen", f"{LARGE_ACCESSES}", "large.trace")
        cls.write("report.txt", cls.native("replay", "queue.trace"))
        cls.write("notes.txt", b"no report")
        cls.browser = cls.enterClassContext(Browser())

    @classmethod
    def native(cls, *words: str) -> bytes:
        """What the native program prints."""
        return run_in(cls.folder, [native_program()], list(words)).stdout

    @classmethod
    def path(cls, name: str) -> str:
        return os.path.join(cls.folder, name)

    @classmethod
    def write(cls, name: str, content: bytes) -> str:
        with open(cls.path(name), "wb") as file:
            file.write(content)
        return cls.path(name)

    def setUp(self) -> None:
        self.browser.open(self.page)

    def text_of(self, name: str) -> str:
        text: str = self.browser.value_of(f"document.getElementById({name!r}).textContent")
        return text

    def is_shown(self, name: str) -> bool:
        shown: bool = self.browser.value_of(
            f"!document.getElementById({name!r}).closest('[hidden]')"
        )
        return shown

    def wait_for_count(self) -> None:
        """Waits until the results are there, and nothing runs."""
        self.browser.wait_for(
            "!document.getElementById('results').hidden && document.getElementById('running').hidden"
        )

    def wait_for_status(self, part: str) -> str:
        self.browser.wait_for(f"document.getElementById('status').textContent.includes({part!r})")
        return self.text_of("status")

    def expected_text(self, trace: str, has_pcs: bool, **changed: int) -> str:
        settings = {**USUAL, **changed}
        layout = ["--size", f"{settings['size']}", "--shift", f"{settings['shift']}"]
        texts = [self.native(*replay_words(trace, settings))]
        texts += [self.native("misses", *layout, trace)]
        texts += [self.native("blame", *layout, trace)] if has_pcs else []
        return b"\n".join(texts).decode("latin-1")

    def check_controls(self, trace: str, has_pcs: bool, controls: dict[str, int]) -> None:
        """Each control in turn: what is counted then is what the native program counts."""
        changed: dict[str, int] = {}
        for name, value in controls.items():
            changed[name] = value
            self.browser.set_value(name, f"{value}")
            self.browser.wait_for("!current.isCounting")
            with self.subTest(name=name):
                self.assertEqual(
                    self.text_of("text"), self.expected_text(trace, has_pcs, **changed)
                )

    def test_counts_a_trace_under_each_layout_and_threshold(self) -> None:
        self.browser.choose_file(self.path("pcs.trace"))
        self.wait_for_count()
        self.assertEqual(self.text_of("text"), self.expected_text("pcs.trace", True))
        self.assertFalse(self.is_shown("schedule"))
        self.assertIn("4,000 false-sharing misses", self.text_of("summary"))
        self.assertIn("counters", self.text_of("objects"))
        self.assertIn("0x00010364", self.text_of("lines"))
        self.check_controls(
            "pcs.trace", True, {"size": 128, "shift": 8, "tracking": 1, "report": 1000}
        )

    def test_says_how_many_accesses_a_filtered_trace_leaves_out(self) -> None:
        misses = self.native("misses", "filtered.trace").decode("latin-1").split("\n")
        kept, whole = (int(it.split()[1]) for it in misses[1:3])
        self.assertGreater(whole, kept)
        self.browser.choose_file(self.path("filtered.trace"))
        self.wait_for_count()
        self.browser.wait_for("texts.misses && !current.isCounting")
        self.assertIn(f"{whole:,} accesses ({kept:,} recorded)", self.text_of("summary"))
        rate = f"{1000 * 4000 / whole:.2f} false per 1,000 accesses"
        self.assertIn(rate, self.text_of("summary"))
        self.assertIn("are those of the recorded accesses alone", self.text_of("lines"))
        self.browser.choose_file(self.path("pcs.trace"))
        self.browser.wait_for("texts.misses && !current.isCounting")
        self.assertNotIn("recorded", self.text_of("summary") + self.text_of("lines"))

    def rows_of(self, selector: str) -> list[list[str]]:
        """The cells of the rows of a table."""
        rows: list[list[str]] = self.browser.value_of(
            f"[...document.querySelectorAll('{selector} tbody tr')]"
            ".map((row) => [...row.cells].map((cell) => cell.textContent))"
        )
        return rows

    def test_draws_what_the_program_prints(self) -> None:
        self.browser.choose_file(self.path("heap.trace"))
        self.wait_for_count()
        report = Report(self.native("replay", "heap.trace").decode("latin-1"))
        cells = self.browser.value_of(
            "[...document.querySelectorAll('.word')]"
            ".map((cell) => [cell.textContent, cell.style.backgroundColor])"
        )
        expected: list[str] = []
        harts: list[str | None] = []
        lines = [*report.observed(), *report.predicted()]
        for line in lines[:20]:
            used = {it.addr: it for it in line.words()}
            for address in range(line.base, line.base + line.size, 4):
                word = used.get(address)
                counts = f"{word.writes:,} w{word.reads:,} r" if word else ""
                expected.append(f"{word.hart}{counts}" if word else "·")
                harts.append(word.hart if word and word.hart != "many" else None)
        self.assertEqual([it[0] for it in cells], expected)
        colours: dict[str | None, set[str]] = {}
        for hart, (_, colour) in zip(harts, cells):
            colours.setdefault(hart, set()).add(colour)
        self.assertEqual({len(it) for it in colours.values()}, {1})
        self.assertEqual(len(set.union(*colours.values())), len(colours))

    def test_ranks_objects_and_names_instructions(self) -> None:
        self.browser.choose_file(self.path("heap.trace"))
        self.wait_for_count()
        misses = Misses(self.native("misses", "heap.trace").decode("latin-1"))
        counts = [[int(it.replace(",", "")) for it in row[1:4]] for row in self.rows_of("#objects")]
        lines = misses.lines.values()
        totals = [sum(getattr(it, name) for it in lines) for name in ("useless", "useful", "cold")]
        self.assertEqual([sum(column) for column in zip(*counts)], totals)
        self.assertEqual(counts, sorted(counts, key=lambda it: (-it[0], -it[1])))
        self.browser.choose_file(self.path("pcs.trace"))
        self.browser.wait_for("texts.blame && !current.isCounting")
        blame = Blame(self.native("blame", "pcs.trace").decode("latin-1"))
        (base,) = blame.places
        found = blame.invalidations(base)
        assert found is not None
        self.assertEqual(
            self.rows_of(".pairs"),
            [
                [
                    f"{pair[2]:,}",
                    f"{pair[3]:,}",
                    f"{pair.invalidator:#010x}",
                    f"{pair.victim:#010x}",
                ]
                for pair in found.pairs
            ],
        )

    def test_runs_a_program_under_each_quantum_and_seed(self) -> None:
        self.browser.drop_file(self.path(PROGRAM))
        self.wait_for_count()
        self.assertTrue(self.is_shown("schedule"))
        for name, value, settings in (
            ("quantum", "3", "quantum=3,seed=0"),
            ("seed", "7", "quantum=3,seed=7"),
        ):
            self.browser.set_value(name, value)
            self.browser.wait_for("!current.isCounting")
            words = ["--trace", "run.trace", "--pcs", "--output", "out", "--set", settings]
            self.native("run", PROGRAM, *words)
            with self.subTest(name=name):
                self.assertEqual(self.text_of("text"), self.expected_text("run.trace", True))

    def test_shows_a_saved_report(self) -> None:
        self.browser.drop_file(self.path("report.txt"))
        self.wait_for_count()
        with open(self.path("report.txt"), encoding="latin-1") as file:
            self.assertEqual(self.text_of("text"), file.read())
        words = self.browser.value_of("document.querySelectorAll('.word').length")
        lines = self.browser.value_of("texts.replay.match(/^line observed/gm).length")
        self.assertGreaterEqual(words, 16 * min(lines, 20))
        self.assertFalse(self.is_shown("settings"))

    def test_refuses_other_files(self) -> None:
        with open(self.path("pcs.trace"), "rb") as file:
            trace = file.read()
        large = self.write("too_large.trace", trace[:64])
        os.truncate(large, TOO_LARGE_BYTES)
        for path, said in (
            (self.path("notes.txt"), "it is no trace, RISC-V program"),
            (self.write("state", b"PRDSTA01" + bytes(56)), "it is a saved state"),
            (self.write("t.gz", gzip.compress(trace)), "it is compressed"),
            ("/bin/true", "not for 32-bit RISC-V"),
            (large, "at most 2,147,483,648"),
            (self.write("cut.trace", trace[:1000]), "cut off after 1000 bytes"),
            (self.write("cut.elf", open(self.path(PROGRAM), "rb").read()[:200]), "ELF"),
            (self.write("empty", b""), "it is no trace"),
        ):
            self.browser.choose_file(path)
            with self.subTest(path=path):
                self.assertIn(os.path.basename(path), self.wait_for_status(said))
                self.assertFalse(self.is_shown("summary"))

    def test_refuses_settings_that_are_none(self) -> None:
        self.browser.choose_file(self.path("queue.trace"))
        self.wait_for_count()
        for name, value, said in (
            ("shift", "6", "Shift: it must be a multiple of 4"),
            ("shift", "64", "Shift: it must be a multiple of 4 from 0 to 60"),
            ("tracking", "0", "Track lines from: it must be a whole number from 1"),
            ("report", "many", "List lines from"),
        ):
            self.browser.set_value(name, value)
            with self.subTest(name=name, value=value):
                self.wait_for_status(said)
            self.browser.set_value(name, f"{USUAL[name]}")
            self.browser.wait_for("!current.isCounting")
        # (a shift may be as great as the line size allows)
        self.browser.set_value("size", "256")
        self.browser.set_value("shift", "252")
        self.browser.wait_for("!current.isCounting")
        expected = self.expected_text("queue.trace", False, size=256, shift=252)
        self.assertEqual(self.text_of("text"), expected)

    def test_stops_and_counts_again(self) -> None:
        self.browser.choose_file(self.path("large.trace"))
        self.browser.wait_for("!document.getElementById('running').hidden")
        self.browser.value_of("document.getElementById('stop').click()")
        self.wait_for_status("Stopped counting large.trace")
        self.assertFalse(self.is_shown("stop"))
        self.assertFalse(self.is_shown("summary"))
        self.browser.set_value("size", "32")
        self.wait_for_count()
        self.assertEqual(self.text_of("text"), self.expected_text("large.trace", False, size=32))

    def test_takes_a_second_file_while_it_counts(self) -> None:
        self.browser.choose_file(self.path("large.trace"))
        self.browser.wait_for("!document.getElementById('running').hidden")
        self.browser.drop_file(self.path("queue.trace"))
        self.wait_for_status("Stopped counting large.trace. Counting queue.trace")
        self.wait_for_count()
        self.assertEqual(self.text_of("title"), "queue.trace")
        self.assertEqual(self.text_of("text"), self.expected_text("queue.trace", False))

    def test_takes_a_second_file_after_a_count(self) -> None:
        self.browser.choose_file(self.path("queue.trace"))
        self.wait_for_count()
        self.browser.drop_file(self.path("notes.txt"))
        status = self.wait_for_status("notes.txt: it is no trace")
        self.assertNotIn("Stopped", status)
        chosen = self.browser.value_of("document.getElementById('file').files[0].name")
        self.assertEqual(chosen, "notes.txt")

    def test_marks_the_results_of_earlier_settings(self) -> None:
        self.browser.choose_file(self.path("queue.trace"))
        self.wait_for_count()
        self.assertFalse(self.is_shown("earlier"))
        self.browser.set_value("shift", "6")
        self.wait_for_status("Shift: it must be")
        self.assertTrue(self.is_shown("earlier"))
        self.assertTrue(self.is_shown("summary"))
        self.browser.set_value("shift", "4")
        self.browser.wait_for("!current.isCounting")
        self.assertFalse(self.is_shown("earlier"))
        self.assertIn("shifted by 4 bytes", self.text_of("summary"))

    def test_says_which_browsers_can_count(self) -> None:
        script = self.browser.send("Page.addScriptToEvaluateOnNewDocument", source=NO_MEMORY64)
        self.browser.open(self.page)
        try:
            self.assertIn("Firefox from 134", self.text_of("unable"))
            self.assertTrue(self.is_shown("unable"))
            self.browser.choose_file(self.path("queue.trace"))
            self.wait_for_status("this browser can't count it")
            self.browser.choose_file(self.path("report.txt"))
            self.wait_for_count()
        finally:
            self.browser.send("Page.removeScriptToEvaluateOnNewDocument", **script)

    def test_counts_the_trace_of_a_live_page(self) -> None:
        live = self.path("live.html")
        ran = run_in(
            self.folder, [LAUNCHER], ["view", "replay", "queue.trace", "--html", live, "--live"]
        )
        self.assertEqual(ran.returncode, 0, ran.stderr)
        self.browser.open(live)
        frame = "document.querySelector('iframe').contentWindow"
        part = f"{frame}.document.getElementById"
        done = f"!{part}('results').hidden && {part}('running').hidden"
        self.browser.wait_for(done)
        self.assertEqual(
            self.browser.value_of(f"{part}('text').textContent"),
            self.expected_text("queue.trace", False),
        )
        # (the frame is as high as what it shows, and has no scroll bar of its own)
        root = f"{frame}.document.documentElement"
        heights = f"{root}.scrollHeight === {root}.clientHeight && {root}.offsetHeight"
        shown = self.browser.wait_for(heights)
        height = self.browser.value_of("document.querySelector('iframe').clientHeight")
        self.assertLessEqual(abs(height - shown), 1)

    def test_uses_no_network_and_has_no_error(self) -> None:
        self.browser.choose_file(self.path("queue.trace"))
        self.wait_for_count()
        self.assertEqual(self.browser.find_events(is_error), [])
        self.assertEqual(self.browser.find_events(is_request_outside), [])
        # (a connection is refused by the page itself)
        tried = "fetch('http://127.0.0.1:9/').then(() => 'came', (fault) => fault.name)"
        self.assertEqual(self.browser.value_of(tried), "TypeError")
        refused = [it for it in self.browser.find_events(is_error) if "Security Policy" in str(it)]
        self.assertTrue(refused)
        self.browser.events.clear()


def is_error(event: dict[str, Any]) -> bool:
    if event.get("method") == "Runtime.exceptionThrown":
        return True
    return event.get("method") == "Log.entryAdded" and event["params"]["entry"]["level"] == "error"


def is_request_outside(event: dict[str, Any]) -> bool:
    if event.get("method") != "Network.requestWillBeSent":
        return False
    url: str = event["params"]["request"]["url"]
    return not url.startswith(("file:", "blob:", "data:", "about:"))


if __name__ == "__main__":
    unittest.main()
