"""The module against the native program: the same calls over the same files print and write the same bytes."""

from __future__ import annotations

import base64
import json
import os
import random
import shutil
import subprocess
import tempfile
import unittest
from typing import NamedTuple

from calling import BUILT, EXAMPLES, native_program, node_command, read_folder, run_in

CALLS = 200
SEED = 1
PROGRAMS = ("counters.elf", "queue.elf", "words.elf", "apart.elf", "waits.elf", "linked.elf")
TRACES = ("counters.trace", "heap.trace", "queue.trace", "regression.trace")
SIZES = (4, 8, 16, 32, 64, 128, 256, 512, 1024)
BATCH = os.path.join(os.path.dirname(os.path.abspath(__file__)), "calls.mjs")
NO_WORDS: list[str] = []


def make_files(folder: str) -> None:
    """Programs, whole traces of each version, and files that are refused."""
    for name in PROGRAMS:
        shutil.copy(os.path.join(BUILT, name), folder)
    for name in TRACES:
        shutil.copy(os.path.join(EXAMPLES, name), folder)
    program = [native_program()]
    run_in(folder, program, ["gen", "3000", "made.trace"])
    run_in(folder, program, ["convert", "made.trace", "short.trace"])
    for name in ("counters", "words"):
        words = ["run", f"{name}.elf", "--trace", f"{name}.pcs.trace", "--pcs", "--output", "out"]
        run_in(folder, program, words)
    with open(os.path.join(folder, "words.pcs.trace"), "rb") as file:
        whole = file.read()
    for name, content in (
        ("cut.trace", whole[:1000]),
        ("wrong.trace", whole[:500] + b"\xff" + whole[501:]),
        ("longer.trace", whole + b"\0"),
        ("empty.trace", b""),
        ("text.trace", b"no trace at all\n"),
        ("cut.elf", open(os.path.join(folder, "counters.elf"), "rb").read()[:300]),
        ("few.toml", b"tracking = 1\nreport = 1\n"),
        ("wrong.toml", b"tracking = 0\n"),
        ("turns.txt", b"0 100\n1 50\n0 7\n"),
        ("table.txt", b"0x00011000 4 0x00012000\n"),
        ("wrong.txt", b"0 x\n"),
    ):
        with open(os.path.join(folder, name), "wb") as file:
            file.write(content)


def layout_words(draw: random.Random) -> list[str]:
    if draw.random() < 0.3:
        return []
    size = draw.choice(SIZES)
    shift = draw.randrange(0, min(size, 64), 4)
    return (
        [f"--size={size}", f"--shift={shift}"]
        if draw.random() < 0.3
        else ["--size", f"{size}", "--shift", f"{shift}"]
    )


def setting_words(draw: random.Random) -> list[str]:
    return draw.choice(
        (
            NO_WORDS,
            ["--settings", "few.toml"],
            ["--settings=few.toml", "--set", "line=128"],
            ["--set", f"tracking={draw.randint(1, 9)},report={draw.randint(1, 40)}"],
            ["--settings", "wrong.toml"],
            ["--set", "harts=0"],
            ["--settings", "missing.toml"],
        )
    )


def draw_words(draw: random.Random, traces: list[str]) -> list[str]:
    """The words of a call, most of which are right."""
    command = draw.choice(
        (
            "run",
            "run",
            "replay",
            "replay",
            "misses",
            "misses",
            "blame",
            "blame",
            "sweep",
            "move",
            "split",
            "check",
            "place",
            "other",
        )
    )
    trace, program = draw.choice(traces), draw.choice((*PROGRAMS, "cut.elf", "few.toml"))
    if command == "run":
        words = [
            "run",
            program,
            *setting_words(draw),
            "--set",
            f"quantum={draw.randint(1, 200)},seed={draw.randint(0, 5)}",
        ]
        words += draw.choice((NO_WORDS, ["--schedule", "turns.txt"], ["--schedule", "wrong.txt"]))
        return words + draw.choice(
            (NO_WORDS, ["--trace", "t", "--pcs"], ["--trace=t", "--output=o"])
        )
    if command == "replay":
        return [
            "replay",
            trace,
            *layout_words(draw),
            *setting_words(draw),
            *draw.choice((NO_WORDS, ["--save", "s"])),
        ]
    if command in ("misses", "blame"):
        return [command, trace, *layout_words(draw)]
    return {
        "sweep": ["sweep", trace, "--size", f"{draw.choice(SIZES[:7])}"],
        "move": ["move", trace, "table.txt", "moved.trace"],
        "split": ["split", trace, f"{draw.randint(0, 4000)}", "a", "b"],
        "check": ["check", program, *setting_words(draw)],
        "place": ["place", trace, draw.choice(("counters", "nothing")), "--size", "64"],
        "other": draw.choice(
            (
                NO_WORDS,
                ["reply", trace],
                ["replay"],
                ["gen", f"{draw.randint(0, 500)}", "g"],
                ["replay", "missing"],
                ["convert", trace, "c"],
            )
        ),
    }[command]


class Outcome(NamedTuple):
    """What came of a call."""

    status: int
    printed: bytes
    is_said: bool


class Calls(unittest.TestCase):
    def setUp(self) -> None:
        work = tempfile.TemporaryDirectory(prefix="predator-anywhere-")
        self.addCleanup(work.cleanup)
        self.files = os.path.join(work.name, "files")
        os.mkdir(self.files)
        make_files(self.files)
        self.folders = work.name

    def native_calls(self, calls: list[list[str]]) -> list[Outcome]:
        found = []
        for number, words in enumerate(calls):
            ran = run_in(self.folder_of("native", number), [native_program()], words)
            found.append(Outcome(ran.returncode, ran.stdout, bool(ran.stderr)))
        return found

    def module_calls(self, calls: list[list[str]]) -> list[Outcome]:
        """The same by node, which compiles the module once."""
        asked = [
            {"folder": self.folder_of("module", number), "words": words}
            for number, words in enumerate(calls)
        ]
        ran = subprocess.run(
            [node_command()[0], BATCH], input=json.dumps(asked).encode(), capture_output=True
        )
        self.assertEqual(ran.returncode, 0, ran.stderr.decode())
        answers = [json.loads(row) for row in ran.stdout.splitlines()]
        return [
            Outcome(answer["status"], base64.b64decode(answer["printed"]), bool(answer["message"]))
            for answer in answers
        ]

    def folder_of(self, name: str, number: int) -> str:
        """A new folder for a call, with links to all files."""
        folder = os.path.join(self.folders, f"{name}-{number}")
        os.mkdir(folder)
        for file in os.listdir(self.files):
            os.symlink(os.path.join(self.files, file), os.path.join(folder, file))
        return folder

    def test_prints_and_writes_the_same_bytes(self) -> None:
        draw = random.Random(SEED)
        traces = [it for it in os.listdir(self.files) if it.endswith(".trace")]
        calls = [draw_words(draw, sorted(traces)) for _ in range(CALLS)]
        outcomes = zip(calls, self.native_calls(calls), self.module_calls(calls))
        for number, (words, native, module) in enumerate(outcomes):
            with self.subTest(words=words):
                self.assertEqual(native.status, module.status)
                self.assertEqual(native.printed, module.printed)
                written = [
                    read_folder(os.path.join(self.folders, f"{name}-{number}"))
                    for name in ("native", "module")
                ]
                # (of a run the guest's own output is said too)
                if words[:1] != ["run"]:
                    self.assertEqual(native.is_said, module.is_said)
                self.assertEqual(*written)


if __name__ == "__main__":
    unittest.main()
