"""Calls view as a user does, over the stand-in or over the program that was built."""

import os
import subprocess
import unittest

HERE = os.path.dirname(os.path.abspath(__file__))
TOP = os.path.dirname(os.path.dirname(HERE))
STAND_IN = os.path.join(HERE, "stand_in.py")
# The program, where it is built.
PROGRAM = os.environ.get("PREDATOR_PROGRAM") or os.path.join(
    TOP, "crates", "predator", "out", "predator"
)
# What a run of the small programs has turns of.
TURNS = ("--set", "quantum=3")


def built(name):
    return os.path.join(HERE, "programs", name)


def has(program, *commands):
    """Whether a program is there and knows some commands."""
    if not os.access(program, os.X_OK):
        return False
    usage = subprocess.run([program], capture_output=True, text=True).stdout
    return all(f"usage: predator {it} " in usage for it in commands)


def view(*words, program=STAND_IN, lacks="", cwd=None, **more):
    """The status of a call, what it printed and what it said. A run in turns of one step is made only where the call asks for its bound."""
    if words[:1] == ("run",) and not any(it.startswith("--latency") for it in words):
        words = ("run", "--latency=0", *words[1:])
    if words[:1] in (("run",), ("native",)) and not {"--fine", "--no-fine"} & {*words}:
        words = (words[0], "--no-fine", *words[1:])
    own = {"PREDATOR_PROGRAM": program, "STAND_IN_LACKS": lacks, "PREDATOR_BUILD": "no", **more}
    command = [os.path.join(TOP, "bin", "predator"), "view", *words]
    ran = subprocess.run(
        command,
        capture_output=True,
        encoding="utf-8",
        env={**os.environ, **own},
        cwd=cwd,
        stdin=subprocess.DEVNULL,
    )
    return ran.returncode, ran.stdout, ran.stderr


def joined(text):
    """A text without its line breaks and their indentation."""
    return " ".join(text.split())


class ScreenTest(unittest.TestCase):
    """A test of what view prints."""

    def shows(self, text, *parts):
        for part in parts:
            self.assertIn(part, joined(text))
