"""The base of tests that call campaign as a user does, with a stand-in for the program."""

import os
import subprocess
import tempfile
import unittest

HERE = os.path.dirname(os.path.abspath(__file__))
TOP = os.path.dirname(os.path.dirname(HERE))
STAND_IN = os.path.join(HERE, "stand_in.py")
COMMAND = [os.path.join(TOP, "bin", "predator"), "campaign"]


def environment(**more):
    return {**os.environ, "PREDATOR_PROGRAM": STAND_IN, "PREDATOR_BUILD": "no", **more}


class CampaignCase(unittest.TestCase):
    """A folder with a plan and the programs `one` and `two`."""

    def setUp(self):
        # A process that was killed may still write, which must not fail a test that has passed.
        work = tempfile.TemporaryDirectory(prefix="try-campaign-", ignore_cleanup_errors=True)
        self.addCleanup(work.cleanup)
        self.work = work.name
        self.log = self.path("log")
        for name in ("one", "two"):
            self.write(name, name)

    def path(self, *names):
        return os.path.join(self.work, *names)

    def write(self, name, text):
        with open(self.path(name), "w", encoding="utf-8") as file:
            file.write(text)

    def read(self, *names):
        with open(self.path(*names), encoding="utf-8") as file:
            return file.read()

    def write_plan(self, text):
        self.write("plan.yaml", text)

    def call_campaign(self, *words, **more):
        """The status of a call with the plan, its output and its messages."""
        command = [*COMMAND, "plan.yaml", *words]
        env = environment(STAND_IN_LOG=self.log, **more)
        ran = subprocess.run(
            command,
            capture_output=True,
            encoding="utf-8",
            env=env,
            cwd=self.work,
            stdin=subprocess.DEVNULL,
        )
        return ran.returncode, ran.stdout, ran.stderr

    def take_calls(self):
        """The calls of the stand-in since the last question, sorted."""
        try:
            text = self.read("log")
        except OSError:
            return []
        os.remove(self.log)
        return sorted(text.split("\n")[:-1])
