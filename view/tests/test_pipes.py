"""A trace that view reads from a pipe."""

import os
import subprocess
import tempfile
import unittest

from calling import PROGRAM, STAND_IN, TOP, TURNS, ScreenTest, built, has, view

# A call that takes so many seconds reads a pipe that nobody writes: a busy machine takes a minute or two.
HANGS = 900


class Pipes(ScreenTest):
    program = STAND_IN

    def call(self, command, trace):
        """What a command in bash prints, in which $view is view, and $1 the trace."""
        own = {
            "PREDATOR_PROGRAM": self.program,
            "PREDATOR_BUILD": "no",
            "view": os.path.join(TOP, "bin", "predator") + " view",
        }
        env = {**os.environ, **own}
        ran = subprocess.run(
            ["bash", "-c", command, "bash", trace],
            capture_output=True,
            encoding="utf-8",
            env=env,
            timeout=HANGS,
        )
        self.assertEqual((ran.returncode, ran.stderr), (0, ""), command)
        return ran.stdout

    def test_a_trace_from_a_pipe(self):
        with tempfile.TemporaryDirectory() as folder:
            trace, fifo = os.path.join(folder, "t"), os.path.join(folder, "fifo")
            subprocess.run(
                [self.program, "run", built("ring.elf"), *TURNS, "--trace", trace],
                check=True,
                stdout=subprocess.DEVNULL,
            )
            os.mkfifo(fifo)
            # (but for the name of what is read)
            texts = {
                self.call(command, trace).partition(": ")[2]
                for command in (
                    'cat "$1" | $view replay -',
                    '$view replay - <"$1"',
                    f'cat "$1" >{fifo} & $view replay - <{fifo}; wait',
                    '$view replay <(cat "$1")',
                    f'cat "$1" >{fifo} & $view replay {fifo}; wait',
                )
            }
            self.assertEqual(len(texts), 1)
            self.shows(
                texts.pop(),
                "note: a pipe can be read only once, so misses and fixes are unknown: write the trace to a file",
                "1 331 1 ring",
            )
            _, whole, _ = view("replay", trace, program=self.program)
            self.shows(whole, "1 298 0 299 1 stats")
            # (settings and schedules that are pipes serve each run)
            text = self.call(
                f"$view run {built('ring.elf')} --settings <(echo quantum = 3) --explain 1 --latency=0",
                trace,
            )
            self.assertEqual(
                text,
                view("run", built("ring.elf"), *TURNS, "--explain", "1", program=self.program)[1],
            )


@unittest.skipUnless(has(PROGRAM, "misses"), "the program isn't built, or has no misses")
class PipesOfTheProgram(Pipes):
    program = PROGRAM


if __name__ == "__main__":
    unittest.main()
