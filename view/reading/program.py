"""The program as `view`, `campaign` and the Python package `predator` call it: where it is, a call, and what came of that."""

from __future__ import annotations

import os
import subprocess
from dataclasses import dataclass
from typing import IO, Sequence, Union

TOP = os.path.dirname(os.path.dirname(os.path.dirname(os.path.abspath(__file__))))
# The launcher of a checkout, and that of the folder where this was installed.
LAUNCHERS = (os.path.join(TOP, "bin", "predator"), os.path.join(TOP, "..", "..", "bin", "predator"))
PREFIX = "predator: "
Word = Union[str, bytes]
# Where a call reads from or writes to, as `subprocess` has it.
Stream = Union[int, IO[bytes], None]


@dataclass(frozen=True)
class Answer:
    """A call's exit status, its printed text, and what it said on standard error (empty where that went elsewhere)."""

    status: int
    text: str
    message: str

    def refusal(self) -> str:
        """The line that the program prints where it refuses a call, or nothing."""
        line = self.text.partition("\n")[0]
        return line.removeprefix(PREFIX) if line.startswith(PREFIX) else ""

    def reason(self) -> str:
        """The last line on standard error, which has the refusal in more words."""
        return self.message.strip().rpartition("\n")[2].removeprefix(PREFIX)


def find_launcher() -> str | None:
    """The command `predator` that the environment names, or that of this checkout or installed folder."""
    for path in (os.environ.get("PREDATOR"), *LAUNCHERS):
        if path and os.path.exists(path):
            return path
    return None


def call_program(
    command: Sequence[Word],
    words: Sequence[Word],
    *,
    stdin: Stream = subprocess.DEVNULL,
    stderr: Stream = None,
    pass_fds: Sequence[int] = (),
) -> Answer:
    """Calls the program, whose printed text is read whole."""
    ran = subprocess.run(
        [*command, *words], stdout=subprocess.PIPE, stdin=stdin, stderr=stderr, pass_fds=pass_fds
    )
    message = (ran.stderr or b"").decode("utf-8", "replace")
    return Answer(ran.returncode, ran.stdout.decode("latin-1"), message)
