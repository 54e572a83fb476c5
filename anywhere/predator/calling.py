"""Calls the program: `predator` where it runs by itself, and else its WebAssembly module by node."""

from __future__ import annotations

import os
import platform
import shutil
import subprocess
import sys
from typing import Sequence, Union

HERE = os.path.dirname(os.path.abspath(__file__))
sys.path.append(os.path.dirname(os.path.dirname(HERE)))

from view.reading.program import Answer, call_program, find_launcher  # noqa: E402

NODE_SCRIPT = os.path.join(os.path.dirname(HERE), "predator.mjs")
Path = Union[str, "os.PathLike[str]"]


class PredatorError(Exception):
    """What the program refuses, with its status; 127 where there is nothing to call."""

    def __init__(self, text: str, status: int) -> None:
        super().__init__(text)
        self.status = status


def runs_here() -> bool:
    """Whether the program runs on this machine by itself."""
    return platform.system() == "Linux" and platform.machine() in ("x86_64", "AMD64")


def find_command() -> list[str]:
    """The words that begin a call. PREDATOR names another command."""
    named = os.environ.get("PREDATOR")
    if named:
        return [named]
    found = (find_launcher() or shutil.which("predator")) if runs_here() else None
    if found:
        return [found]
    node = shutil.which("node")
    if node and os.path.exists(NODE_SCRIPT):
        return [node, NODE_SCRIPT]
    raise PredatorError("neither the command predator nor node is installed", 127)


def call(words: Sequence[str], good: Sequence[int] = (0,)) -> Answer:
    """Calls any command of the program, as `call(["sweep", "t", "--size", "64"])`.

    Raises `PredatorError` where it ends with another status than a good one."""
    answer = call_program(find_command(), words, stderr=subprocess.PIPE)
    if answer.status not in good:
        raise PredatorError(answer.reason() or answer.refusal(), answer.status)
    return answer
