"""What the tests share: where things are, the native program, and node."""

from __future__ import annotations

import os
import shutil
import subprocess
import sys

HERE = os.path.dirname(os.path.abspath(__file__))
TOP = os.path.dirname(os.path.dirname(HERE))
ANYWHERE = os.path.dirname(HERE)
LAUNCHER = os.path.join(TOP, "bin", "predator")
SCRIPT = os.path.join(ANYWHERE, "predator.mjs")
BUILT = os.path.join(TOP, "guest", "built")
EXAMPLES = os.path.join(TOP, "examples")
CALL_SECONDS = 120

sys.path[:0] = [TOP, ANYWHERE]


def native_program() -> str:
    """The program itself, without its launcher."""
    named = os.environ.get("PREDATOR_PROGRAM")
    if named:
        return named
    ran = subprocess.run([LAUNCHER, "--where"], stdout=subprocess.PIPE, text=True, check=True)
    return ran.stdout.strip()


def node_command() -> list[str]:
    return [shutil.which("node") or "node", SCRIPT]


def run_in(
    folder: str, command: list[str], words: list[str], stdin: str | None = None
) -> "subprocess.CompletedProcess[bytes]":
    """Runs a command in a folder, with a file as its standard input."""
    with open(stdin or os.devnull, "rb") as file:
        return subprocess.run(
            [*command, *words], cwd=folder, stdin=file, capture_output=True, timeout=CALL_SECONDS
        )


def read_folder(folder: str) -> dict[str, bytes]:
    """The files of a folder and their contents."""
    contents = {}
    for name in sorted(os.listdir(folder)):
        with open(os.path.join(folder, name), "rb") as file:
            contents[name] = file.read()
    return contents
