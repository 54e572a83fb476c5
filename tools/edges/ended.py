"""Calls over streams of one's own, and what the tries of names.py, streams.py and tries.py have in common."""

import os
import subprocess
from typing import Sequence

from bench import SECONDS, Bench, Fault, read_content
from cases import Case
from judge import find_faults, expected_end

IN_USE = "the file is in use under another name and stays unchanged: name another file"
READ_FAULT, WRITE_FAULT = b"predator: read fault\n", b"predator: write fault\n"


class Ended:
    """How a call ended that was made over other streams."""

    def __init__(self, bench: Bench, words: Sequence[str], **streams: object) -> None:
        usual: dict[str, object] = {
            "stdin": subprocess.DEVNULL,
            "stdout": subprocess.PIPE,
            "stderr": subprocess.PIPE,
        }
        settings = (
            usual | {"env": bench.environment({}), "timeout": SECONDS, "check": False} | streams
        )
        try:
            ran = subprocess.run([bench.program, *words], **settings)  # type: ignore[call-overload]
            self.status, self.printed, self.said = ran.returncode, ran.stdout, ran.stderr or b""
        except subprocess.TimeoutExpired:
            self.status, self.printed, self.said = (
                None,
                b"",
                f"(it hadn't ended after {SECONDS} s)".encode(),
            )

    def faults(self, status: int, printed: bytes | None, said: bytes | None) -> list[Fault]:
        """What is wrong. None stands for what isn't looked at, or went elsewhere."""
        found = [] if self.status == status else [f"status {self.status}, and {status} is wanted"]
        for what, is_now, wanted in (("printed", self.printed, printed), ("said", self.said, said)):
            if wanted is not None and is_now != wanted:
                found.append(f"it {what} {is_now[-200:]!r}, and wanted is {wanted[-200:]!r}")
        return found

    def check_last_line(self, line: bytes) -> list[Fault]:
        """What is wrong where this line is to be the last that is said."""
        return (
            []
            if self.said.endswith(line)
            else [f"it said {self.said[-200:]!r}, and wanted is {line!r}"]
        )


def fault_line(name: str, reason: str) -> bytes:
    return f"predator: {name}: {reason}\n".encode()


def compare_bytes(name: str, wanted: bytes | None) -> list[Fault]:
    """What is wrong with a file that is to have these bytes, or not to be there."""
    now = read_content(name)
    return (
        []
        if now == wanted
        else [
            f"{name} has {None if now is None else len(now)} bytes, and not those that are wanted"
        ]
    )


def check_outputs(case: Case) -> list[Fault]:
    """What is wrong with the outputs of a call that is to write them whole. They are removed."""
    found = [
        fault
        for name, whole in case.writes
        for fault in compare_bytes(name, None if case.keeps_outputs() else whole)
    ]
    remove_files(*dict(case.writes))
    return found


def put_file(name: str, bytes_of: bytes) -> None:
    with open(name, "wb") as file:
        file.write(bytes_of)


def remove_files(*names: str) -> None:
    for name in names:
        if os.path.lexists(name):
            os.remove(name)


def try_case(bench: Bench, what: str, how: str, case: Case) -> None:
    bench.count(what, how, case.words, find_faults(case, bench.call(case), expected_end(case)))
