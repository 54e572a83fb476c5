"""What a file is, by its first bytes: view looks itself whether to run, to record, to replay or to show it."""

import contextlib
import os
from typing import Literal

# What view does with a file: it runs a program for RV32, records a native one, replays a trace or counts it under many layouts, and shows a
# report.
Action = Literal["run", "native", "replay", "sweep", "caches", "file"]
KIND_NAMES = {"run": "a program for RV32", "native": "a native program", "replay": "a trace"}
# The number of x86-64 in an ELF file.
X86_64 = b"\x3e\x00"


def first_bytes(path: str) -> bytes:
    """The first bytes of a file that can be read again, or none."""
    if os.path.isfile(path):
        with contextlib.suppress(OSError), open(path, "rb") as file:
            return file.read(64)
    return b""


def has_pcs(path: str) -> bool:
    """Whether a file is a trace that has the instruction of each access."""
    return first_bytes(path)[:8] in (b"PRDTRC03", b"PRDTRC04")


def is_report(path: str) -> bool:
    """Whether a file is a kept report."""
    return first_bytes(path).startswith(b"predator report ")


def action_for(path: str) -> Action:
    """What is done with a file. (What is wrong with a program for another machine the program says.)"""
    head = first_bytes(path)
    if head[:6] == b"PRDTRC":
        return "replay"
    if head[:4] == b"\x7fELF":
        return "native" if head[4:5] == b"\2" and head[18:20] == X86_64 else "run"
    return "file"


def describe_other_text(text: str) -> str:
    """What a text is that is no report, as far as its beginning shows, and what to do with it."""
    if text.startswith("PRDTRC"):
        return "a trace: use `predator view replay -` to read one from standard input"
    if text.startswith("PRDSTA"):
        return "a saved state: use `predator replay --resume`"
    if text.startswith("#!"):
        return "a script: record the program that runs it, as `predator view native bash -- SCRIPT`"
    if text.startswith("{"):
        return "JSON of `predator view --json`: use `--against` to compare with it"
    return ""
