"""What was measured, in a folder of JSON files, one for each run: the same call goes on behind them."""

import contextlib
import fcntl
import functools
import hashlib
import json
import os
from dataclasses import asdict
from typing import Any, Iterator

from campaign.result_files import write_whole
from native.allocators.findings import Findings
from native.allocators.lives import Placement
from view.faults import Fault

HERE = os.path.dirname(os.path.abspath(__file__))
# A run as JSON has it.
Row = dict[str, Any]
# The numbers of a row, in their order.
NUMBERS = (
    *("active", "passive", "lines", "pages", "live_bytes", "calls"),
    *("accesses", "cold", "true", "false", "in_blocks", "in_own_data", "elsewhere"),
)


@functools.cache
def file_sum(path: str) -> str:
    with open(path, "rb") as file:
        return hashlib.file_digest(file, "sha256").hexdigest()


def own_sum() -> str:
    """The sum of the modules that a number depends on."""
    names = ("lives.py", "findings.py", "results.py")
    return "".join(file_sum(os.path.join(HERE, name)) for name in names)


def key_of(inputs: object) -> str:
    return hashlib.sha256(json.dumps(inputs, sort_keys=True).encode()).hexdigest()[:24]


def numbers_of(placement: Placement, findings: Findings) -> Row:
    """The numbers of one trace."""
    return {
        "active": len(placement.active),
        "passive": len(placement.passive),
        "lines": len(placement.lines),
        "pages": placement.pages,
        "live_bytes": placement.live_bytes,
        "calls": placement.calls,
        "accesses": findings.accesses,
        "cold": findings.cold,
        "true": findings.true_misses,
        "false": findings.false_misses,
        "in_blocks": findings.in_blocks,
        "in_own_data": findings.in_own_data,
        "elsewhere": findings.elsewhere,
        "own_data": [asdict(it) for it in findings.own_data],
    }


class Results:
    """The folder of results."""

    def __init__(self, folder: str) -> None:
        self.folder = folder

    def path(self, key: str) -> str:
        return os.path.join(self.folder, f"{key}.json")

    def read(self, key: str) -> Row | None:
        """A row that is there, or none."""
        with contextlib.suppress(OSError, ValueError), open(
            self.path(key), encoding="utf-8"
        ) as file:
            row = json.load(file)
            return row if isinstance(row, dict) else None
        return None

    def write(self, key: str, row: Row) -> None:
        write_whole(self.path(key), (json.dumps(row, sort_keys=True) + "\n").encode())

    def trace_path(self, name: str) -> str:
        return os.path.join(self.folder, name.replace(" ", "-") + ".trace")


@contextlib.contextmanager
def open_results(folder: str) -> Iterator[Results]:
    """The results of a folder, which no other call uses meanwhile."""
    try:
        os.makedirs(folder, exist_ok=True)
        lock = os.open(os.path.join(folder, "lock"), os.O_RDWR | os.O_CREAT | os.O_CLOEXEC, 0o666)
    except OSError as error:
        raise Fault(f"{folder}: {error.strerror}") from error
    try:
        fcntl.flock(lock, fcntl.LOCK_EX | fcntl.LOCK_NB)
    except OSError as error:
        os.close(lock)
        raise Fault(f"{folder}: another call is using this folder") from error
    try:
        yield Results(folder)
    finally:
        os.close(lock)
