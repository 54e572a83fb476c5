"""llvm-symbolizer as one process for a whole call: each start of it would read the debug information of its files again."""

import atexit
import contextlib
import functools
import json
import os
import shutil
import subprocess
import threading
from typing import Any, Iterable, Iterator

# So many bytes of questions lie in the pipe at most, and one has fewer than the tool's own line.
MAX_BATCH_BYTES, MAX_QUESTION_BYTES = 1 << 15, 1000

# A file and an address there.
Place = tuple[str, int]
# (a run at a fine interleaving is looked at beside the usual one)
ONE_AT_A_TIME = threading.Lock()


class Symbolizer:
    """The running tool. Once it has ended, no address is known."""

    def __init__(self, tool: str) -> None:
        # (in a group of its own: Ctrl-C is for the recorded program)
        self.process = subprocess.Popen(
            [tool, "--output-style=JSON", "--inlines"],
            stdin=subprocess.PIPE,
            stdout=subprocess.PIPE,
            stderr=subprocess.DEVNULL,
            process_group=0,
        )
        atexit.register(self.end)

    def answers(self, places: Iterable[Place]) -> list[dict[str, Any]]:
        """What debug information says of addresses of files, as the tool prints it."""
        found: list[dict[str, Any]] = []
        for batch in batches(places):
            asked = b"".join(it for it in batch if it)
            with contextlib.suppress(OSError, ValueError):
                assert self.process.stdin is not None
                self.process.stdin.write(asked)
                self.process.stdin.flush()
            found += [self.answer() if it else {} for it in batch]
        return found

    def answer(self) -> dict[str, Any]:
        assert self.process.stdout is not None
        with contextlib.suppress(OSError, ValueError):
            row = json.loads(self.process.stdout.readline().decode("utf-8", "replace"))
            return row if isinstance(row, dict) else {}
        return {}

    def end(self) -> None:
        with contextlib.suppress(OSError, ValueError):
            self.process.communicate()


def question(place: Place) -> bytes:
    """A place as the tool reads it, or nothing where a line would be too long or isn't one."""
    file, addr = place
    asked = os.fsencode(f'"{file}" {addr:#x}\n')
    return b"" if len(asked) > MAX_QUESTION_BYTES or "\n" in file else asked


def batches(places: Iterable[Place]) -> Iterator[list[bytes]]:
    """The questions in groups that a pipe takes while nobody reads it."""
    own: list[bytes] = []
    for asked in map(question, places):
        if own and sum(map(len, own)) + len(asked) > MAX_BATCH_BYTES:
            yield own
            own = []
        own.append(asked)
    if own:
        yield own


@functools.cache
def start_symbolizer() -> Symbolizer | None:
    """The tool of this call, or none where it isn't installed."""
    tool = shutil.which("llvm-symbolizer")
    return Symbolizer(tool) if tool else None


def symbolize(places: Iterable[Place]) -> list[dict[str, Any]]:
    """What debug information says of addresses of files, as llvm-symbolizer prints it."""
    several = list(places)
    with ONE_AT_A_TIME:
        tool = start_symbolizer() if several else None
        return tool.answers(several) if tool else [{} for _ in several]
