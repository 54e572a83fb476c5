"""Files of a call that are pipes, as `<(..)` makes them: the program is run several times, and each time reads them anew."""

import contextlib
import os
import shutil
import sys
import tempfile
import threading
from typing import BinaryIO, Iterator

from view.reading.calls import Call
from view.faults import Fault
from view.reading import guard
from view.reading.engine import PIECE_BYTES
from view.reading.filtered_traces import MAGIC, is_filtered
from view.reading.settings import ASKED

FILE_OPTIONS = [it for it in ASKED if it != "--set"]


@contextlib.contextmanager
def open_as_pipe(path: str, is_read_once: bool = False) -> Iterator[int]:
    """A pipe that gets what is read of a file, or of standard input, for the standard input of a program: that opens it anew, and a pipe
    with a name may have no writer any more by then. A filtered trace isn't read once: its counts need thresholds of 1, and its end.
    """
    try:
        source: BinaryIO = (
            sys.stdin.buffer if path == "-" else open(path, "rb", 0)
        )  # noqa: SIM115 (the thread closes it)
    except OSError as error:
        raise Fault(f"{path}: {error.strerror}") from error
    first = source.read(len(MAGIC)) if is_read_once else b""
    if is_filtered(first):
        raise Fault("a filtered trace is read several times: write it to a file")
    take, give = os.pipe()
    threading.Thread(target=copy_to_pipe, args=(source, give, first), daemon=True).start()
    try:
        yield take
    finally:
        os.close(take)


def copy_to_pipe(source: BinaryIO, give: int, first: bytes = b"") -> None:
    """Copies a file into a pipe, behind what was read of it already, as long as that has a reader."""
    with contextlib.suppress(OSError), source, open(give, "wb", 0) as pipe:
        pipe.write(first)
        while piece := source.read(PIECE_BYTES):
            left = memoryview(piece)
            while left:
                left = left[pipe.write(left) :]


@contextlib.contextmanager
def copy_whole(path: str) -> Iterator[str]:
    """A copy of what can be read once, in a file that is gone afterwards."""
    with tempfile.TemporaryDirectory(prefix=guard.folder_prefix()) as folder:
        own = os.path.join(folder, "whole")
        with open_as_pipe(path) as take, open(os.dup(take), "rb") as source, open(
            own, "wb"
        ) as file:
            shutil.copyfileobj(source, file, PIECE_BYTES)
        yield own


def is_pipe(path: str) -> bool:
    return os.path.exists(path) and not os.path.isfile(path) and not os.path.isdir(path)


@contextlib.contextmanager
def copy_pipes(call: Call) -> Iterator[None]:
    """Has the words of a call name copies of the settings and the schedule where these are pipes."""
    with tempfile.TemporaryDirectory(prefix=guard.folder_prefix()) as folder:
        for at, word in enumerate(call.words):
            name, has_value, value = word.partition("=")
            before = call.words[at - 1] if at else ""
            path = (
                value
                if name in FILE_OPTIONS and has_value
                else word
                if before in FILE_OPTIONS
                else ""
            )
            if path and is_pipe(path):
                own = os.path.join(folder, str(at))
                try:
                    with open(path, "rb") as source, open(own, "wb") as file:
                        file.write(source.read())
                except OSError as error:
                    raise Fault(f"{path}: {error.strerror}") from error
                call.words[at] = f"{name}={own}" if has_value else own
        yield
