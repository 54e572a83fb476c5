"""The process that stands before a call that records: however the call ends, no process and no temporary file of it stays."""

import contextlib
import ctypes
import glob
import os
import re
import shutil
import signal
import sys
import tempfile
from types import FrameType
from typing import Iterator, NoReturn

# From linux/prctl.h.
PR_SET_PDEATHSIG, PR_SET_CHILD_SUBREAPER = 1, 36
# The signals that this process hands on to the one that does the work.
HANDED_ON = (signal.SIGTERM, signal.SIGHUP)
# What the working process gets where this one is killed.
LEFT_ALONE = signal.SIGUSR1
PREFIX = re.compile(r"predator-(?:view|native)-.+\.[0-9]+\.[0-9]+\.[0-9]+-")


def prctl(option: int, value: int) -> None:
    ctypes.CDLL(None).prctl(option, value, 0, 0, 0)


def start_time(process: int) -> str:
    """When a process started, in the kernel's ticks; an empty text where there is no such process."""
    with contextlib.suppress(OSError, IndexError), open(f"/proc/{process}/stat", "rb") as file:
        fields = file.read().rpartition(b")")[2].split()
        return "" if fields[0] in (b"Z", b"X") else fields[19].decode()
    return ""


def place() -> str:
    """The machine and the namespace that a process number is of."""
    with contextlib.suppress(OSError):
        return f"{os.uname().nodename}.{os.stat('/proc/self/ns/pid').st_ino}".replace("/", "_")
    return f"{os.uname().nodename}.0".replace("/", "_")


def folder_prefix(process: int | None = None) -> str:
    """What the name of a process's temporary folder begins with: it names the process."""
    number = os.getpid() if process is None else process
    return f"predator-view-{place()}.{number}.{start_time(number)}-"


def remove_folders(prefix: str) -> None:
    for path in glob.glob(
        os.path.join(glob.escape(tempfile.gettempdir()), glob.escape(prefix) + "*")
    ):
        shutil.rmtree(path, ignore_errors=True)


def remove_abandoned() -> None:
    """Removes the temporary folders of this machine's calls whose process is gone."""
    own, folder = place(), tempfile.gettempdir()
    for name in os.listdir(folder) if os.path.isdir(folder) else ():
        found = PREFIX.match(name)
        if not found:
            continue
        where, process, began = found[0][:-1].partition("-")[2].partition("-")[2].rsplit(".", 2)
        if where == own and start_time(int(process)) != began:
            shutil.rmtree(os.path.join(folder, name), ignore_errors=True)


@contextlib.contextmanager
def own_folder() -> Iterator[str]:
    """A temporary folder that names this process, in which further ones are made as long as it is there."""
    before = tempfile.tempdir
    with tempfile.TemporaryDirectory(prefix=folder_prefix(), ignore_cleanup_errors=True) as folder:
        tempfile.tempdir = folder
        try:
            yield folder
        finally:
            tempfile.tempdir = before


def children() -> list[int]:
    """The processes that this one's threads have started, and those that it was given."""
    found: list[int] = []
    for path in glob.glob("/proc/self/task/*/children"):
        with contextlib.suppress(OSError), open(path, encoding="ascii") as file:
            found += map(int, file.read().split())
    return found


def end_children() -> None:
    """Kills what this process has started, and what these have."""
    prctl(PR_SET_CHILD_SUBREAPER, 1)
    with contextlib.suppress(ChildProcessError):
        while True:
            for child in children():
                with contextlib.suppress(ProcessLookupError):
                    os.kill(child, signal.SIGKILL)
            os.waitpid(-1, 0)


def divide() -> None:
    """Goes on in a process of its own. This one waits for it, hands signals on to it, and ends as it does; where either is killed, the
    other one ends all that the call has started, and removes its folders."""
    sys.stdout.flush()
    sys.stderr.flush()
    front, prefixes = os.getpid(), [folder_prefix()]
    temporary = tempfile.gettempdir()
    waited_for = {*HANDED_ON, signal.SIGCHLD, LEFT_ALONE}
    waited_for = {
        signum
        for signum in waited_for
        if signal.getsignal(signum) is not signal.SIG_IGN or signum not in HANDED_ON
    }
    before = signal.pthread_sigmask(signal.SIG_BLOCK, {*waited_for, signal.SIGINT, signal.SIGQUIT})
    signal.signal(signal.SIGCHLD, signal.SIG_DFL)
    prctl(PR_SET_CHILD_SUBREAPER, 1)
    worker = os.fork()
    if worker:
        prefixes.append(folder_prefix(worker))
        guard(worker, waited_for, prefixes)

    def end(number: int, frame: FrameType | None) -> None:
        tempfile.tempdir = temporary
        end_children()
        for prefix in (*prefixes, folder_prefix()):
            remove_folders(prefix)
        os._exit(128 + signal.SIGKILL)

    signal.signal(LEFT_ALONE, end)
    prctl(PR_SET_PDEATHSIG, LEFT_ALONE)
    # (an interrupt ends this process at once, and the other one cleans up)
    if signal.getsignal(signal.SIGINT) is not signal.SIG_IGN:
        signal.signal(signal.SIGINT, signal.SIG_DFL)
    signal.pthread_sigmask(signal.SIG_SETMASK, before - {LEFT_ALONE})
    if os.getppid() != front:
        end(LEFT_ALONE, None)


def guard(worker: int, waited_for: set[signal.Signals], prefixes: list[str]) -> NoReturn:
    """Waits for the working process, and ends as it does."""
    while True:
        number = signal.sigwait(waited_for)
        if number in HANDED_ON:
            os.kill(worker, number)
        while True:
            ended, status = os.waitpid(-1, os.WNOHANG)
            if ended == worker:
                finish(status, prefixes)
            if ended == 0:
                break


def finish(status: int, prefixes: list[str]) -> NoReturn:
    """Ends this process as the working one did."""
    if os.WIFSIGNALED(status):
        end_children()
        for prefix in prefixes:
            remove_folders(prefix)
        os._exit(128 + os.WTERMSIG(status))
    os._exit(os.WEXITSTATUS(status))
