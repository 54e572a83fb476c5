"""Runs a driver with an allocator under the recorder, within limits, and says why a run failed."""

import contextlib
import os
import re
import signal
import subprocess
from dataclasses import dataclass

from native.allocators import driver_builds
from native.allocators.driver_builds import Driver
from native.allocators.libraries import Allocator, encode_soname
from native.allocators.findings import Findings, NativeInstructions, split_misses
from native.allocators.lives import Placement, counts_every_block, measure_placement, read_blocks
from view.faults import Fault
from view.reading import guard
from view.reading.engine import Predator, blame_reader, launcher, misses_reader
from view.reading.reports import Blame, Misses

# The loader preloads a library for the driver alone, and not for the shells that start it.
LOADER = "/lib64/ld-linux-x86-64.so.2"
VALGRIND = "/usr/bin/valgrind.bin"
LAYOUT = (64, 0)
MAX_TRACE = "256M"
KILLED_SECONDS = 5
# What the recorder needs of the environment.
PATH = "/usr/local/sbin:/usr/local/bin:/usr/sbin:/usr/bin:/sbin:/bin"
KEPT_VARIABLES = (
    *("HOME", "XDG_CACHE_HOME", "TMPDIR"),
    *("PREDATOR", "PREDATOR_PROGRAM", "PREDATOR_BUILD"),
)
NOT_BUILT = "the recorders aren't built"
# Why a trace ends early, by the last row of its address map.
ENDS = {
    "addresses": "it maps more than the 4080 MiB of addresses that the recorder has",
    "max-disk": f"its trace is longer than {MAX_TRACE}",
    "disk": "the disk is full",
    "threads": "it has more than 256 threads",
    "exec": "it became another program",
    "error": "the trace could not be written",
}
# Where valgrind says that a program crashed: the functions, the innermost first, but the recorder's own.
CRASH_PLACE = re.compile(r"==\d+==\s+(?:at|by) 0x[0-9A-F]+: (?!.*vgpreload_)(.*)")


class Failure(Exception):
    """A run that has no result, and why."""


@dataclass(frozen=True)
class Run:
    """A driver with an allocator, so many threads, and blocks of a size; the size is 0 where it has no meaning."""

    allocator: Allocator
    driver: Driver
    threads: int
    size: int

    def name(self) -> str:
        size = f" {self.size}" if self.driver.takes_size else ""
        return f"{self.allocator.name} {self.driver.name} {self.threads}{size}"

    def describe(self) -> str:
        size = f" of {self.size} bytes" if self.driver.takes_size else ""
        return f"{self.allocator.name}, driver {self.driver.name} ({self.threads} threads{size})"


@dataclass(frozen=True)
class Measured:
    """What a trace of a driver came to."""

    placement: Placement
    findings: Findings


def check_recorder() -> None:
    """Refuses to go on where nothing can be recorded."""
    if not os.access(VALGRIND, os.X_OK):
        raise Fault(f"valgrind isn't installed: {driver_builds.PACKAGES}", 127)
    if not os.path.exists(LOADER):
        raise Fault(f"there is no {LOADER}: allocators are run on x86-64 Linux alone", 126)


def find_reason(text: str) -> str:
    """What standard error says of a run that failed: that the recorder lacks addresses, the place of a crash, or its
    last line."""
    lines = [it.strip() for it in text.splitlines() if it.strip()]
    refused = next((it for it in lines if "GiB of addresses" in it), None)
    place = next(filter(None, map(CRASH_PLACE.match, lines)), None)
    own = [it for it in lines if not it.startswith(("valgrind: ", "=="))]
    reason = refused or (f"at {place[1]}" if place else own[-1] if own else "")
    return reason.removeprefix("predator native: ")


def plain_environment() -> dict[str, str]:
    """The environment of a run. It lies on the first thread's stack, so a longer one would move what is recorded."""
    kept = {name: os.environ[name] for name in KEPT_VARIABLES if name in os.environ}
    return {**kept, "PATH": PATH, "LC_ALL": "C", "LD_BIND_NOW": "1"}


def run_limited(words: list[str], seconds: float) -> tuple[int | None, str]:
    """The status of a command, or none where it took longer, and what it printed on standard error. Whatever it has
    started ends with it."""
    ran = subprocess.Popen(
        words,
        stdin=subprocess.DEVNULL,
        stdout=subprocess.DEVNULL,
        stderr=subprocess.PIPE,
        env=plain_environment(),
        cwd="/",
        start_new_session=True,
        preexec_fn=lambda: guard.prctl(guard.PR_SET_PDEATHSIG, signal.SIGTERM),
    )
    try:
        text = ran.communicate(timeout=seconds)[1]
        return ran.returncode, text.decode("utf-8", "replace")
    except subprocess.TimeoutExpired:
        return None, ""
    finally:
        for number in (signal.SIGTERM, signal.SIGKILL):
            # (what it has started is of its group, which is ours alone)
            with contextlib.suppress(ProcessLookupError, subprocess.TimeoutExpired):
                os.killpg(ran.pid, number)
                ran.wait(KILLED_SECONDS)


class Recorder:
    """Records runs, in a folder for what is built and written meanwhile."""

    def __init__(self, folder: str, seconds: float, quantum: int) -> None:
        self.folder, self.seconds, self.quantum = folder, seconds, quantum
        self.predator = Predator()
        self.built: dict[str, str] = {}

    def driver_path(self, driver: Driver) -> str:
        if driver.name not in self.built:
            self.built[driver.name] = driver_builds.build_driver(driver, self.folder)
        return self.built[driver.name]

    def preloaded(self, allocator: Allocator) -> list[str]:
        """The libraries that a driver is given for an allocator."""
        if allocator.is_c_library():
            return []
        path = allocator.path
        if re.search(r"[\s:]", path):
            # (the loader parts names there)
            path = os.path.join(self.folder, f"library-{allocator.name}".replace(" ", "-"))
            path = path.replace(":", "-")
            if not os.path.lexists(path):
                os.symlink(allocator.path, path)
        if not allocator.has_operator_new():
            return [path]
        soname = encode_soname(allocator.soname)
        if soname not in self.built:
            self.built[soname] = driver_builds.build_note(soname, self.folder)
        return [path, self.built[soname]]

    def record(self, run: Run, trace: str) -> None:
        """Has a driver recorded, or says why it wasn't."""
        words = [launcher(), "native", "--marked", "--quantum", str(self.quantum)]
        words += ["--trace", trace, "--max-disk", MAX_TRACE, "--", LOADER]
        preloaded = self.preloaded(run.allocator)
        if preloaded:
            words += ["--preload", ":".join(preloaded)]
        words += [self.driver_path(run.driver), str(run.threads), str(run.size or 8)]
        status, text = run_limited(words, self.seconds)
        if status is None:
            raise Failure(f"it ran for more than {self.seconds:g} seconds")
        if NOT_BUILT in text:
            raise Fault(f"{NOT_BUILT}: run predator native --build", 126)
        if "cannot be preloaded" in text:
            reason = next(it for it in text.splitlines() if "cannot be preloaded" in it)
            raise Failure(f"the library could not be loaded: {reason.partition(' from ')[0]}")
        check_end(status, text, f"{trace}.table")

    def measure(self, run: Run, trace: str) -> Measured:
        """What a recorded trace comes to."""
        instructions = NativeInstructions(f"{trace}.table", run.allocator.path)
        if run.allocator.path and not instructions.has_loaded(run.allocator.path):
            raise Failure("the library was not loaded")
        blocks = read_blocks(self.plain_trace(trace), counts_every_block)
        if not blocks:
            raise Failure(
                "the recorder saw none of its blocks: its malloc has another name or is static"
            )
        placement = measure_placement(blocks)
        misses, blame = self.predator.read_trace_by_all(
            trace, [misses_reader(LAYOUT), blame_reader(LAYOUT)]
        )
        assert isinstance(misses, Misses) and isinstance(blame, Blame)
        findings = split_misses(
            misses, blame, placement.lines, instructions.is_own, instructions.names
        )
        return Measured(placement, findings)

    def plain_trace(self, trace: str) -> str:
        """The same trace in version 1, in which each access has eight bytes."""
        for at in (2, 1):
            self.predator.quiet_output(["convert", "--", trace, f"{trace}.{at}"])
            trace = f"{trace}.{at}"
        return trace


def check_end(status: int, text: str, map_path: str) -> None:
    """Refuses a run that did not end well."""
    word = ""
    with contextlib.suppress(OSError), open(map_path, encoding="utf-8", errors="replace") as file:
        ends = [it.split() for it in file if it.startswith("end ")]
        word = ends[-1][2] if ends else ""
    if word in ENDS:
        raise Failure(ENDS[word])
    said = find_reason(text)
    beside = f" ({said})" if said else ""
    if status >= 128 or status < 0:
        number = status - 128 if status > 0 else -status
        known = {it.value for it in signal.Signals}
        name = signal.Signals(number).name if number in known else f"signal {number}"
        raise Failure(f"it was ended by {name}{beside}")
    if status:
        raise Failure(f"it ended with status {status}{beside}")
    if word != "exit":
        raise Failure(f"its trace has no end{beside}")
