"""Allocators from the command line: `predator allocators ..`. docs/ALLOCATORS.md describes them."""

import os
import shutil
import sys
import tempfile
import traceback
from typing import TYPE_CHECKING, Callable, Sequence

HERE = os.path.dirname(os.path.abspath(__file__))
sys.path.insert(0, os.path.dirname(os.path.dirname(HERE)))

from view.faults import Fault, plain  # noqa: E402
from native.allocators import calls  # noqa: E402
from native.allocators.calls import Call  # noqa: E402

if TYPE_CHECKING:
    from native.allocators.driver_builds import Driver
    from native.allocators.recording import Recorder, Run
    from native.allocators.results import Results, Row

PACKAGES = "apt-get install python3-pyelftools python3-jinja2 llvm"
INTERRUPTED = 130
LEFT_OUT, FAILED = "left out", "failed"


def warn(text: object) -> None:
    for row in str(text).split("\n"):
        print(f"predator allocators: {plain(row)}", file=sys.stderr)


class Progress:
    """The run that is under way, as one line of a terminal."""

    def __init__(self, count: int) -> None:
        self.count, self.done, self.is_shown = count, 0, sys.stderr.isatty()

    def show(self, text: str) -> None:
        self.done += 1
        self.update(text)

    def update(self, text: str) -> None:
        if self.is_shown:
            line = plain(f"{self.done} of {self.count}: {text}")
            print(f"\r\033[K{line[:100]}", end="", file=sys.stderr, flush=True)

    def clear(self) -> None:
        if self.is_shown:
            print("\r\033[K", end="", file=sys.stderr, flush=True)


def chosen_drivers(call: Call) -> "list[Driver]":
    from native.allocators.driver_builds import DRIVERS, find_driver

    return [find_driver(it) for it in call.drivers] if call.drivers else list(DRIVERS)


def native_runs(call: Call) -> "list[Run]":
    """The runs of a call, in the order of the table."""
    from native.allocators.libraries import choose_allocators
    from native.allocators.recording import Run

    found = []
    chosen = chosen_drivers(call)
    for allocator in choose_allocators(call.libraries):
        for driver in chosen:
            for threads in call.threads:
                for size in call.sizes if driver.takes_size else [0]:
                    found.append(Run(allocator, driver, threads, size))
    return found


def run_head(run: "Run") -> "Row":
    return {
        "run": run.name(),
        "allocator": run.allocator.name,
        "driver": run.driver.name,
        "threads": run.threads,
        "size": run.size,
    }


def native_key(run: "Run", call: Call, program: str) -> str:
    """What a result depends on, as a name."""
    from native.allocators import driver_builds, results

    library = run.allocator.path or "/lib/x86_64-linux-gnu/libc.so.6"
    inputs = {
        "library": results.file_sum(os.path.realpath(library)),
        "name": run.name(),
        "driver": driver_builds.source_sum(run.driver),
        "quantum": call.quantum,
        "program": results.file_sum(program),
        "counting": results.own_sum(),
        "traces": call.keeps_traces,
    }
    return results.key_of(inputs)


def measure_native(run: "Run", call: Call, recorder: "Recorder", kept: "Results") -> "Row":
    """The row of a run, which is made."""
    from native.allocators import results
    from native.allocators.recording import Failure

    lacking = run.allocator.lacks(run.driver.functions)
    if lacking:
        return {**run_head(run), "state": LEFT_OUT, "reason": f"it lacks {', '.join(lacking)}"}
    with tempfile.TemporaryDirectory(dir=recorder.folder) as folder:
        trace = os.path.join(folder, "trace")
        try:
            recorder.record(run, trace)
            measured = recorder.measure(run, trace)
        except Failure as failure:
            warn(f"{run.describe()}: {failure}")
            return {**run_head(run), "state": FAILED, "reason": str(failure)}
        if call.keeps_traces:
            for suffix in ("", ".table"):
                shutil.move(trace + suffix, kept.trace_path(run.name()) + suffix)
    numbers = results.numbers_of(measured.placement, measured.findings)
    return {**run_head(run), "state": "measured", **numbers}


def make_native_rows(call: Call, kept: "Results") -> "list[Row]":
    from native.allocators.recording import Recorder, check_recorder

    runs = native_runs(call)
    check_recorder()
    progress, rows = Progress(len(runs)), list["Row"]()
    # (how long its name is doesn't depend on the folder of the results, nor does what is recorded)
    with tempfile.TemporaryDirectory(prefix="predator-allocators-") as folder:
        recorder = Recorder(os.path.abspath(folder), call.limit, call.quantum)
        program = recorder.predator.direct_command()
        try:
            for run in runs:
                progress.show(run.describe())
                key = native_key(run, call, program)
                row = kept.read(key)
                if row is None:
                    row = measure_native(run, call, recorder, kept)
                    if row["state"] != FAILED:
                        kept.write(key, row)
                rows.append(row)
        except KeyboardInterrupt:
            progress.clear()
            warn(f"interrupted after {len(rows)} of {len(runs)} runs: the same call goes on")
            raise
        progress.clear()
    return rows


def version_line() -> str:
    import subprocess
    from view.reading.engine import launcher

    ran = subprocess.run([launcher(), "--version"], capture_output=True, text=True)
    return ran.stdout.partition("\n")[0]


def write_file(path: str, text: str) -> None:
    try:
        with open(path, "w", encoding="utf-8", errors="backslashreplace") as file:
            file.write(text)
    except OSError as error:
        raise Fault(f"{path}: {error.strerror}") from error


def check_outputs(call: Call) -> None:
    """Refuses files that can't be written, before anything runs."""
    for path in filter(None, (call.html, call.json)):
        if os.path.isdir(path):
            raise Fault(f"{path}: Is a directory")
        if not os.path.isdir(os.path.dirname(path) or "."):
            raise Fault(f"{path}: No such file or directory")
        if path in call.libraries or path in call.guests:
            raise Fault(f"{path}: the output would overwrite an input")
    if call.html is not None and call.html == call.json:
        raise Fault("the outputs of --html and --json must differ")


def gated_rows(call: Call, rows: "Sequence[Row]") -> "list[Row]":
    """The rows that --fail-above judges: natively not those of the C library, unless the call names it or no LIB."""
    from native.allocators.libraries import C_LIBRARY

    is_named = bool(call.guests) or not call.libraries or C_LIBRARY in call.libraries
    return [it for it in rows if is_named or it["allocator"] != C_LIBRARY]


def report(call: Call, rows: "list[Row]") -> int:
    """Prints and writes the table, and gives the status."""
    from native.allocators import tables

    print(*tables.table_text(rows), sep="\n")
    print(*tables.own_data_text(rows), sep="\n")
    if call.json is not None:
        write_file(call.json, tables.json_text(rows, version_line()))
    if call.html is not None:
        from native.allocators.page import page_text

        write_file(call.html, page_text(rows, version_line()))
    failures = []
    if call.fail_above is not None:
        failures = tables.gate_failures(gated_rows(call, rows), call.gate, call.fail_above)
    for text in failures:
        warn(text)
    return 1 if failures or any(it["state"] == FAILED for it in rows) else 0


def run_call(words: Sequence[str]) -> int:
    call = calls.parse_call(words)
    if call.wants_help:
        print(calls.HELP)
        return 0
    try:
        from native.allocators import results
        from view.names import native  # noqa: F401
    except ImportError as error:
        raise Fault(f"the module {error.name} isn't installed: {PACKAGES}", 127) from error
    check_outputs(call)
    make_rows: Callable[[Call, "Results"], "list[Row]"] = make_native_rows
    if call.guests:
        from native.allocators.guests import make_guest_rows

        make_rows = make_guest_rows
    with results.open_results(call.folder) as kept:
        rows = make_rows(call, kept)
    return report(call, rows)


def main(words: Sequence[str]) -> int:
    try:
        return run_call(words)
    except Fault as fault:
        warn(fault)
        return fault.status
    except KeyboardInterrupt:
        return INTERRUPTED
    except BrokenPipeError:
        # (who read this has seen enough)
        os.dup2(os.open(os.devnull, os.O_WRONLY), 1)
        return 0
    except OSError as error:
        warn(f"{error.filename or 'standard output'}: {error.strerror}")
    except Exception:  # (an uncaught one would end with 1, the status of --fail-above)
        traceback.print_exc()
    return 2


if __name__ == "__main__":
    sys.exit(main(sys.argv[1:]))
