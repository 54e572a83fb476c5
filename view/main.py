"""From a report to the source: `predator view ..`. docs/VIEW.md describes its output."""

import contextlib
import functools
import gc
import io
import os
import sys
import textwrap
import traceback
from typing import TYPE_CHECKING, Callable

sys.path.insert(0, os.path.dirname(os.path.dirname(os.path.abspath(__file__))))

from view.model import comparison  # noqa: E402
from view.model import miss_rates  # noqa: E402
from view.reading.calls import (  # noqa: E402
    ALONE,
    BY,
    HELP,
    MISSES,
    OUTPUTS,
    TOP,
    Call,
    suggest_nearest,
)
from view.faults import Fault, plain  # noqa: E402
from view.model.stack_places import stack_memory  # noqa: E402
from view.model.view import View  # noqa: E402
from view.names.naming import Naming  # noqa: E402
from view.model.objects import DataObject  # noqa: E402
from view.reading.file_kinds import has_pcs  # noqa: E402
from view.reading.passes import Passes, layout_of, start_passes  # noqa: E402
from view.reading.pipes import open_as_pipe, copy_pipes  # noqa: E402
from view.reading.engine import Predator  # noqa: E402
from view.reading.recording import keep_run_trace, record_all, record_program  # noqa: E402
from view.reading.reports import Report, Symbol  # noqa: E402
from view.reading.settings import USUAL  # noqa: E402
from view.output.screen import Paint, counted, screen, width_of_screen  # noqa: E402
from view.names.source_lines import Sources  # noqa: E402
from view.model.explained_lines import explain  # noqa: E402
from view.model.filter_notes import note_filter  # noqa: E402
from view.model.fine_grain import begin_fine_run, note_fine_run, wants_all_accesses  # noqa: E402
from view.model.part_misses import note_first_misses  # noqa: E402
from view.model.miss_rates import Worth  # noqa: E402

if TYPE_CHECKING:
    from view.names.fields import Program
    from view.names.native import NativeProgram
    from view.model.trace_uses import UsesFuture

ABOVE, ENDED = 1, 3
# Where the help of an option begins.
HELP_INDENT = 21


def read(path: str) -> str:
    """A kept report's text, or the one on standard input."""
    if path == "-":
        return sys.stdin.buffer.read().decode("latin-1")
    try:
        with open(path, "rb") as file:
            return file.read().decode("latin-1")
    except OSError as error:
        raise Fault(f"{path}: {error.strerror}") from error


def say(text: object) -> None:
    print(f"predator view: {plain(text)}", file=sys.stderr)


def program_of(call: Call) -> "tuple[Program | NativeProgram | None, Sources | None]":
    """The program's debug information, and its lines; none where no program is named. What is missing for them ends the call here."""
    folders, table = [it for it in [call.options.get("sources")] if it], table_of(call)
    program: "Program | NativeProgram"
    sources: Sources
    if table:
        from view.names.native import AddressMap, NativeProgram, NativeSources

        program = native = NativeProgram(AddressMap(table))
        sources = NativeSources(native, folders)
    elif call.program:
        from view.names.fields import Program

        program = guest = Program(call.program)
        sources = Sources(call.program, folders, guest.code())
    else:
        return None, None
    if program.dwarf is None and not call.is_again:
        say(f"{program.path} has {lacking(native if table else None)}")
    for assignment in call.options["type"]:
        program.type_named(assignment.partition("=")[2])
    return program, sources


def lacking(native: "NativeProgram | None") -> str:
    """What a program has instead of debug information, what is unknown for this, and what to do."""
    package = ", or install its debug package (Debian: NAME-dbgsym)" if native else ""
    if native and native.has_go_table():
        how = f"link it without -s and -w in -ldflags{package}"
        return f"Go's function table but no types, so fields are unknown: {how}"
    how = f"build it with -g{package}"
    if native and native.has_panics():
        how += "; `near a panic at` names a panic of the same function, not the instruction itself"
    elif native and native.has_landmarks():
        how += "; `near` and `in a method of` name something that the function refers to, not the instruction itself"
    return f"no debug information, so fields and source lines are unknown: {how}"


def native_of(program: "Program | NativeProgram | None") -> "NativeProgram | None":
    """A program where it is one of this machine."""
    if program is None:
        return None
    from view.names.fields import Program

    return None if isinstance(program, Program) else program


def table_of(call: Call) -> str | None:
    """The address map of a native program: the one that is named, or that beside the trace."""
    if "map" in call.options or call.program or call.action != "replay":
        return call.options.get("map")
    from view.names.native import find_address_map

    return find_address_map(call.subject)


def stranger(call: Call, program: "Program | NativeProgram", report: Report) -> str | None:
    """A symbol of the report or of its trace that the program hasn't, or none."""
    from view.names.fields import Program
    from view.reading.trace_records import variables_of

    if not isinstance(program, Program):
        return program.mismatch(report)
    known = program.symbols()
    seen = [obj for line in report.lines[:1000] for obj in line.objects()]
    trace = call.trace_file()
    for obj in [*seen, *(variables_of(trace) if trace else ())]:
        if isinstance(obj, Symbol) and (obj.addr, obj.size) not in known:
            return f"no symbol {obj.name} of {obj.size:,} bytes at {obj.addr:#010x}"
    return None


def report_of(call: Call, predator: Predator | None) -> Report:
    if predator is None:
        return Report(read(call.subject), call.subject)
    if not call.reads_trace_once():
        return predator.read_report([call.action, *call.report_words(), *call.guest_words])
    with open_as_pipe(call.subject, is_read_once=True) as trace:
        return predator.read_report([call.action, *call.words_of_pipe()], stdin=trace)


def has_variable(program: "Program | NativeProgram", name: str) -> bool:
    """Whether debug information has a variable of a name, which may lie on a stack."""
    from view.names.fields import Program

    own = program if isinstance(program, Program) else program.main
    own.scan_variables()
    return name in own.named_variables


def check_name(name: str | None, naming: Naming) -> None:
    """Refuses the name of an object that the program hasn't: a test of it would always pass."""
    program = naming.program
    if name is None or program is None or ":" in name or " " in name:
        return
    known = {naming.readable_name(it) for it in program.symbols().values()}
    if name not in known and not has_variable(program, name):
        near = suggest_nearest(name, known).strip()
        raise Fault(f"{program.path} has no variable '{name}'{near and '; '}{near}")


def check_seen(view: View) -> None:
    """Refuses a test of an object that isn't in the report, where the program may have none of that name."""
    name = view.call.options.get("object")
    if name is not None and not view.chosen_objects():
        if view.naming.program is None and "fail-above" in view.call.options:
            raise Fault(
                f"'{name}' isn't in the report: add '--program' to check that there is such a variable"
            )
        program, trace = view.naming.program, view.call.trace_file()
        is_local = program and view.call.action != "run" and name not in program.symbols().values()
        if program and is_local and has_variable(program, name) and trace and not has_pcs(trace):
            raise Fault(
                f"'{name}' may lie on a stack, where nothing has a name without pcs: leave out '--explain 0' and '--no-pcs'"
            )
        check_name(name, view.naming)


def read_ahead(view: View, predator: Predator | None) -> "UsesFuture":
    """Begins to read who uses which words of the trace."""
    from view.model.trace_uses import begin_reading

    return begin_reading(view, predator)


def count_bytes(view: View, predator: Predator | None, reading: "UsesFuture") -> None:
    """Has the misses of lines counted by bytes where threads use different bytes of words."""
    from view.model.byte_sharing import count_mixed_lines
    from view.model.trace_uses import read_uses_once

    count_mixed_lines(view, predator, read_uses_once(view, predator, reading))


def find_stack_variables(view: View, predator: Predator | None) -> None:
    """Looks for the variables that lie on contended lines of stacks."""
    if view.naming.program is not None:
        from view.model.stack_variables import note_stack_variables

        note_stack_variables(view, predator)


def trial_of(
    view: View, predator: Predator | None, reading: "UsesFuture"
) -> Callable[[list[DataObject]], None] | None:
    """What tries the repairs of some objects once their misses are counted, or none where no type is known."""
    program = view.naming.program
    if program is None or program.dwarf is None:
        return None
    from view.repairs.trials import try_objects

    return functools.partial(try_objects, view, predator, reading=reading)


def look(call: Call) -> View:
    """All that is found."""
    if "html" in call.options:
        from view.output.drawings import templates

        templates()
    predator = Predator() if call.action != "file" else None
    call.check_filtered_trace((layout_of(call) or (USUAL["line"], 0))[0])
    with start_passes(call, predator) as passes, contextlib.suppress(RecordedAgain):
        return found(call, predator, passes)
    return look(call)


class RecordedAgain(Exception):
    """The call names another trace from now on, which has all accesses."""


def found(call: Call, predator: Predator | None, passes: Passes | None) -> View:
    program, sources = program_of(call)
    if call.action == "run":
        check_name(call.options.get("object"), Naming(None, program))
    report = report_of(call, predator)
    strange = stranger(call, program, report) if program and call.action != "run" else None
    if strange:
        named = (
            f"{call.program} isn't the program"
            if call.program
            else f"{table_of(call)} isn't the address map"
        )
        say(f"{named} of this report and isn't used: it has {strange}")
        call.program = program = sources = None
    memory = stack_memory(call, predator, native_of(program))
    view = View(call, report, Naming(report, program, sources, call.options["type"], memory))
    view.worth = Worth(view, miss_rates.begin_count(call, predator, (report.size, report.offset)))
    reading = read_ahead(view, predator)
    begin_fine = functools.partial(begin_fine_run, call, report, view.accesses, look_again)
    # (a filtered recording may be replaced by a whole one first)
    fine = begin_fine() if view.filtered is None else None
    trial = trial_of(view, predator, reading)
    note_filter(view)
    view.count_misses(predator, passes)
    note_first_misses(view, predator)
    count_bytes(view, predator, reading)
    if wants_all_accesses(view) and record_all(call):
        raise RecordedAgain
    if view.filtered is not None:
        fine = begin_fine()
    view.look_for_overflow(predator)
    if report.outcome in ("deadlock", "budget"):
        from view.model.waiting_harts import note_waiting

        note_waiting(view, predator)
    find_stack_variables(view, predator)
    view.group_by_objects()
    check_seen(view)
    first = view.listed_objects()[: call.number_option("top", TOP)]
    explain(view, predator, first)
    first = view.listed_objects()[: call.number_option("top", TOP)]
    if trial:
        trial(first)
    view.place_objects(predator, first)
    view.note_unmatched_options()
    note_fine_run(view, fine)
    return view


def look_again(call: Call, predator: Predator) -> View:
    """What the same program shows in another run."""
    with start_passes(call, predator) as passes:
        return found(call, predator, passes)


def is_above(view: View) -> bool:
    """Whether an object has more than the call allows, with a message for each."""
    most, by = view.call.number_option("fail-above", 0), view.call.options.get("by", BY[0])
    if by in MISSES and view.misses is None:
        raise Fault(
            "false-sharing misses are unknown here: use '--fail-above' with '--by invalidations'"
        )
    found = False
    for obj in view.chosen_objects():
        # (`count` is the former name, of what the report lists)
        much = (
            obj.useless if by in MISSES else obj.count if by == "count" else view.invalidations(obj)
        )
        if much > most:
            what = counted(much, "false-sharing miss" if by in MISSES else "invalidation")
            say(f"{view.label(obj)} has {what}, more than {most:,}")
            found = True
    return found


def status_of(view: View) -> int:
    if "fail-above" not in view.call.options:
        return 0
    if not view.report.ended_well():
        return ENDED
    if view.missing_harts:
        say(view.missing_harts)
        return ENDED
    if not view.report.accesses:
        say("nothing was recorded, so there is nothing to test")
        return ENDED
    return ABOVE if is_above(view) else 0


def write(path: str, text: str) -> None:
    if path == "-":
        print(text, end="")
        return
    try:
        with open(path, "w", encoding="utf-8", errors="backslashreplace") as file:
            file.write(text)
    except OSError as error:
        raise Fault(f"{path}: {error.strerror}") from error


def is_same(one: str, other: str) -> bool:
    """Whether two names are of one file, be it there or not."""
    if os.path.exists(one) and os.path.exists(other):
        return os.path.isfile(one) and os.path.samefile(one, other)
    return os.path.realpath(one) == os.path.realpath(other)


def keep_inputs(call: Call) -> None:
    """Refuses an output that is an input, an output of the program or another output, and one without a folder."""
    taken = [
        path
        for path in (
            call.subject,
            call.program,
            table_of(call),
            *call.words,
            *(word.partition("=")[2] for word in call.words),
        )
        if path and path != "-"
    ]
    if [call.options.get(name) for name in OUTPUTS].count("-") > 1:
        raise Fault("only one output can be `-`, standard output")
    for name in OUTPUTS:
        path, old = call.options.get(name), call.options.get("against") if name != "json" else None
        if path is None or path == "-":
            continue
        if any(is_same(path, other) for other in (*taken, *([old] if old else []))):
            raise Fault(
                f"{path} is used twice: outputs must differ from each other and from inputs"
            )
        if not os.path.isdir(os.path.dirname(path) or "."):
            raise Fault(f"{path}: No such file or directory")
        taken.append(path)


def outputs(view: View) -> None:
    """Writes the files that the call names."""
    options = view.call.options
    if "patch" in options:
        from view.repairs.call_patch import patch_text

        write(options["patch"], patch_text(view))
    if "json" in options:
        from view.output.exports import json_text

        write(options["json"], json_text(view))
    if "sarif" in options:
        from view.output.exports import sarif_text

        write(options["sarif"], sarif_text(view))
    if "html" in options:
        from view.output.page import page

        text = page(view)
        if "live" in options:
            from view.output.page_app import add_app

            text = add_app(text, view.call)
        write(options["html"], text)


def show(call: Call) -> int:
    """Runs a call, and returns its status."""
    keep_inputs(call)
    if call.action in ALONE:
        return show_alone(call)
    # (before --json writes to the same file)
    old = comparison.load_view(call.options["against"], call) if "against" in call.options else None
    with copy_pipes(call), record_program(call), keep_run_trace(call):
        view = look(call)
        outputs(view)
        if all(call.options.get(it) != "-" for it in OUTPUTS):
            print_view(view, old)
    sys.stdout.flush()
    return status_of(view)


def show_alone(call: Call) -> int:
    from view.output.caches import show as caches
    from view.output.sweep import show as sweep

    rows, page = (sweep if call.action == "sweep" else caches)(call)
    if page is not None:
        write(call.options["html"], page)
    if call.options.get("html") != "-":
        print(*rows, sep="\n")
    sys.stdout.flush()
    return 0


def print_view(view: View, old: comparison.Before | None) -> None:
    """Prints the screen, and the comparison."""
    for row in screen(view, Paint(), width_of_screen()):
        print(row)
    if old is not None:
        for row in comparison.compare_views(view, old, view.call.options["against"]):
            print(row)
    if "perf" in view.call.options:
        from view.reading.perf_samples import perf_rows

        print(*perf_rows(view, view.call.options["perf"]), sep="\n")


def fold_help(text: str, width: int) -> str:
    """The page of options in so many columns: what goes on in the next row is one row first."""
    rows: list[str] = []
    for row in text.split("\n"):
        is_begin = not rows or not row or not rows[-1] or row.startswith(("  --", " " * 7 + "p"))
        if is_begin or row.startswith(("usage", "Words", "Options", "Status")):
            rows.append(row)
        else:
            rows[-1] += f" {row.strip()}"
    found = []
    for row in rows:
        is_usage = row.startswith(("usage", " " * 7))
        begin = " " * (HELP_INDENT if row.startswith("  --") else 11 if is_usage else 0)
        found += textwrap.wrap(row, width, subsequent_indent=begin, break_on_hyphens=False) or [""]
    return "\n".join(found)


def main(words: list[str]) -> int:
    # (millions of lines live as long as the call, and none goes round in a ring)
    gc.disable()
    # (Python has no stream for a file that was closed when the program began)
    output: object = sys.stdout
    if output is None:
        say("standard output is closed")
        return 2
    for stream in (sys.stdout, sys.stderr):
        if isinstance(stream, io.TextIOWrapper):
            stream.reconfigure(errors="backslashreplace")
    try:
        if words[:1] == ["--page-app"]:
            from view.output.page_app import write_app

            return write_app(words[1:])
        call = Call(words)
        if "help" in call.options:
            print(fold_help(HELP, width_of_screen()) if sys.stdout.isatty() else HELP)
            return 0
        return show(call)
    except Fault as fault:
        for row in f"predator view: {fault}".split("\n"):
            print(plain(row), file=sys.stderr)
        return fault.status
    except BrokenPipeError:
        # (who read this has seen enough)
        os.dup2(os.open(os.devnull, os.O_WRONLY), 1)
        return 0
    except OSError as error:
        os.dup2(os.open(os.devnull, os.O_WRONLY), 1)
        say(f"{error.filename or 'standard output'}: {error.strerror}")
    except KeyboardInterrupt:
        return 130
    except MemoryError:
        say("out of memory")
    except Exception:  # (an uncaught one would end with 1, the status of --fail-above)
        traceback.print_exc()
    return 2


if __name__ == "__main__":
    sys.exit(main(sys.argv[1:]))
