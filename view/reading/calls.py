"""The arguments of a call of view."""

import difflib
import functools
import os
import re
from typing import Any, Iterable, Iterator, NamedTuple, Sequence

from view.faults import Fault
from view.reading import filtered_traces
from view.reading.filtered_traces import Filter, read_filter
from view.reading.file_kinds import KIND_NAMES, Action, action_for, is_report
from view.reading.settings import ASKED, BARE, KEYS, OPTIONS, USUAL, WRITTEN

USAGE = """usage: predator view run PROGRAM [options of run] [OPTIONS] [-- WORD ..]
       predator view replay TRACE [options of replay] [--program PROGRAM] [OPTIONS]
       predator view native PROGRAM [options of native] [OPTIONS] [-- WORD ..]
       predator view sweep TRACE --size N [--top N] [--html F]
       predator view caches TRACE [--shape 64x64x8 ..] [--top N] [--html F]
       predator view REPORT [--program PROGRAM] [OPTIONS]          (the report - is standard input)
       predator view FILE ..          (a program or a trace: as run, native or replay, by what the file is)
       predator view --page-app F     (a page that counts files by itself, in a browser)"""
HELP = (
    USAGE
    + """

Shows the contended objects of a program, a recorded trace or a kept report, the worst first, with their fields, source lines, threads and
fixes. docs/VIEW.md walks through it.

Options:
  --program P        the program of the trace or the report, for the names of fields and source lines
  --map FILE         the same for a native program: the address map that `predator native` wrote (TRACE.table is found by itself)
  --top N            show N objects (10)
  --object NAME      show this object and those that share lines with it, no others
  --words            list the words of each object's lines, and all conflicting instructions of its worst line; for a trace above
                     10,000,000 accesses also count predicted lines, and try fixes on the whole trace
  --library          show the objects of the C library, of Go's runtime and of the kernel one by one
  --predicted        show all predicted lines, also those that add no false sharing
  --no-predicted     count and show no predicted lines
  --explain N        find the conflicting instructions of the first N objects (3), with one run each; 0 for none. A trace with program
                     counters names those of all objects
  --whole            record all accesses of a program of this machine; usually those that change no cache are left out
  --filtered[=N]     leave them out in any case: lines of at most N / 2 bytes keep their counts, N a power of two (4096)
  --fine             also run a program of more than 4,000,000 accesses at a quantum of 3, to find what is contended only there, and
                     say why where that can't be
  --no-fine          run a program at the given quantum only
  --type SITE=TYPE   the type of the blocks of a call site, as arena.c:78=node: a type, or a pointer variable
  --sources DIR      the folder of the sources, if they moved
  --shape SHAPE      for `view caches`: a cache, as 64x16x2 for 16 sets of 2 lines of 64 bytes; may be given several times (64x16x2,
                     64x32x4, 64x64x8 and 64x512x8)
  --html F           write an HTML page to F; F can be `-`, standard output without the screen, for one of these outputs
  --live             put the trace and the verified program into the page of --html, which counts other layouts then
  --json F           write all that was found to F as JSON, by view/output/schema.json
  --json-version N   the version of that JSON: 2, or 1 for the former keys, by view/output/schema-1.json
  --latency NS       the nanoseconds that a line takes between cores, for the upper bound on the time in the JSON (140); 0 for no bound,
                     which saves a run
  --perf FILE        mark the objects on which memory samples fell: `perf script --show-mmap-events` of `perf c2c record`
  --sarif F          write the objects to F as SARIF 2.1.0, for editors and code hosts
  --patch F          write the fixes that change declarations only to F, for `patch -p1`
  --against OLD      compare with OLD, which --json wrote, or a kept report
  --fail-above N     exit with 1 if an object has more than N false-sharing misses, and with 3 if the run didn't end with exit 0, or a
                     thread didn't run
  --by WHAT          compare false-sharing (the default) or invalidations with N
  --help, -h         this page
Words after a `--` that follows PROGRAM go to its `main`.

Status: 0 shown; 1 an object is above N; 2 refused, with a message; 3 (with --fail-above) the run didn't end with exit 0, or a thread
didn't run; 127 a package or the program is missing. Colours are for terminals, unless NO_COLOR is set."""
)
# The options of view's own that have a value, and those that have none; `type` may come more than once.
VALUES = (
    *(
        "patch",
        "top",
        "object",
        "html",
        "json",
        "json-version",
        "sarif",
        "against",
        "fail-above",
        "by",
        "type",
        "program",
        "map",
        "back",
        "sources",
        "explain",
    ),
    "latency",
    "perf",
)
FLAGS = ("words", "predicted", "no-predicted", "library", "fine", "no-fine", "live", "help")
# The former names of options.
FORMER = {"back": "map"}
# What `--by` judges, and its values for misses; `useless` and `count` are former names.
BY, MISSES = ("false-sharing", "invalidations", "useless", "count"), ("false-sharing", "useless")
# Those that may come more than once, each of which is a list of texts.
LISTS = ("type", "shape")
# Those that what counts a trace alone takes.
ALONE = {"sweep": ("html", "top"), "caches": ("html", "shape", "top")}
# Options of `predator native` that have no value, view's own to record all accesses, and those that have a value. (`--filtered` may have
# one behind a `=`.)
MARKS = ("all", "marked", "child", "built", "pcs", "no-pcs", "filtered", "whole")
RECORDS = ("--quantum", "--most", "--max-disk", "--trace", "--skip", "--for", "--windows")
# Options of a replay that goes on from another one, which a trace of a program of this machine doesn't.
STATES = ("--save", "--resume")
# What view writes.
OUTPUTS = ("html", "json", "sarif", "patch")
# The thresholds under which the counts of a filtered trace are those of the whole one, and what `--filtered` may be.
EXACT_THRESHOLDS = {"tracking": "1", "report": "1"}
NEAR_BYTES = [1 << it for it in range(6, 17)]
# How many objects the first screen shows, and how many of their lines are explained, where the call doesn't say.
TOP, EXPLAIN = 10, 3


def suggest_nearest(word: str, known: Iterable[str]) -> str:
    """A question that names what a word may be meant for, or nothing."""
    found = difflib.get_close_matches(word, list(known), 1)
    return f"did you mean `{found[0]}`? " if found else ""


class Recording(NamedTuple):
    """How a program of this machine was recorded: the recorder's options, the program and its words, the options of the replay, a folder
    for another trace, and how many seconds it took."""

    options: list[str]
    command: list[str]
    replay: list[str]
    folder: str
    seconds: float


class Call:
    """What is asked: `how` says what is done with the file; `subject` is the program, the trace or the report, and `named` what the
    call names; `words` go to the program, `given` are the options among them, `marks` go to its recorder, and `own` is what its guest gets,
    with the `--` before it."""

    def __init__(self, words: Sequence[str]) -> None:
        first = words[0] if words else ""
        named: dict[str, Action] = {
            "run": "run",
            "replay": "replay",
            "native": "native",
            "sweep": "sweep",
            "caches": "caches",
        }
        self.action = named.get(first, "file")
        self.options: dict[str, Any] = {it: [] for it in LISTS}
        self.guest_words: list[str] = []
        self.recorder_flags: list[str] = []
        self.engine_options: list[str] = []
        # The quantum at which a program of this machine was recorded, or none.
        self.recorded_quantum: int | None = None
        # How it was recorded, or none; and whether this is that call once more, which says nothing.
        self.recording: "Recording | None" = None
        self.is_again = False
        # Where the trace of a run may be written that no word names.
        self.run_trace: str | None = None
        self.words, names = self.split(words[1:] if first in named else words)
        if "help" in self.options:
            return
        if len(names) != 1:
            what = {"run": "a program", "native": "a program", "file": "a report"}.get(
                self.action, "a trace"
            )
            raise Fault(
                f"missing argument: {what}\n{USAGE}"
                if not names
                else f"unexpected argument '{names[1]}'\n{USAGE}"
            )
        self.subject = self.named = names[0]
        self.check_words()
        self.merge_settings()
        self.program = self.subject if self.action == "run" else self.options.get("program")
        self.check_values()

    def check_words(self) -> None:
        """Refuses words that what is done with the file doesn't take, and a file with which it can't be done."""
        what = action_for(self.subject)
        if what not in ("file", "replay" if self.action in ALONE else self.action):
            raise Fault(f"{self.subject} is {KIND_NAMES[what]}: use `predator view {self.subject}`")
        known = (
            OPTIONS.get(self.action, [])
            if self.action != "native"
            else [*RECORDS, *(it for it in OPTIONS["replay"] if it not in STATES)]
        )
        for word in (it for it in self.engine_options if it.partition("=")[0] not in known):
            where = "view" if self.action == "file" else f"view {self.action}"
            near = suggest_nearest(
                word.partition("=")[0], [*known, *(f"--{it}" for it in (*VALUES, *LISTS, *FLAGS))]
            ).strip()
            raise Fault(f"{where} has no option '{word}'{near and '; '}{near}\n{USAGE}")
        if self.recorder_flags and self.action != "native":
            raise Fault(f"'{self.recorder_flags[0]}' applies to native programs only")
        self.check_filter()
        for pair in (one for value in self.option_values("--set") for one in value.split(",")):
            key, is_set, _ = pair.partition("=")
            if is_set and key not in KEYS:
                raise Fault(
                    f"'--set {pair}': there is no setting '{key}'; {suggest_nearest(key, KEYS)}the settings are {', '.join(KEYS)}"
                )

    def check_filter(self) -> None:
        """Refuses options of a filtered recording that exclude each other, and a size that no recorder takes."""
        found = [it for it in self.recorder_flags if it.partition("=")[0] == "--filtered"]
        for word in found:
            if word.partition("=")[1] and word.partition("=")[2] not in map(str, NEAR_BYTES):
                raise Fault(
                    f"'--filtered' takes a power of two from {NEAR_BYTES[0]} to {NEAR_BYTES[-1]}, not"
                    f" '{word.partition('=')[2]}'"
                )
            near = int(word.partition("=")[2] or filtered_traces.USUAL_NEAR)
            size = self.option_value("--size") or ""
            if 2 * (int(size) if size.isdigit() else USUAL["line"]) > near:
                raise Fault(f"'{word}' takes lines of at most {near // 2} bytes: see `--size`")
        if found and "--whole" in self.recorder_flags:
            raise Fault("'--whole' and '--filtered' exclude each other")
        if found and "--no-pcs" in self.recorder_flags:
            raise Fault("'--filtered' and '--no-pcs' exclude each other: a filtered trace has pcs")

    @functools.cached_property
    def filtered(self) -> Filter | None:
        """What the trace of a call says of itself where it is a filtered one, or none. (Of a program that is yet to be recorded this isn't
        known.)"""
        return read_filter(self.subject) if self.action in ("replay", *ALONE) else None

    def check_filtered_trace(self, size: int) -> None:
        """Refuses what a filtered trace can't be asked for, under lines of a size."""
        if self.filtered is None:
            return
        given = self.option_values_of("--set")
        why = ""
        if 2 * size > self.filtered.near:
            why = f"takes lines of at most {self.filtered.near // 2} bytes"
        elif any(given.get(it, own) != own for it, own in EXACT_THRESHOLDS.items()):
            why = "has no thresholds above 1"
        elif "live" in self.options or self.options.get("by") == "count":
            why = f"has too few accesses for '--{'live' if 'live' in self.options else 'by count'}'"
        elif is_report(self.options.get("against", "")):
            why = "has no thresholds, so that a kept report has other counts"
        if why:
            raise Fault(f"{self.named} is a filtered trace and {why}; {filtered_traces.WHOLE}")

    def option_values_of(self, option: str) -> dict[str, str]:
        """The settings that the words give by one of the program's options, a later one in the place of an earlier one."""
        pairs = (one.partition("=") for it in self.option_values(option) for one in it.split(","))
        return {name: value for name, _, value in pairs}

    def report_words(self) -> list[str]:
        """The words of the call for its report: of a filtered trace the thresholds under which its counts are those of the whole one."""
        if self.filtered is None:
            return self.words
        given = {**self.option_values_of("--set"), **EXACT_THRESHOLDS}
        rest: list[str] = []
        at = 0
        while at < len(self.words):
            if self.words[at] == "--":
                rest += self.words[at:]
                break
            width = option_width(self.words[at])
            if self.words[at].partition("=")[0] != "--set":
                rest += self.words[at : at + width]
            at += width
        return ["--set", ",".join(f"{it}={own}" for it, own in given.items()), *rest]

    def merge_settings(self) -> None:
        """Makes one list of the settings of several `--set`, of which a later one replaces an earlier one."""
        settings: dict[str, str] = {}
        rest: list[str] = []
        places: list[int] = []
        at = 0
        while at < len(self.words):
            word = self.words[at]
            if word == "--":
                rest += self.words[at:]
                break
            width = option_width(word)
            if word.partition("=")[0] == "--set" and (width == 1 or at + 1 < len(self.words)):
                value = word.partition("=")[2] if width == 1 else self.words[at + 1]
                settings.update({it.partition("=")[0]: it for it in value.split(",")})
                places.append(len(rest))
            else:
                rest += self.words[at : at + width]
            at += width
        if len(places) > 1:
            rest[places[0] : places[0]] = ["--set", ",".join(settings.values())]
            self.words = rest

    def split(self, words: Sequence[str]) -> tuple[list[str], list[str]]:
        """The words that are the program's, and the names among them; view's own options are put down."""
        rest: list[str] = []
        names: list[str] = []
        at = 0
        while at < len(words):
            word, at = words[at], at + 1
            name, has_value, value = word.partition("=")
            if word == "--" and self.action in ("run", "native") and names:
                self.guest_words = [*words[at - 1 :]]
                return rest, names
            if word == "--" and self.action == "native":
                # (as `predator native -- PROGRAM ..` has it)
                self.guest_words = ["--", *words[at + 1 :]]
                return [*rest, *words[at : at + 1]], [*words[at : at + 1]]
            if word == "--":
                return [*rest, "--", *words[at:]], [*names, *words[at:]]
            if (
                name[:2] == "--"
                and name[2:] in (*VALUES, *LISTS)
                or word == "-h"
                or word[2:] in FLAGS
                and word[:2] == "--"
            ):
                if name[2:] in (*VALUES, *LISTS) and not has_value:
                    if at == len(words):
                        raise Fault(f"'{word}' needs a value")
                    value, at = words[at], at + 1
                self.set_option("help" if word == "-h" else name[2:], value)
            elif is_mark(word) and not (self.action == "run" and word in BARE):
                self.recorder_flags.append(word)
            elif word.startswith("-") and word != "-":
                self.engine_options.append(word)
                own = [word] if has_value or word in BARE or at == len(words) else [word, words[at]]
                at += len(own) - 1
                rest += own
            else:
                rest.append(word)
                names.append(word)
                if self.action == "file" and len(names) == 1:
                    self.action = action_for(word)
        return rest, names

    def set_option(self, name: str, value: str) -> None:
        name = FORMER.get(name, name)
        if name in LISTS:
            self.options[name].append(value)
        elif name in self.options:
            raise Fault(f"'--{name}' is given twice")
        else:
            self.options[name] = value

    def check_values(self) -> None:
        """Refuses values that an option can't have."""
        self.check_alone()
        for name in ("top", "fail-above", "explain", "latency"):
            value = self.options.get(name, "0")
            if not re.fullmatch("[0-9]{1,18}", value):
                raise Fault(f"'--{name}' takes a number, not '{value}'")
        if self.options.get("by", BY[0]) not in BY:
            raise Fault(f"'--by' takes {BY[0]} or {BY[1]}, not '{self.options['by']}'")
        if self.options.get("json-version", "2") not in ("1", "2"):
            raise Fault(f"'--json-version' takes 1 or 2, not '{self.options['json-version']}'")
        for assignment in self.options["type"]:
            if not all(assignment.partition("=")[::2]):
                raise Fault(
                    f"'--type' takes SITE=TYPE, such as arena.c:78=node, not '{assignment}'"
                )
        if "fine" in self.options and "no-fine" in self.options:
            raise Fault("'--fine' and '--no-fine' exclude each other")
        is_run = self.action in ("run", "native")
        if not is_run and ("fine" in self.options or "no-fine" in self.options):
            raise Fault("'--fine' and '--no-fine' apply to `view run` and `view native` only")
        if "predicted" in self.options and "no-predicted" in self.options:
            raise Fault("'--predicted' and '--no-predicted' exclude each other")
        for name, of in (("by", "fail-above"), ("json-version", "json"), ("live", "html")):
            if name in self.options and of not in self.options:
                raise Fault(f"'--{name}' needs '--{of}'")
        if self.options["type"] and not self.has_types():
            raise Fault("'--type' needs a program's types: name the program with '--program'")
        if self.action in ("run", "native") and "program" in self.options:
            raise Fault(f"'--program' applies to a trace or a report, not to `view {self.action}`")
        if "latency" in self.options and self.action != "run":
            raise Fault("'--latency' applies to `view run` only")
        if "sources" in self.options and not os.path.isdir(self.options["sources"]):
            raise Fault(f"'--sources' takes a folder, and '{self.options['sources']}' isn't one")
        if "map" in self.options and "program" in self.options:
            raise Fault("'--map' and '--program' exclude each other: the map names the program")
        if "map" in self.options and self.action in ("run", "native"):
            raise Fault("'--map' applies to a trace or a report of a native program")

    def check_alone(self) -> None:
        """Refuses what a sweep and caches don't take, and shapes for anything else."""
        if self.options["shape"] and self.action != "caches":
            raise Fault("'--shape' applies to `view caches` only")
        if self.action not in ALONE:
            return
        strange = [
            name
            for name, value in self.options.items()
            if name not in ALONE[self.action] and value != []
        ]
        if strange:
            raise Fault(
                f"`view {self.action}` has no option '--{strange[0]}'; it takes {', '.join(f'--{it}' for it in ALONE[self.action])}"
            )
        if self.action == "sweep" and self.option_value("--size") is None:
            raise Fault("`view sweep` needs a line size, such as '--size 64'")

    def has_types(self) -> bool:
        """Whether a program is named whose types can be looked up, by itself or by the table of a native one."""
        if self.program or self.action == "native" or "map" in self.options:
            return True
        if self.action != "replay":
            return False
        from view.names.native import find_address_map

        return find_address_map(self.subject) is not None

    def number_option(self, name: str, usual: int) -> int:
        return int(self.options.get(name, usual))

    def settings_words(self) -> list[str]:
        """Those of the program's words that say under which settings and schedule it runs."""
        kept: list[str] = []
        at = 0
        while at < len(self.words) and self.words[at] != "--":
            name = self.words[at].partition("=")[0]
            width = option_width(self.words[at])
            if name in ASKED:
                kept += self.words[at : at + width]
            at += width
        return kept

    def reads_trace_once(self) -> bool:
        """Whether the trace comes from a pipe or a terminal, and can be read once."""
        is_pipe = (
            self.subject == "-" or os.path.exists(self.subject) and not os.path.isfile(self.subject)
        )
        return self.action in ("replay", *ALONE) and is_pipe

    def trace_file(self) -> str | None:
        """The trace's file, where it is one that is there and can be read again and again."""
        path = (
            self.subject
            if self.action == "replay"
            else self.option_value("--trace") or self.run_trace
        )
        return path if path and os.path.isfile(path) and not self.reads_trace_once() else None

    def words_of_pipe(self) -> list[str]:
        """The words of a replay of standard input, in the place of a trace."""
        return ["-" if it == self.subject else it for it in self.words]

    def option_values(self, option: str) -> Iterator[str]:
        """The values that the words give for one of the program's options."""
        for at, word in enumerate(self.words):
            if word == "--":
                break
            if word == option and at + 1 < len(self.words):
                yield self.words[at + 1]
            elif word.startswith(option + "="):
                yield word.partition("=")[2]

    def option_value(self, option: str) -> str | None:
        """The value of one of the program's options, or none."""
        return next(self.option_values(option), None)

    def rerun_words(self) -> list[str]:
        """The words of the same run without its outputs, which were written already, and without the guest's own."""
        kept, at = ["run"], 0
        while at < len(self.words):
            word = self.words[at]
            if word == "--":
                return kept + self.words[at:]
            width = option_width(word)
            if word.partition("=")[0] not in (*WRITTEN, *BARE):
                kept += self.words[at : at + width]
            at += width
        return kept


def is_mark(word: str) -> bool:
    """Whether a word is an option of the recorder that has no value of its own."""
    return word[:2] == "--" and (word[2:] in MARKS or word.startswith("--filtered="))


def option_width(word: str) -> int:
    """How many words an option of the program takes, or a name."""
    return 2 if word.startswith("--") and "=" not in word and word not in BARE else 1
