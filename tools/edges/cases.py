"""The calls that tools/edges/main.py makes, and how each is to end, by docs/FORMATS.md and the cases of
crates/worked_runs/data. None of it comes from the program."""

from dataclasses import dataclass, replace

from judge_filter import filter_trace
from message_files import FILTERED, FORM, NO_PCS
from files import (
    CUT,
    CUT_AT,
    LINES,
    LONG,
    MADE,
    NEAR,
    SMALL,
    STATE,
    WAY,
    WRITES,
    access_records,
    contended_blame,
    contended_caches,
    contended_misses,
    contended_report,
    filtered_front,
    generated_accesses,
    join_lines,
    move_accesses,
    report_text,
    sited_trace,
    split_trace,
    state_bytes,
    trace_bytes,
    trace_header,
    trace_version_2,
    usage_text,
    with_late_access,
    worked_text,
)


@dataclass(frozen=True)
class Case:
    """A call, and what it is to do: how it ends, what it prints and says, which files it reads, and what it
    writes, in their order."""

    words: tuple[str, ...]
    status: int
    printed: bytes
    reads: tuple[str, ...]
    writes: tuple[tuple[str, bytes], ...] = ()
    said: bytes = b""
    # the trace that is read more than once, that which is read while the output is written, and the file that
    # is standard input
    again: str = ""
    along: str = ""
    piped: str = ""
    # whether it writes although it is refused: what of its trace comes before the fault
    leaves: bool = False

    def is_refused(self) -> bool:
        return self.status in (1, 2, 3, 4, 5, 6, 13, 14)

    def keeps_outputs(self) -> bool:
        """Whether each output is to stay as it was."""
        return self.is_refused() and not self.leaves

    def renamed(self, name: str, other: str) -> "Case":
        """The same call over a file of another name."""

        def by(word: str) -> str:
            return other if word == name else word

        return replace(
            self,
            words=tuple(map(by, self.words)),
            reads=tuple(map(by, self.reads)),
            again=by(self.again),
            along=by(self.along),
            writes=tuple((by(it), whole) for it, whole in self.writes),
        )


def writing_cases() -> list[Case]:
    """Calls that write, most of them more than one piece."""
    first, second = split_trace(generated_accesses(MADE), CUT)
    plain = report_text("exit 0", LONG.steps, WRITES, "64 0", "16 64 100")
    small = report_text("exit 0", SMALL.steps, 3, "64 0", "1 64 1")
    short, all_words = (
        generated_accesses(200),
        "run small.elf --settings settings --schedule schedule --set quantum=3 --trace t --output o".split(),
    )
    kept = report_text("exit 0", LINES, LINES, "4 0", "1 none 1")
    whole, left, filtered = filter_trace(sited_trace(MADE), NEAR.bit_length() - 1)
    return [
        Case(
            ("run", "long.elf", "--trace", "t", "--output", "o"),
            0,
            plain,
            ("long.elf",),
            (("t", LONG.trace), ("o", LONG.output)),
        ),
        Case(
            tuple(all_words),
            0,
            small,
            ("settings", "small.elf", "schedule"),
            (("t", SMALL.trace), ("o", SMALL.output)),
        ),
        Case(
            ("run", "long.elf", "--trace", "t"),
            0,
            plain,
            ("long.elf",),
            (("t", LONG.trace),),
            LONG.output + b"\n",
        ),
        Case(
            ("run", "small.elf", "--output", "o", "--set", "budget=5"),
            10,
            report_text("budget", 5, 1, "64 0", "16 64 100"),
            ("small.elf",),
            (("o", b""),),
            b"predator: the run used its whole budget: set a larger `budget`, at most 68719476736\n",
        ),
        Case(
            ("run", "long.elf", "--trace", "t", "--pcs", "--output", "o"),
            0,
            plain,
            ("long.elf",),
            (("t", LONG.sited), ("o", LONG.output)),
        ),
        Case(
            ("gen", str(MADE), "f"),
            0,
            worked_text("gen.case", f"gen {MADE} f"),
            (),
            (("f", trace_bytes(generated_accesses(MADE))),),
        ),
        Case(
            ("gen", "0", "f"), 0, worked_text("gen.case", "gen 0 f"), (), (("f", trace_bytes([])),)
        ),
        Case(
            ("split", "made", str(CUT), "a", "b"),
            0,
            join_lines(f"split {CUT} {MADE - CUT}"),
            ("made",),
            (("a", first), ("b", second)),
            again="made",
        ),
        Case(
            ("split", "short", "0", "a", "b"),
            0,
            b"split 0 200\n",
            ("short",),
            tuple(zip("ab", split_trace(short, 0))),
            again="short",
        ),
        Case(
            ("convert", "made", "c"),
            0,
            join_lines(f"convert 2 {MADE}"),
            ("made",),
            (("c", trace_version_2(generated_accesses(MADE))),),
            again="made",
        ),
        Case(
            ("move", "made", "table", "m"),
            0,
            join_lines(f"move {MADE} {sum(it[2] == 0x10000 for it in generated_accesses(MADE))}"),
            ("table", "made"),
            (("m", trace_bytes(move_accesses(generated_accesses(MADE)))),),
            along="made",
        ),
        Case(
            ("filter", "pcs", "v", "--near", str(NEAR)),
            0,
            join_lines(f"filter {whole} {left}"),
            ("pcs",),
            (("v", filtered),),
            along="pcs",
        ),
        Case(
            ("replay", "written", "--size", "4", "--settings", "settings", "--save", "s"),
            0,
            kept,
            ("settings", "written"),
            (("s", state_bytes(LINES)),),
        ),
        Case(
            (
                "replay",
                "rest",
                "--size",
                "4",
                "--settings",
                "settings",
                "--resume",
                "state",
                "--save",
                "s",
            ),
            0,
            report_text("exit 0", 0, 2, "4 0", "1 none 1"),
            ("settings", "state", "rest"),
            (("s", STATE),),
        ),
        # (what is refused within the trace leaves the records before that)
        *unfinished_cases(),
    ]


def unfinished_cases() -> list[Case]:
    before = trace_header() + access_records(move_accesses(generated_accesses(MADE)[:15000]))
    cut = f"cut: the trace is cut off after {CUT_AT} bytes: record or copy it again"
    first = trace_header() + access_records(move_accesses(with_late_access(MADE)[:-10]))
    cut_at = len(sited_trace(15000)) - 23
    taken = (
        "late: an access at this address stays, and other accesses would move to it: "
        "move them elsewhere, or add a line for this address"
    )
    return [
        Case(
            ("move", "cut", "table", "m"),
            5,
            join_lines(f"predator: trace Truncated {CUT_AT}"),
            ("table", "cut"),
            (("m", before),),
            join_lines(f"predator: {cut}"),
            along="cut",
            leaves=True,
        ),
        Case(
            ("filter", "pcs.cut", "v", "--near", str(NEAR)),
            5,
            join_lines(f"predator: trace Truncated {cut_at}"),
            ("pcs.cut",),
            (("v", filtered_front(15000)),),
            join_lines(
                f"predator: pcs.cut: the trace is cut off after {cut_at} bytes: record or copy it again"
            ),
            along="pcs.cut",
            leaves=True,
        ),
        Case(
            ("move", "late", "over", "m"),
            14,
            join_lines(f"predator: table Occupied {WAY:#010x}"),
            ("over", "late"),
            (("m", first),),
            join_lines(f"predator: {taken}"),
            along="late",
            leaves=True,
        ),
    ]


def printing_cases() -> list[Case]:
    """Calls that write nothing. Some of them print more than 64 KiB."""
    none_taken = join_lines(
        "predator blame 1", "accesses 3", "layout 4 0", "lines 0", "total takings 0", "end"
    )
    replay = ("--size", "64", "--settings", "settings")
    caches = ("--size", "64", "--sets", "64", "--ways", "64")
    explain = ("explain", "adds.elf", "0x00011000", "64", "0", "--set", "quantum=1")
    shown = report_text("exit 0", SMALL.steps, 3, "64 0", "16 64 100")
    return [
        Case(
            ("replay", "contended", *replay), 0, contended_report(LINES), ("settings", "contended")
        ),
        Case(
            ("replay", "-", *replay),
            0,
            contended_report(LINES),
            ("settings", "/dev/stdin"),
            piped="contended",
        ),
        Case(("misses", "contended"), 0, contended_misses(LINES), ("contended",)),
        Case(
            ("misses", "-"),
            0,
            worked_text("misses.case", "misses t"),
            ("/dev/stdin",),
            piped="turns",
        ),
        Case(("blame", "sited"), 0, contended_blame(LINES), ("sited",)),
        Case(("blame", "-", "--size", "4"), 0, none_taken, ("/dev/stdin",), piped="few"),
        Case(("caches", "contended", *caches), 0, contended_caches(LINES), ("contended",)),
        Case(
            ("sweep", "two", "--size", "8"),
            0,
            worked_text("sweep.case", "sweep t --size 8"),
            ("two",),
        ),
        Case(
            ("place", "two", "pair"),
            0,
            worked_text("place.case", "place t pair"),
            ("two",),
            again="two",
        ),
        Case(("check", "plain.elf"), 0, worked_text("programs.case", "check p"), ("plain.elf",)),
        Case(
            explain,
            0,
            worked_text("explain.case", "explain p 0x00011000 64 0 --settings one"),
            ("adds.elf",),
        ),
        Case(("run", "small.elf"), 0, shown, ("small.elf",), said=SMALL.output + b"\n"),
    ]


def refused_cases() -> list[Case]:
    """Calls that are refused before an output is begun, and so write nothing. What is said may be worded
    anew; then it is to be so here."""
    outputs = ("--trace", "t", "--output", "o")
    both, state = (("t", b""), ("o", b"")), (("s", b""),)
    cut = "the trace is cut off after 10 bytes: record or copy it again"
    none = (
        "no object symbol of the trace has this name, and not exactly one block was allocated at "
        "that address: name another object"
    )
    rows = [
        (
            ("gen", "03", "f"),
            1,
            usage_text(),
            (),
            (("f", b""),),
            "'03' has a leading zero: N must be a whole number up to 1000000000",
        ),
        (
            ("run", "script", *outputs),
            2,
            b"predator: elf TooShort\n",
            ("script",),
            both,
            "script: the file is a script: build it for RV32IMA with guest/build.sh",
        ),
        (
            ("run", "small.elf", "--schedule", "bad", *outputs),
            3,
            b"predator: schedule BadLine 1\n",
            ("small.elf", "bad"),
            both,
            "bad: line 1 is not a hart, one space and a count: write it like `0 500`",
        ),
        (
            ("run", "small.elf", "--settings", "bad", *outputs),
            4,
            b"predator: settings OutOfRange harts\n",
            ("bad",),
            both,
            "bad: `harts` must be a whole number from 1 to 256",
        ),
        (
            ("replay", "bad", "--save", "s"),
            5,
            b"predator: trace Truncated 10\n",
            ("bad",),
            state,
            f"bad: {cut}",
        ),
        (("blame", "short"), 5, b"predator: trace NoPcs\n", ("short",), (), f"short: {NO_PCS}"),
        (
            ("split", "bad", "3", "a", "b"),
            5,
            b"predator: trace Truncated 10\n",
            ("bad",),
            (("a", b""), ("b", b"")),
            f"bad: {cut}",
        ),
        (
            ("convert", "script", "c"),
            5,
            b"predator: trace Truncated 10\n",
            ("script",),
            (("c", b""),),
            f"script: {cut}",
        ),
        (
            ("replay", "short", "--resume", "bad", "--save", "s"),
            6,
            b"predator: state BadState 0\n",
            ("bad",),
            state,
            "bad: byte 0 is wrong: the file is not a saved state, or it is cut off",
        ),
        (("place", "two", "none"), 13, b"predator: place NoObject\n", ("two",), (), none),
        (
            ("move", "made", "bad", "m"),
            14,
            b"predator: table BadLine 1\n",
            ("bad",),
            (("m", b""),),
            f"bad: line 1 {FORM}",
        ),
        (
            ("filter", "short", "v"),
            5,
            b"predator: trace NoPcs\n",
            ("short",),
            (("v", b""),),
            f"short: {NO_PCS}",
        ),
        (
            ("filter", "filtered", "v"),
            5,
            b"predator: trace Filtered\n",
            ("filtered",),
            (("v", b""),),
            f"filtered: {FILTERED}this command needs all accesses: use the trace that was filtered, or"
            " record the program without a filter",
        ),
        (
            ("move", "script", "table", "m"),
            5,
            b"predator: trace Truncated 10\n",
            ("table", "script"),
            (("m", b""),),
            f"script: {cut}",
        ),
    ]
    made_of = [Case(*row[:5], said=f"predator: {row[5]}\n".encode()) for row in rows]
    return [
        (
            replace(case, again=case.reads[0])
            if case.words[0] in ("split", "convert", "place")
            else case
        )
        for case in made_of
    ]


def all_cases() -> list[Case]:
    return writing_cases() + printing_cases() + refused_cases()
