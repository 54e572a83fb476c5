#!/usr/bin/env python3
"""Gives the program much of everything, and little memory: long traces through every command that passes over
one, runs of many steps, many lines, large files. No want of memory, no cut and no wrong count may come of it.

Each call has half of the usual stack, and an address space of so many bytes as its row says, so that one that
holds a trace, or takes pieces of a GiB, ends with want of memory. What it prints is known: two harts take one
line from each other at each access, or write so many lines. The short form takes a trace of more than 2^24
accesses through every command that passes over one, one of more than 256 MiB through `replay`, a run and
`explain` of more than 2^24 accesses, `explain` from a start above 2^32, more than 65,536 blocks, noted blocks,
lines, and pairs of instructions on one line, as many symbols, call sites and windows of a sweep, an object of
2^20 words, programs of 16 MiB and of a byte less, a table of 1 MiB, a state, an output and a trace of more than
32 MiB, and a report of more than 64 MiB. The long form takes the longer trace through every command. Memory
that is refused at any one place is tried by guest/refuse_memory.py."""

import argparse
import hashlib
import os
import resource
import subprocess
import sys
import tempfile
from concurrent.futures import ThreadPoolExecutor
from typing import Iterator, NamedTuple

sys.path.insert(0, os.path.join(os.path.dirname(os.path.abspath(__file__)), "edges"))
import files  # noqa: E402
import made_guests  # noqa: E402
import made_traces  # noqa: E402
from files import join_lines, report_text  # noqa: E402
from made_guests import DATA  # noqa: E402
from rv32 import CODE, Code, Segment, elf  # noqa: E402

# A trace has more accesses than 2^24, and a longer one more than 256 MiB.
LONG, LONGER = (1 << 24) + 1000, (1 << 25) + 1000
# How many lines are tracked, blocks are made and noted, and harts are started one after another.
TRACKS, MANY = 2000, 70_000
MIB = 1 << 20
BASE = 0x1040
PIECE = 1 << 16
# Half of the stack that Debian gives a process.
STACK = 4 * MIB


class Try(NamedTuple):
    """A call, the text that it prints, or how its lines begin, in their order, the files that it writes by
    their sums, and how many MiB of addresses it has."""

    words: str
    printed: bytes | tuple[str, ...]
    most: int
    writes: dict[str, str] = {}
    status: int = 0


# ---- Traces in which two harts write neighbouring words of a line in turn.


def contended_trace(name: str, count: int, first: int = 0, with_symbol: bool = True) -> None:
    piece = files.access_records([(0, "W", BASE), (1, "W", BASE + 4)] * PIECE)
    with open(name, "wb") as file:
        file.write(
            files.trace_header(first=first)
            + (files.symbol_record(BASE, 8, b"pair") if with_symbol else b"")
        )
        left = 8 * count
        while left:
            left -= file.write(piece[:left])
        file.write(files.trace_end(count))


def contended_trace_with_pcs(name: str, count: int) -> None:
    """The same in version 3, by an instruction of each hart."""
    piece = files.TURN * PIECE
    with open(name, "wb") as file:
        file.write(
            files.trace_header(version=3) + files.trace_version_3(files.alternate(2))[20:-25]
        )
        left = len(files.TURN) * (count // 2 - 1)
        while left:
            left -= file.write(piece[:left])
        file.write(files.trace_end(count))


def digest(pieces: Iterator[bytes]) -> str:
    made = hashlib.sha256()
    for piece in pieces:
        made.update(piece)
    return made.hexdigest()


def file_digest(name: str) -> str:
    with open(name, "rb") as file:
        return digest(iter(lambda: file.read(MIB), b""))


def repeat(piece: bytes, count: int) -> Iterator[bytes]:
    """A piece so often, in larger pieces."""
    many = piece * (PIECE // len(piece) + 1)
    left = len(piece) * count
    while left:
        yield many[:left]
        left -= min(left, len(many) // len(piece) * len(piece))


def converted_digest(count: int) -> str:
    """The sum of the trace in version 2."""

    def pieces() -> Iterator[bytes]:
        yield files.trace_header(version=2) + files.symbol_record(
            BASE, 8, b"pair"
        ) + files.trace_version_2([(0, "W", BASE), (1, "W", BASE + 4)])[20:-25]
        yield from repeat(b"\x24\0\7\x24\1\x08", count // 2 - 1)
        yield files.trace_end(count)

    return digest(pieces())


def moved_digest(count: int) -> str:
    """The sum of the trace with the second word 64 bytes behind its line's begin."""

    def pieces() -> Iterator[bytes]:
        yield files.trace_header() + files.symbol_record(BASE, 8, b"pair")
        yield from repeat(files.access_records([(0, "W", BASE), (1, "W", BASE + 64)]), count // 2)
        yield files.trace_end(count)

    return digest(pieces())


def half_digests(count: int, at: int) -> dict[str, str]:
    pair = files.access_records([(0, "W", BASE), (1, "W", BASE + 4)])

    def first() -> Iterator[bytes]:
        yield files.trace_header() + files.symbol_record(BASE, 8, b"pair")
        yield from repeat(pair, at // 2)
        yield files.trace_end(at, 0, 4)

    def second() -> Iterator[bytes]:
        yield files.trace_header(first=at)
        yield from repeat(pair, (count - at) // 2)
        yield files.trace_end(count - at, count)

    return {"a": digest(first()), "b": digest(second())}


def contended_report(count: int, steps: int | None = None) -> bytes:
    """The report of `replay --size 64` with each line tracked and listed."""
    rows = [
        f"line observed {BASE:#010x} 64 start 0 count {count - 1} verdict false",
        f"object symbol pair {BASE:#010x} 8",
    ]
    rows += [
        f"word {BASE + 4 * hart:#010x} reads 0 writes {count // 2} hart {hart}" for hart in (0, 1)
    ]
    return report_text(
        "exit 0", count if steps is None else steps, count, "64 0", "1 none 1", rows, 1
    )


def place_text(count: int) -> bytes:
    return join_lines(
        f"place pair {BASE:#010x} 8 line 64",
        "words 2",
        f"word {BASE:#010x} to 0x00001080 hart 0",
        f"word {BASE + 4:#010x} to 0x000010c0 hart 1",
        "area 0x00001080 128",
        f"before {count - 1}",
        "after 0",
        "many 0",
        "end",
    )


def trace_tries(name: str, count: int) -> Iterator[Try]:
    """Every command that passes over a trace."""
    at, listed = count // 2, "--size 64 --set tracking=1,report=1"
    total = f"total cold 2 useful 0 useless {count - 2}"
    yield Try(f"replay {name} {listed}", contended_report(count), 40)
    yield Try(
        f"misses {name}",
        join_lines(
            "misses 64 0",
            f"accesses {count}",
            "lines 1",
            f"line {BASE:#010x} cold 2 useful 0 useless {count - 2}",
            f"object symbol pair {BASE:#010x} 8",
            total,
            "end",
        ),
        40,
    )
    yield Try(
        f"sweep {name} --size 8",
        join_lines(
            "sweep 8",
            f"accesses {count}",
            f"shift 0 total {count - 1} lines 1",
            "shift 4 total 0 lines 0",
            "least 4 total 0",
            "end",
        ),
        40,
    )
    yield Try(
        f"caches {name} --size 64 --sets 1 --ways 1",
        join_lines(
            "caches 64 1 1",
            f"accesses {count}",
            "lines 1",
            f"line {BASE:#010x} bounded {count - 1} unbounded {count - 1} evicted 0",
            f"total bounded {count - 1} unbounded {count - 1} evicted 0",
            "end",
        ),
        40,
    )
    yield Try(f"place {name} pair", place_text(count), 40)
    put_file("apart", b"%d 4 %d\n" % (BASE + 4, BASE + 64))
    yield Try(
        f"move {name} apart m",
        join_lines(f"move {count} {count // 2}"),
        40,
        {"m": moved_digest(count)},
    )
    yield Try(
        f"convert {name} c", join_lines(f"convert 2 {count}"), 40, {"c": converted_digest(count)}
    )
    yield Try(
        f"split {name} {at} a b",
        join_lines(f"split {at} {count - at}"),
        40,
        half_digests(count, at),
    )


def blame_tries(count: int) -> Iterator[Try]:
    """Each access but the first takes the line."""
    one, other = (f"{pc:#010x}" for pc in files.PCS)
    yield Try(
        "blame blamed",
        join_lines(
            "predator blame 1",
            f"accesses {count}",
            "layout 64 0",
            "lines 1",
            f"line {BASE:#010x} takings {count - 1} pairs 2 harts 2",
            f"pair {one} {other} taken {count // 2} same 0",
            f"pair {other} {one} taken {count // 2 - 1} same 0",
            f"from 0 to 1 taken {count // 2}",
            f"from 1 to 0 taken {count // 2 - 1}",
            f"total takings {count - 1}",
            "end",
        ),
        40,
    )


def filter_tries(count: int) -> Iterator[Try]:
    """No access is redundant where the two harts write in turn, and all of a hart are but the first writes."""
    yield Try("filter blamed v", join_lines(f"filter {count} {count}"), 40)
    lone = [(0, "W", BASE + 4 * (at % 2), CODE) for at in range(4 * PIECE)]
    put_file("lone", files.trace_version_3(lone))
    yield Try("filter lone w", join_lines(f"filter {len(lone)} 2"), 40)


def many_pair_tries(count: int) -> Iterator[Try]:
    """Each access but the first takes the line, by an instruction of its own."""
    touches = [(at % 2, "W", BASE + 4 * (at % 2), CODE + 4 * at) for at in range(count + 1)]
    put_file("pairs", files.trace_version_3(touches))
    pairs = tuple(
        f"pair {CODE + 4 * at:#010x} {CODE + 4 * (at + 1):#010x} taken 1 same 0"
        for at in (0, count - 1)
    )
    yield Try(
        "blame pairs",
        (
            f"line {BASE:#010x} takings {count} pairs {count} harts 2",
            *pairs,
            f"total takings {count}",
            "end",
        ),
        80,
    )


def long_table_tries() -> Iterator[Try]:
    """A table as long as one may be, of which each word goes to the place that another one leaves."""
    size = len("0x00100000 4 0x00100000\n")
    count = (MIB - 1) // size
    rows = "".join(
        f"{0x100000 + 4 * at:#010x} 4 {0x100000 + 4 * (count - 1 - at):#010x}\n"
        for at in range(count)
    )
    put_file("table", rows.encode().ljust(MIB, b"\n"))
    put_file("words", files.trace_bytes([(0, "W", 0x100000 + 4 * at) for at in range(count)]))
    moved_to = files.trace_bytes([(0, "W", 0x100000 + 4 * at) for at in reversed(range(count))])
    yield Try(
        "move words table m",
        join_lines(f"move {count} {count}"),
        40,
        {"m": hashlib.sha256(moved_to).hexdigest()},
    )


def merge_tries(count: int) -> Iterator[Try]:
    """The halves that were just written."""
    listed = "--size 64 --set tracking=1,report=1"
    yield Try(f"replay a --save s {listed}", ("predator report 1",), 40)
    yield Try(f"replay b --resume s {listed}", contended_report(count), 40)


# ---- Runs.


def contending_code(times: int) -> bytes:
    """Two harts each write a word of the line at DATA so often, and read it."""
    code = Code()
    code.jump("start")
    code.label("work")
    with code.times(times, "t1"):
        code.store("t1", "s0")
        code.load("t2", "s0")
    code.back()
    code.label("other")
    code.set("s0", DATA + 4)
    code.jump("work", "ra")
    code.call("exit", 0)
    code.label("start")
    code.set("s0", DATA)
    code.call("spawn", CODE + 4 * (code.labels["other"] - CODE) // 4)
    code.jump("work", "ra")
    code.call("join", 1)
    code.call("exit_group", 0)
    return elf([Segment(CODE, code.bytes(), 4 * len(code.words), 5), Segment(DATA, b"", 4096, 6)])


def calling_code(times: int, *calls: tuple[str, int | str, int | str]) -> bytes:
    """Makes calls so often, of an address in s0 that goes on by 64."""
    code = Code()
    code.set("s0", DATA)
    with code.times(times, "s1"):
        for name, one, other in calls:
            code.call(name, one, other)
        code.addi("s0", "s0", 64)
    code.call("exit_group", 0)
    return elf([Segment(CODE, code.bytes(), 4 * len(code.words), 5)])


def run_tries() -> Iterator[Try]:
    """More than 2^24 accesses of a run and of `explain`, and more blocks, and notes of blocks, than
    65,536."""
    half = LONG // 4 + 1
    put_file("contending.elf", contending_code(half))
    rows = [
        f"word {DATA + 4 * hart:#010x} reads {half} writes {half} hart {hart}" for hart in (0, 1)
    ]
    counted = ("predator report 1", "outcome exit 0", f"accesses {4 * half}", *rows)
    yield Try("run contending.elf --set quantum=4,tracking=1,report=1", counted, 80)
    yield Try(
        f"explain contending.elf {DATA:#010x} 64 0 --set quantum=4",
        (f"line {DATA:#010x} 64 start 0 count ", "end"),
        80,
    )
    # (no access comes behind such a start)
    for start in (1 << 32, (1 << 40) - 1):
        yield Try(
            f"explain contending.elf {DATA:#010x} 64 {start} --set quantum=4",
            (f"line {DATA:#010x} 64 start {start} count 0", "end"),
            80,
        )
    put_file("notes.elf", calling_code(MANY, ("block", "s0", 8)))
    put_file("blocks.elf", calling_code(MANY, ("alloc", 8, 0)))
    for name in ("notes", "blocks"):
        yield Try(f"run {name}.elf", ("outcome exit 0", "end"), 160)


def program_tries() -> Iterator[Try]:
    """Programs of 16 MiB, less a byte and as they may be at most."""
    code = Code()
    code.call("exit_group", 0)
    for size in (16 * MIB - 1, 16 * MIB):
        name = f"large.{size}.elf"
        put_file(
            name, elf([Segment(CODE, code.bytes(), 4 * len(code.words), 5)]).ljust(size, b"\0")
        )
        yield Try(f"run {name}", ("outcome exit 0", "end"), 120)
        yield Try(f"check {name}", ("entry 0x00010000",), 120)
        yield Try(f"explain {name} 0x00011000 64 0", ("end",), 120)


def many_line_tries(count: int) -> Iterator[Try]:
    put_file("contended", files.trace_bytes(files.contended_accesses(count)))
    yield Try(
        "replay contended --size 64 --set tracking=1,report=1", files.contended_report(count), 400
    )
    yield Try("misses contended", files.contended_misses(count), 400)
    put_file("sited", files.trace_version_3(files.by_line(files.contended_accesses(count))))
    yield Try("blame sited", files.contended_blame(count), 400)
    if count > 32 * 64:
        # (these caches have no room for more)
        return
    yield Try("caches contended --size 64 --sets 64 --ways 64", files.contended_caches(count), 400)


def large_file_tries() -> Iterator[Try]:
    """Files of more than 32 MiB: a state, what a run puts out, its trace, and what is made."""
    count = 600_000
    put_file("written", files.trace_bytes([(0, "W", 0x100000 + 4 * it) for it in range(count)]))
    state = hashlib.sha256(files.state_bytes(count)).hexdigest()
    yield Try(
        "replay written --size 4 --set tracking=1 --save s", ("accesses 600000",), 600, {"s": state}
    )
    put_file("rest", files.trace_header(first=count) + files.trace_end(0))
    yield Try(
        "replay rest --size 4 --set tracking=1 --resume s --save r",
        ("accesses 600000",),
        600,
        {"r": state},
    )
    guest = files.guest(33 * MIB // 8, 33 * 256, 1)
    put_file("guest.elf", guest.file)
    sums = {
        "t": hashlib.sha256(guest.trace).hexdigest(),
        "o": hashlib.sha256(guest.output).hexdigest(),
    }
    yield Try("run guest.elf --trace t --output o", ("outcome exit 0",), 80, sums)
    sums = {"t": hashlib.sha256(guest.sited).hexdigest()}
    yield Try("run guest.elf --trace t --pcs --output o", ("outcome exit 0",), 80, sums)


def long_text_tries() -> Iterator[Try]:
    """A report of more than 64 MiB: two harts write the 16 words of each line in turn."""
    count, words = 104_000, range(16)
    bases = [0x100000 + 128 * line for line in range(count)]
    put_file(
        "full",
        files.trace_bytes([(word & 1, "W", base + 4 * word) for base in bases for word in words]),
    )
    rows = []
    for line, base in enumerate(bases):
        start = len(words) * line
        rows.append(f"line observed {base:#010x} 64 start {start} count 15 verdict false")
        rows += [f"word {base + 4 * word:#010x} reads 0 writes 1 hart {word & 1}" for word in words]
    accesses = len(words) * count
    text = report_text("exit 0", accesses, accesses, "64 0", "1 none 1", rows, count)
    assert len(text) > 64 * MIB
    yield Try("replay full --size 64 --set tracking=1,report=1", text, 600)


def put_file(name: str, content: bytes) -> None:
    with open(name, "wb") as file:
        file.write(content)


def many_object_tries(count: int) -> Iterator[list[Try]]:
    """Traces of many symbols, blocks, call sites and words of an object."""
    listed, rows = "--set tracking=1,report=1", (f"lines {count}", "end")
    for name, make in (
        ("symbols", made_traces.symbols_apart),
        ("blocks", made_traces.blocks_apart),
    ):
        made = make(count)
        put_file(name, made.trace)
        put_file(f"{name}.rest", made_traces.rest_of_trace(made))
        yield [
            Try(f"replay {name} {listed} --save {name}.s", rows, 400),
            Try(f"misses {name}", rows, 400),
        ]
        yield [Try(f"replay {name}.rest {listed} --resume {name}.s", rows, 400)]
    put_file("apart", made_traces.lines(count).trace)
    put_file("sites.elf", made_guests.sites(count).program)
    explained = f"explain sites.elf {DATA:#010x} 64 0 --set quantum=1"
    made = made_traces.large_object(1 << 20)
    put_file("object", made.trace)
    yield [
        Try("sweep apart --size 64", ("shift 60 ", "least", "end"), 400),
        Try("caches apart --size 64 --sets 64 --ways 8", rows, 400),
        Try(explained, (f"sites {count}", "pair", "end"), 400),
        Try(f"place object {made.object}", ("place", "end"), 600),
    ]


# ---- All of them.


def find_fault(program: str, attempt: Try) -> str:
    """What is wrong with a call, if anything is."""

    def limit() -> None:
        resource.setrlimit(resource.RLIMIT_AS, (attempt.most * MIB, attempt.most * MIB))
        resource.setrlimit(resource.RLIMIT_STACK, (STACK, STACK))

    ran = subprocess.run(
        [program, *attempt.words.split()],
        stdin=subprocess.DEVNULL,
        capture_output=True,
        preexec_fn=limit,
        check=False,
    )
    if ran.returncode != attempt.status or ran.stderr:
        return f"it ended with {ran.returncode}, printed {ran.stdout[:60]!r} and said {ran.stderr[-200:]!r}"
    if isinstance(attempt.printed, bytes):
        if ran.stdout != attempt.printed:
            return f"it printed {ran.stdout[:400]!r}, and wanted is {attempt.printed[:400]!r}"
    else:
        rows = iter(ran.stdout.decode().splitlines())
        for begin in attempt.printed:
            if not any(row.startswith(begin) for row in rows):
                return f"no line begins with '{begin}' in {ran.stdout[:400]!r}"
    wrong = [name for name, wanted in attempt.writes.items() if file_digest(name) != wanted]
    return f"{', '.join(wrong)}: other bytes" if wrong else ""


def tries_by_kind(is_long: bool) -> Iterator[list[Try]]:
    """The tries of each kind, when their files are there. Those that stand together may be made at once."""
    contended_trace("long", LONG)
    yield list(trace_tries("long", LONG))
    yield list(merge_tries(LONG))[:1]
    yield list(merge_tries(LONG))[1:]
    os.remove("long")
    contended_trace_with_pcs("blamed", LONG)
    yield list(blame_tries(LONG))
    yield list(filter_tries(LONG))
    os.remove("blamed")
    yield [*many_pair_tries(MANY), *long_table_tries()]
    yield [*run_tries(), *program_tries(), Try(f"gen {LONG} f", (f"generated {LONG}",), 40)]
    yield [*many_line_tries(MANY)]
    yield [*many_line_tries(TRACKS)]
    yield from many_object_tries(MANY)
    for attempt in [*large_file_tries(), *long_text_tries()]:
        yield [attempt]
    contended_trace("long", LONGER)
    yield list(trace_tries("long", LONGER)) if is_long else list(trace_tries("long", LONGER))[:1]


def main() -> int:
    parser = argparse.ArgumentParser(
        description=__doc__, formatter_class=argparse.RawDescriptionHelpFormatter
    )
    parser.add_argument("program", metavar="PROGRAM")
    parser.add_argument(
        "--long", action="store_true", help="take the longer trace through every command"
    )
    call = parser.parse_args()
    program, tried, failed = os.path.abspath(call.program), 0, 0
    with tempfile.TemporaryDirectory() as folder:
        os.chdir(folder)
        for tries in tries_by_kind(call.long):
            with ThreadPoolExecutor(len(os.sched_getaffinity(0))) as pool:
                for attempt, fault in zip(
                    tries, pool.map(lambda attempt: find_fault(program, attempt), tries)
                ):
                    tried += 1
                    if fault:
                        failed += 1
                        print(
                            f"FAILED: {attempt.words}, in {attempt.most} MiB: {fault}", flush=True
                        )
        os.chdir("/")
    print(f"{tried - failed} passed, {failed} failed")
    return 1 if failed else 0


if __name__ == "__main__":
    sys.exit(main())
