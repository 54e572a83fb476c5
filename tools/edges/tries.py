"""Tries which calls of the system there are, the status of each end, the words, a trace that is standard
input, and one that changes. The tries of names.py and streams.py are made along with them. None needs a
failing call."""

import errno
import re
import resource
import shutil
import socket
import subprocess
from dataclasses import replace
from typing import Callable, Iterator

import files
import names
import streams
from commands import read_commands
from bench import Bench, read_content
from ended import READ_FAULT, WRITE_FAULT, Ended, fault_line, put_file, remove_files, try_case
from cases import Case
from files import SMALL, report_text
from judge import find_faults, expected_end
from streams import DISK

# The commands that read a trace once, and so from standard input too.
FROM_INPUT = ("replay", "misses", "blame", "caches", "sweep", "move", "filter")
# The memory, in bytes, that a call gets which is to want more.
LITTLE = 48 << 20

# The functions of the C library that between.c stands before, and those about files that would go past it.
STOOD_BEFORE = {"open", "close", "read", "write", "lseek", "ftruncate", "statx"}
PAST = re.compile(
    r"(p?(read|write)v?2?|open|creat|openat2?|lseek|f?truncate|[fl]?stat|f?statat|newfstatat|__[fl]?xstat|fdopen|fopen|"
    r"freopen|fread|fwrite|fputs|fputc|puts|f?printf|fflush|unlink(at)?|remove|(sym)?link(at)?|mkdir(at)?|"
    r"rename(at2?)?|rmdir|mmap|sendfile|copy_file_range|splice|tee|dup[23]?|fcntl|ioctl|"
    r"f(data)?sync|(posix_)?fallocate|"
    r"syscall|readlink(at)?|v?fork|exec[lvpe]+|posix_spawnp?|system|popen|socket|send|recv|io_uring_\w+)(64)?"
)


def try_calls(bench: Bench) -> None:
    """The program has no other way to a file than the calls that between.c stands before."""
    if not shutil.which("objdump"):
        print("skipped: which calls there are, which wants objdump")
        return
    listed = subprocess.run(
        ["objdump", "-T", bench.program], capture_output=True, text=True, check=True
    ).stdout
    wanted = {line.split()[-1] for line in listed.splitlines() if "*UND*" in line}
    found = [f"it calls {it}" for it in sorted(wanted - STOOD_BEFORE) if PAST.fullmatch(it)]
    found += (
        [] if STOOD_BEFORE <= wanted else ["not all of the calls are its own that are to go wrong"]
    )
    code = subprocess.run(
        ["objdump", "-d", "--no-show-raw-insn", bench.program],
        capture_output=True,
        text=True,
        check=True,
    ).stdout
    found += (
        ["it calls the system itself"]
        if re.search(r"\s(syscall|sysenter|int +\$0x80)\b", code)
        else []
    )
    bench.count("main", "calls", ["objdump"], found)


def max_files(name: str) -> tuple[int, int]:
    """How many files a command reads and writes at most, by commands.toml."""
    table = read_commands()
    row = next(it for it in table["command"] if it["name"] == name)
    options = [it for it in table["option"] if it["name"] in row["usage"].replace("[", " ").split()]
    reads, writes = (
        len(row.get(what, ())) + sum(what in it for it in options) for what in ("reads", "writes")
    )
    return reads, writes


def try_commands(bench: Bench) -> None:
    """No command is left out, and of none that writes a file that it reads or writes."""
    names_of = {it.split()[2] for it in files.usage_text().decode().splitlines()}
    left = names_of ^ {it.words[0] for it in bench.cases}
    bench.count(
        "main", "commands", sorted(left), [f"{it} isn't tried, or is no command" for it in left]
    )
    tried = {it.words[0]: (len(it.reads), len(it.writes)) for it in bench.largest_cases()}
    wanted = {it: max_files(it) for it in sorted(names_of) if max_files(it)[1]}
    refused = {it.words[0] for it in bench.cases if it.keeps_outputs() and it.writes}
    found = [
        f"{case} is tried with {tried.get(case)} files, and it has {wanted[case]}"
        for case in wanted
        if tried.get(case) != wanted[case]
    ]
    found += [f"no refusal of {it} is tried" for it in wanted if it not in refused]
    bench.count("main", "commands", sorted(wanted), found)


def status_calls() -> Iterator[tuple[int, str, bytes]]:
    """A call for each status that there is, and what it prints."""
    run = ("64 0", "16 64 100")
    yield 0, "check plain.elf", files.worked_text("programs.case", "check p")
    yield 1, "", files.usage_text()
    yield 2, "check script", b"predator: elf TooShort\n"
    yield 3, "run plain.elf --schedule bad", b"predator: schedule BadLine 1\n"
    yield 4, "check plain.elf --settings bad", b"predator: settings OutOfRange harts\n"
    yield 5, "misses bad", b"predator: trace Truncated 10\n"
    yield 6, "replay short --resume bad", b"predator: state BadState 0\n"
    yield 7, "replay missing", READ_FAULT
    yield 8, "gen 3 missing/f", WRITE_FAULT
    yield 9, "run plain.elf --set memory=67108864", b"predator: no memory\n"
    yield 10, "run plain.elf --set budget=2", report_text("budget", 2, 0, *run)
    yield 11, "run waits.elf", report_text("deadlock", 4, 1, *run)
    yield 12, "run traps.elf", report_text("trap hart 0 pc 0x00010000 load-misaligned", 0, 0, *run)
    yield 13, "place two none", b"predator: place NoObject\n"
    yield 14, "move short bad m", b"predator: table BadLine 1\n"


def with_little_memory() -> None:
    resource.setrlimit(resource.RLIMIT_AS, (LITTLE, LITTLE))


def with_small_files() -> None:
    resource.setrlimit(resource.RLIMIT_CORE, (0, 0))
    resource.setrlimit(resource.RLIMIT_FSIZE, (DISK, DISK))


def try_statuses(bench: Bench) -> None:
    """The process ends with the status of the call, whichever that is."""
    for status, words, printed in status_calls():
        limit: Callable[[], None] | None = with_little_memory if status == 9 else None
        ended = Ended(bench, words.split(), preexec_fn=limit)
        bench.count(
            "main",
            f"status {status}",
            words.split(),
            ended.faults(status, printed, None) + bench.changed_inputs(),
        )


def try_words(bench: Bench) -> None:
    """No word is dropped, however many there are."""
    many = "run --settings settings --schedule schedule --set quantum=3 --trace t --output o"
    outputs = (("t", SMALL.trace), ("o", SMALL.output))
    text = report_text("exit 0", SMALL.steps, 3, "64 0", "1 64 1")
    try_case(
        bench,
        "main",
        "words",
        Case(
            (*many.split(), "--", "small.elf"),
            0,
            text,
            ("settings", "small.elf", "schedule"),
            outputs,
        ),
    )
    more, twice = (
        "unexpected argument 'more' found",
        "the argument '--set <set>' cannot be used multiple times",
    )
    for words, why in (
        (f"{many} small.elf more", more),
        ("check plain.elf" + " more" * 100, more),
        ("run small.elf" + " --set=quantum=3" * 20, twice),
    ):
        said = f"predator: {why}\n".encode()
        try_case(
            bench,
            "main",
            "words",
            Case(tuple(words.split()), 1, files.usage_text(), (), outputs, said),
        )


def try_dash(bench: Bench) -> None:
    """As the trace of a command that reads it once `-` is standard input, though there is a file of that
    name, and so it is called."""
    put_file("-", b"no trace")
    bench.kept = bench.stat_inputs()
    for case in (it for it in bench.cases if it.words[0] in FROM_INPUT and not it.piped):
        command, trace, *others = case.words
        said = case.said.replace(f"predator: {trace}: ".encode(), b"predator: standard input: ")
        try_case(
            bench,
            "main",
            "-",
            replace(
                case.renamed(trace, "/dev/stdin"),
                words=(command, "-", *others),
                piped=trace,
                said=said,
            ),
        )
    remove_files("-")
    bench.kept = bench.stat_inputs()
    cut = (
        b"predator: standard input: the trace is cut off after 10 bytes: record or copy it again\n"
    )
    for words in (
        "replay -",
        "misses -",
        "blame -",
        "caches - --size 64 --sets 64 --ways 64",
        "sweep - --size 8",
        "move - table m",
        "filter - f",
    ):
        with open("bad", "rb") as given:
            found = Ended(bench, words.split(), stdin=given).faults(
                5, b"predator: trace Truncated 10\n", cut
            )
        bench.count("main", "-", words.split(), found + bench.changed_inputs())
    # (one name is one file in a call)
    for status, words, fault in (
        (4, "replay - --settings -", "settings OutOfRange harts"),
        (6, "replay - --resume -", "state BadState 0"),
        (14, "move - - m", "table BadLine 1"),
    ):
        with open("bad", "rb") as given:
            found = Ended(bench, words.split(), stdin=given).faults(
                status, f"predator: {fault}\n".encode(), None
            )
        bench.count("main", "-", words.split(), found + bench.changed_inputs())


def try_files_of_that_name(bench: Bench) -> None:
    """A file that is called `-` serves wherever no trace is read once, and isn't looked for on standard
    input."""
    for case in (it for it in bench.cases if not it.piped and not it.status):
        for name in case.reads + tuple(dict(case.writes)):
            if case.words[0] in FROM_INPUT and name == case.words[1]:
                continue
            called = replace(case.renamed(name, "-"), piped="bad")
            if name in case.reads:
                shutil.copy(name, "-")
                bench.kept = bench.stat_inputs()
            try_case(bench, "main", "-", called)
            remove_files("-")
            bench.kept = bench.stat_inputs()
            if name in case.reads:
                said, before = (
                    fault_line("-", "No such file or directory"),
                    called.reads[: called.reads.index("-")],
                )
                missing = replace(called, status=7, printed=READ_FAULT, reads=before, said=said)
                found = find_faults(
                    missing, bench.call(missing), expected_end(missing)._replace(outputs="stay")
                )
                bench.count("main", "-", missing.words, found)


# ---- A trace that changes between two readings.


def trace_changes() -> Iterator[tuple[bytes, int, str]]:
    """What `made` may be when it is read again, and how that is refused: as no trace, or for the first field
    in which it differs."""
    touches = files.generated_accesses(files.MADE)
    whole, count = files.trace_bytes(touches), files.MADE
    behind_header = whole[len(files.trace_header()) :]
    yield whole[:-1], 5, f"trace Truncated {len(whole) - 1}"
    yield whole + b"\0", 5, f"trace AfterEnd {len(whole)}"
    yield b"PRDTRC09" + whole[8:], 5, "trace BadMagic"
    yield files.trace_version_2(touches), 5, "trace BadMagic"
    yield files.trace_header(harts=16, first=5) + behind_header, 6, "state WrongSettings 32"
    yield files.trace_header(first=5) + behind_header, 6, "state WrongPosition 0 5"
    yield files.trace_bytes(touches[:-1]), 5, f"trace CountMismatch {count} {count - 1}"


def try_changed_traces(bench: Bench) -> None:
    """A trace that is another one when it is read again is refused for what was read then."""
    two = read_content("two") or b""
    of_two = [
        (other, 5, line)
        for other, line in (
            (two[:-1], f"trace Truncated {len(two) - 1}"),
            (two + b"\0", f"trace AfterEnd {len(two)}"),
            (b"harts = 0\n", "trace Truncated 10"),
            (b"PRDTRC09" + two[8:], "trace BadMagic"),
        )
    ]
    for words, name, becomes in (
        (f"split made {files.CUT} a b", "made", list(trace_changes())),
        ("convert made c", "made", list(trace_changes())),
        ("place two pair", "two", of_two),
    ):
        first = read_content(name) or b""
        for other, status, line in becomes:
            put_file("other", other)
            how = {"EDGES_NAME": name, "EDGES_BEHIND": "other"}
            ended = Ended(bench, words.split(), env=bench.environment(how))
            found = ended.faults(status, f"predator: {line}\n".encode(), None)
            bench.count("main", "a trace that changes", words.split(), found)
            put_file(name, first)
            remove_files("other", "a", "b", "c")
    bench.kept = bench.stat_inputs()


# ---- What one would expect, and the program doesn't do.


def try_open(bench: Bench) -> None:
    """Standard input is opened anew as /dev/stdin: a file is read from its front though some of it was read
    before, and a socket isn't read. A read that a signal interrupts isn't made anew. A limit on the size of
    files (`ulimit -f`) ends the process by a signal."""
    case = next(it for it in bench.cases if it.words == ("misses", "-"))
    put_file("behind", b"12345" + (read_content(case.piped) or b""))
    with open("behind", "rb", buffering=0) as file:
        file.read(5)
        bench.count(
            "open",
            "the rest of a file",
            case.words,
            Ended(bench, case.words, stdin=file).faults(0, case.printed, b""),
        )
    remove_files("behind")
    ours, theirs = socket.socketpair()
    with ours, theirs:
        ours.sendall(read_content(case.piped) or b"")
        ours.shutdown(socket.SHUT_WR)
        bench.count(
            "open",
            "a socket",
            case.words,
            Ended(bench, case.words, stdin=theirs).faults(0, case.printed, b""),
        )
    first = next(at for at, it in enumerate(bench.call(case).calls, 1) if it.call == "read")
    ending = bench.call(case, {"EDGES_AT": str(first), "EDGES_ERROR": str(errno.EINTR)})
    bench.count(
        "open",
        "a read that is interrupted",
        case.words,
        find_faults(case, ending, expected_end(case)),
    )
    words = ["convert", "made", "c"]
    ended = Ended(bench, words, preexec_fn=with_small_files)
    bench.count(
        "open",
        "a limit on files",
        words,
        ended.faults(8, WRITE_FAULT, fault_line("c", "File too large")),
    )
    remove_files("c")


TRIES = (
    try_calls,
    try_commands,
    try_statuses,
    try_words,
    try_dash,
    try_files_of_that_name,
    names.try_names_by_case,
    names.try_same_names,
    names.try_links,
    names.try_inodes,
    names.try_outputs_by_link,
    names.try_modes,
    streams.try_closed_streams,
    streams.try_terminals,
    streams.try_full_output,
    streams.try_output_as_file,
    streams.try_text_into_file,
    streams.try_full_pipes,
    streams.try_fifos,
    streams.try_inputs_by_fifo,
    try_changed_traces,
)


def try_all(bench: Bench) -> None:
    for tries in TRIES:
        tries(bench)
        bench.kept = bench.stat_inputs()
    if not streams.try_full_disk(bench):
        print("skipped: a full disk, which wants the right to mount one")
