"""Tries names of files: that differ by case, that stand twice, and several of one file. Each is tried with
every command that writes, with each of its outputs beside each file before that."""

import os
from typing import Iterator

import files
from bench import OLDER, Bench, read_content
from ended import (
    IN_USE,
    WRITE_FAULT,
    Ended,
    fault_line,
    compare_bytes,
    put_file,
    remove_files,
    try_case,
    check_outputs,
)
from cases import Case
from judge import find_faults, expected_end


def output_input_pairs(bench: Bench) -> Iterator[tuple[Case, str, str]]:
    """A call of each command that writes, with the name of each of its outputs and that of each file that it
    reads, or writes before."""
    for case in bench.largest_cases():
        outputs = list(dict(case.writes))
        for at, name in enumerate(outputs):
            for other in (*case.reads, *outputs[:at]):
                yield case, name, other


def try_names_by_case(bench: Bench) -> None:
    """Names that differ by case alone are those of different files."""
    for case, name, other in output_input_pairs(bench):
        try_case(bench, "names", "case", case.renamed(name, other.swapcase()))


# Of these the trace is standard input.
WITH_INPUT = ("replay - --save -", "move - table -", "filter - -")


def try_same_names(bench: Bench) -> None:
    """A name that is written stands once among the names of a call."""
    calls = [
        (case.renamed(name, other).words, other) for case, name, other in output_input_pairs(bench)
    ]
    # (and the later name, where the same stands for both outputs)
    calls += [
        (case.renamed(other, name).words, name) for case, name, other in output_input_pairs(bench)
    ]
    for words, name in [*calls, *((tuple(it.split()), "-") for it in WITH_INPUT)]:
        said = f"predator: '{name}' is named twice: an output file must differ from all other files\n".encode()
        bench.count(
            "names",
            "a name twice",
            words,
            Ended(bench, words).faults(1, files.usage_text(), said) + bench.changed_inputs(),
        )


def other_names(name: str) -> Iterator[tuple[str, str, tuple[int, ...]]]:
    """Other names of a file: what they are, the name, and the open file that it stands for. Each is gone when
    the next is asked for."""
    os.link(name, "hard")
    yield "a hard link", "hard", ()
    remove_files("hard")
    os.symlink(name, "soft")
    yield "a symbolic link", "soft", ()
    remove_files("soft")
    yield "another path", f"./{name}", ()
    yield "a whole path", os.path.abspath(name), ()
    file = os.open(name, os.O_RDWR)
    yield "/dev/fd", f"/dev/fd/{file}", (file,)
    yield "/proc/self/fd", f"/proc/self/fd/{file}", (file,)
    os.close(file)


def try_links(bench: Bench) -> None:
    """An output that is a file of the call under another name fails, and that file stays as it is."""
    for case, name, first in output_input_pairs(bench):
        is_output = first in dict(case.writes)
        if is_output:
            put_file(first, b"older")
        # (the first output is begun by then)
        wanted = b"" if is_output else read_content(first)
        for what, other, opened in other_names(first):
            call = case.renamed(name, other).words
            ended = Ended(bench, call, pass_fds=opened)
            found = ended.faults(8, WRITE_FAULT, fault_line(other, IN_USE)) + compare_bytes(
                first, wanted
            )
            bench.count("names", what, call, found)
        remove_files(*dict(case.writes))
    bench.kept = bench.stat_inputs()


def try_outputs_by_link(bench: Bench) -> None:
    """What is written under a link goes into the file that it leads to, and the link stays."""
    for case, name, whole in (
        (case, name, whole) for case in bench.largest_cases() for name, whole in case.writes
    ):
        call = case.renamed(name, "link").words
        for what in ("a hard link", "a symbolic link"):
            put_file("led", OLDER)
            if what == "a hard link":
                os.link("led", "link")
            else:
                os.symlink("led", "link")
            found = Ended(bench, call).faults(0, case.printed, case.said) + compare_bytes(
                "led", whole
            )
            is_link = os.path.samefile("led", "link") and os.path.islink("link") == (
                what == "a symbolic link"
            )
            bench.count(
                "names",
                f"an output by {what}",
                call,
                found + ([] if is_link else ["the link is another file"]),
            )
            remove_files("led", "link", *dict(case.writes))


def try_inodes(bench: Bench) -> None:
    """Files are env apart by all of their numbers and by their devices, and one under two names is found by
    both."""
    for numbers in ("long", "devices"):
        env = {"EDGES_INODES": numbers}
        for case in (it for it in bench.writing_cases() if it.reads or len(it.writes) > 1):
            bench.count(
                "names",
                f"{numbers} numbers",
                case.words,
                find_faults(case, bench.call(case, env), expected_end(case)),
            )
        words = ["convert", "short", "hard"]
        os.link("short", "hard")
        ended = Ended(bench, words, env=bench.environment(env))
        found = ended.faults(8, WRITE_FAULT, fault_line("hard", IN_USE)) + compare_bytes(
            "short", files.input_files()["short"]
        )
        remove_files("hard")
        bench.kept = bench.stat_inputs()
        bench.count("names", f"{numbers} numbers", words, found)


def with_mask() -> None:
    os.umask(0o027)


def try_modes(bench: Bench) -> None:
    """A new output may be read and written by whom the mask leaves, and an older one stays the file that it
    is, with its rights."""
    for case in bench.writing_cases():
        found = Ended(bench, case.words, preexec_fn=with_mask).faults(
            case.status, case.printed, case.said
        )
        found += [
            f"{name} has other rights"
            for name, _ in case.writes
            if os.stat(name).st_mode & 0o777 != 0o640
        ]
        was = {name: os.stat(name).st_ino for name, _ in case.writes}
        for name in was:
            os.chmod(name, 0o604)
        found += Ended(bench, case.words).faults(case.status, case.printed, case.said)
        found += [
            f"{name} is another file"
            for name in was
            if (os.stat(name).st_ino, os.stat(name).st_mode & 0o777) != (was[name], 0o604)
        ]
        bench.count(
            "names", "rights", case.words, found + check_outputs(case) + bench.changed_inputs()
        )
