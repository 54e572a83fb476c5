"""The words of a call of `predator allocators`."""

import argparse
from dataclasses import dataclass
from typing import Any, NoReturn, Sequence

from campaign.main import StoreOnce
from view.faults import Fault

USAGE = """\
usage: predator allocators [LIB.so ..] [OPTIONS]
       predator allocators --guest MALLOC.c [OPTIONS]"""
HELP = f"""{USAGE}

Runs drivers, small programs whose threads allocate by published patterns, with the C library's
allocator and with each LIB, and prints a table of what the placement of blocks costs. A LIB is a
shared library that defines malloc, or jemalloc, tcmalloc or mimalloc for Debian's. Without a LIB
all of these that are installed are run. With --guest the allocator is built for the simulator,
and each driver runs under many schedules. docs/ALLOCATORS.md has the columns.

Options:
  --guest F       build the source F of an allocator with each driver for the simulator; several
                  may follow each other, and picolibc names that of Debian's C library
  --drivers LIST  run these drivers alone (default: all)
  --sizes LIST    ask for blocks of these sizes, such as 8,16,64 (default: 8)
  --threads LIST  run so many threads, such as 2,4,8 (default: 4)
  --seeds N       with --guest: under the seeds 1 to N (default: 100)
  --quantum N     a thread's turn has N accesses, or with --guest steps (default: 100)
  --limit N       end a run after N seconds (default: 60)
  --to DIR        keep results in DIR, from which the same call resumes (default: allocators.results)
  --traces        keep the traces in DIR, for tools/judge_allocators.py
  --html F        also write the table to F as a page
  --json F        also write all numbers to F
  --fail-above N  end with status 1 if a run has more than N of what --by names
  --by WHAT       false (false-sharing misses in blocks and the allocator's data; the default),
                  blocks, own, active or passive
  --help, -h      print this page

Status: 0 all runs have results; 1 --fail-above, or a run failed; 2 refused; 127 a package is
missing; 130 interrupted."""
# What an option is without the words of a call.
DEFAULTS = {
    **{"--drivers": "", "--sizes": "8", "--threads": "4", "--seeds": "100"},
    **{"--quantum": "100", "--limit": "60", "--to": "allocators.results", "--by": "false"},
}
GATES = ("false", "blocks", "own", "active", "passive")
MAX_THREADS, MAX_SIZE, MAX_SEEDS = 64, 4096, 10000
# A guest's first thread is a hart too.
MAX_GUEST_THREADS = 32


@dataclass(frozen=True)
class Call:
    """What a call asks for."""

    libraries: list[str]
    guests: list[str]
    drivers: list[str]
    sizes: list[int]
    threads: list[int]
    seeds: int
    quantum: int
    limit: float
    folder: str
    keeps_traces: bool
    html: str | None
    json: str | None
    fail_above: int | None
    gate: str
    wants_help: bool


class CallParser(argparse.ArgumentParser):
    """The grammar of a call, whose faults are messages of allocators."""

    def __init__(self) -> None:
        super().__init__(add_help=False, allow_abbrev=False)
        self.add_argument("libraries", nargs="*")
        self.add_argument("--help", "-h", action="store_true")
        self.add_argument("--guest", nargs="+", default=[], action="extend")
        self.add_argument("--traces", action="store_true")
        for name in (*DEFAULTS, "--html", "--json", "--fail-above"):
            self.add_argument(name, action=StoreOnce)

    def error(self, message: str) -> NoReturn:
        raise Fault(f"{message}\n{USAGE}")


def parse_number(option: str, text: str, least: int, most: int) -> int:
    if not (text.isascii() and text.isdigit() and least <= int(text) <= most):
        raise Fault(f"'{option}' must be from {least} to {most}, not '{text}'")
    return int(text)


def parse_numbers(option: str, text: str, least: int, most: int) -> list[int]:
    """The different numbers of a list, in its order."""
    numbers = [parse_number(option, it, least, most) for it in text.split(",")]
    return list(dict.fromkeys(numbers))


def parse_seconds(text: str) -> float:
    try:
        seconds = float(text)
    except ValueError:
        seconds = 0
    if not 0 < seconds <= 86400:
        raise Fault(f"'--limit' must be a number of seconds up to 86400, not '{text}'")
    return seconds


def parse_call(words: Sequence[str]) -> Call:
    options: Any = CallParser().parse_args(list(words))
    for name, value in DEFAULTS.items():
        if getattr(options, name[2:]) is None:
            setattr(options, name[2:], value)
    if options.libraries and options.guest:
        raise Fault(f"'--guest' runs no library, so '{options.libraries[0]}' has no use\n{USAGE}")
    if options.by not in GATES:
        raise Fault(f"'--by' must be {', '.join(GATES[:-1])} or {GATES[-1]}, not '{options.by}'")
    most = MAX_GUEST_THREADS if options.guest else MAX_THREADS
    limit = options.fail_above
    return Call(
        options.libraries,
        options.guest,
        [it for it in options.drivers.split(",") if it],
        parse_numbers("--sizes", options.sizes, 1, MAX_SIZE),
        parse_numbers("--threads", options.threads, 2, most),
        parse_number("--seeds", options.seeds, 1, MAX_SEEDS),
        parse_number("--quantum", options.quantum, 1, 100000),
        parse_seconds(options.limit),
        options.to,
        options.traces,
        options.html,
        options.json,
        None if limit is None else parse_number("--fail-above", limit, 0, 2**63 - 1),
        options.by,
        options.help,
    )
