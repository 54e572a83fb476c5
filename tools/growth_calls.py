"""The calls that growth.py makes of each command: their words, and how many lines of what they print begin with
what."""

import itertools
from typing import Callable, Iterable, NamedTuple

from made_guests import DATA, Guest
from made_traces import CODE, LINE, LINES, TraceCaseFile, rest_of_trace
from traces import add_pcs

LISTED = "tracking=1,report=1"


class Call(NamedTuple):
    """A call: its words; how many lines of what it prints begin with what, or, where the number is negative,
    at least how many; its status; and the words of a call before it."""

    words: list[str]
    begins: list[tuple[str, int]]
    status: int = 0
    before: list[str] = []


# ---- The calls of a trace. Each gets the place of the trace and what it is.


def trace_settings(made: TraceCaseFile) -> list[str]:
    return ["--set", ",".join(filter(None, [LISTED, made.settings]))]


def listed_settings(made: TraceCaseFile) -> list[tuple[str, int]]:
    return [(f"lines {made.lines}", 1), ("object", made.objects), ("site", made.sites)]


def replay(trace: str, made: TraceCaseFile) -> Call:
    return Call(["replay", trace, *trace_settings(made)], listed_settings(made))


def replay_words(trace: str, made: TraceCaseFile) -> Call:
    """Under lines that begin elsewhere."""
    words = ["replay", trace, *trace_settings(made), "--size", "64", "--shift", "32"]
    return Call(words, [("layout 64 32", 1), ("line", -max(made.lines // 2, 1))])


def replay_save(trace: str, made: TraceCaseFile) -> Call:
    call = replay(trace, made)
    return call._replace(words=[*call.words, "--save", f"{trace}.saved"])


def replay_resume(trace: str, made: TraceCaseFile) -> Call:
    """Goes on behind the whole trace with one of no access."""
    with open(f"{trace}.rest", "wb") as file:
        file.write(rest_of_trace(made))
    whole = replay(trace, made)
    words = ["replay", f"{trace}.rest", *trace_settings(made), "--resume", f"{trace}.state"]
    return Call(words, whole.begins, before=[*whole.words, "--save", f"{trace}.state"])


def misses(trace: str, made: TraceCaseFile) -> Call:
    return Call(
        ["misses", trace],
        [(f"accesses {made.accesses}", 1)] if made.settings else listed_settings(made),
    )


def write_with_pcs(trace: str, made: TraceCaseFile, command: str) -> str:
    """The name of the trace with pcs for a command, of which the first has the first address, and so on."""
    name = f"{trace}.{command}.sited"
    numbers = itertools.count()
    with open(trace, "rb") as plain, open(name, "wb") as file:
        file.write(
            add_pcs(plain.read(), lambda access, before: CODE + 4 * (next(numbers) % made.pcs))
        )
    return name


def blame(trace: str, made: TraceCaseFile) -> Call:
    with_pcs = write_with_pcs(trace, made, "blame")
    rows = (
        []
        if made.settings
        else [
            (f"lines {made.lines}", 1),
            ("line", made.lines),
            ("pair", -max(made.lines, made.pcs // 2)),
        ]
    )
    return Call(["blame", with_pcs], [(f"accesses {made.accesses}", 1), *rows])


def filter_accesses(trace: str, made: TraceCaseFile) -> Call:
    with_pcs = write_with_pcs(trace, made, "filter")
    return Call(["filter", with_pcs, f"{trace}.filtered"], [(f"filter {made.accesses}", 1)])


def sweep(trace: str, made: TraceCaseFile) -> Call:
    return Call(["sweep", trace, "--size", "64"], [(f"accesses {made.accesses}", 1), ("shift", 16)])


def caches(trace: str, made: TraceCaseFile) -> Call:
    return Call(
        ["caches", trace, "--size", "64", "--sets", "64", "--ways", "8"],
        [(f"accesses {made.accesses}", 1)],
    )


def place(trace: str, made: TraceCaseFile) -> Call:
    return Call(["place", trace, made.object], [(f"place {made.object}", 1), ("end", 1)])


def move(trace: str, made: TraceCaseFile) -> Call:
    """With as many ranges as the trace has lines, each of the first word of a line, which goes to the next
    line, or all in reverse."""
    count = min(made.lines, 1 << 15)
    places = range(count)[::-1] if made.is_turned else [*range(1, count), 0]
    with open(f"{trace}.table", "w", encoding="ascii") as file:
        file.writelines(
            f"{LINES + LINE * at:#x} 4 {LINES + LINE * to:#x}\n" for at, to in enumerate(places)
        )
    return Call(["move", trace, f"{trace}.table", f"{trace}.moved"], [(f"move {made.accesses}", 1)])


def convert(trace: str, made: TraceCaseFile) -> Call:
    return Call(["convert", trace, f"{trace}.other"], [(f"convert 2 {made.accesses}", 1)])


def split(trace: str, made: TraceCaseFile) -> Call:
    half = made.accesses // 2
    return Call(
        ["split", trace, str(half), f"{trace}.first", f"{trace}.second"],
        [(f"split {half} {made.accesses - half}", 1)],
    )


def generate(trace: str, made: TraceCaseFile) -> Call:
    """As many accesses."""
    return Call(["gen", str(made.accesses), f"{trace}.made"], [(f"generated {made.accesses}", 1)])


OF_TRACES: dict[str, Callable[[str, TraceCaseFile], Call]] = {
    "replay": replay,
    "replay--size": replay_words,
    "replay--save": replay_save,
    "replay--resume": replay_resume,
    "misses": misses,
    "blame": blame,
    "sweep": sweep,
    "caches": caches,
    "place": place,
    "move": move,
    "filter": filter_accesses,
    "convert": convert,
    "split": split,
    "gen": generate,
}


# ---- The calls of a guest.


def guest_options(program: str, guest: Guest) -> list[str]:
    words = ["--set", guest.settings] if guest.settings else []
    if guest.file:
        with open(f"{program}.settings", "wb") as file:
            file.write(guest.file)
        words += ["--settings", f"{program}.settings"]
    return words


def guest_call(
    command: list[str], program: str, guest: Guest, begins: Iterable[tuple[str, int]]
) -> Call:
    """A call of a command that runs it."""
    words = [*command, *guest_options(program, guest)]
    if guest.schedule:
        with open(f"{program}.schedule", "wb") as file:
            file.write(guest.schedule)
        words += ["--schedule", f"{program}.schedule"]
    ended = [(f"outcome {guest.outcome}", 1)] if guest.status in (0, 10) else []
    return Call(words, [*ended, *begins], guest.status)


def run(program: str, guest: Guest) -> Call:
    return guest_call(["run", program], program, guest, guest.run)


def run_trace(program: str, guest: Guest) -> Call:
    call = run(program, guest)
    return call._replace(words=[*call.words, "--trace", f"{program}.trace"])


def run_pcs(program: str, guest: Guest) -> Call:
    call = run_trace(program, guest)
    return call._replace(words=[*call.words, "--pcs"])


def run_output(program: str, guest: Guest) -> Call:
    call = run(program, guest)
    return call._replace(words=[*call.words, "--output", f"{program}.output"])


def explain(program: str, guest: Guest) -> Call:
    return guest_call(["explain", program, str(DATA), "64", "0"], program, guest, guest.explained)


def check(program: str, guest: Guest) -> Call:
    ended = [] if guest.status == 4 else [("entry 0x00010000", 1)]
    return Call(
        ["check", program, *guest_options(program, guest)],
        [*ended, *guest.checked],
        4 if guest.status == 4 else 0,
    )


OF_GUESTS: dict[str, Callable[[str, Guest], Call]] = {
    "run": run,
    "run--trace": run_trace,
    "run--pcs": run_pcs,
    "run--output": run_output,
    "explain": explain,
    "check": check,
}
