"""Schedules and files of settings that growth.py makes, of any size, each with a small guest and what the
commands must say of it. By guest/README.md alone."""

from made_guests import WORKER, Guest, GuestCase, ends, guest_of_code
from rv32 import Code


def two_turns(budget: int) -> Guest:
    """Two harts go round."""
    code = Code()
    code.jump("begin")
    code.label("worker")
    code.jump("worker")
    code.label("begin")
    code.call("spawn", WORKER, 0)
    code.jump("worker")
    return Guest(
        guest_of_code(code), f"budget={budget}", "budget", ((f"steps {budget}", 1),), status=10
    )


def schedule(n: int) -> Guest:
    """The two harts take turns."""
    return two_turns(n // 4)._replace(schedule=b"0 1\n1 1\n" * (n // 8))


def schedule_of_others(n: int) -> Guest:
    """Turns of harts that can't run, and one of the first hart behind each few."""
    return two_turns(n // 64)._replace(schedule=(b"7 1\n" * 15 + b"0 1\n") * (n // 64))


def schedule_of_nothing(n: int) -> Guest:
    """Empty lines."""
    return two_turns(1)._replace(schedule=b"\n" * n)


def schedule_refused(n: int) -> Guest:
    """Its last line is bad."""
    return two_turns(1)._replace(
        schedule=b"0 1\n" * (n // 4 - 1) + b"0  1",
        run=((f"predator: schedule BadLine {n // 4}", 1),),
        status=3,
    )


def guest_with_settings(text: str, fault: str = "") -> Guest:
    if not fault:
        return ends(1)._replace(file=text.encode(), checked=(("objects 0", 1),))
    return ends(1)._replace(
        file=text.encode(), checked=((f"predator: settings {fault}", 1),), status=4
    )


def comments(n: int) -> Guest:
    return guest_with_settings("#\n" * (n // 4 - 8) + "report = 1\n" + "  " * (n // 4 - 8))


def keys(n: int) -> Guest:
    return guest_with_settings(
        "".join(f"k{i:06}=1\n" for i in range(n // 10)), "UnknownKey k000000"
    )


def long_key(n: int) -> Guest:
    return guest_with_settings("k" * (n - 8) + " = 1\n", "UnknownKey " + 1024 * "k")


def tables(n: int) -> Guest:
    return guest_with_settings("".join(f"[k{i:05}]\n" for i in range(n // 9)), "UnknownKey k00000")


def tables_in_tables(n: int) -> Guest:
    return guest_with_settings("".join(f"[k.k{i:05}]\n" for i in range(n // 11)), "UnknownKey k")


def arrays_of_tables(n: int) -> Guest:
    return guest_with_settings("[[k]]\n" * (n // 6), "UnknownKey k")


def dotted(n: int) -> Guest:
    return guest_with_settings(
        "".join(f"k.k{i:05}.a.b.c=1\n" for i in range(n // 17)), "UnknownKey k"
    )


def arrays(n: int) -> Guest:
    return guest_with_settings("k = [" + "1," * (n // 2 - 8) + "]\n", "UnknownKey k")


def arrays_in_arrays(n: int) -> Guest:
    return guest_with_settings("k = [" + "[[[[]]]]," * (n // 9 - 2) + "]\n", "UnknownKey k")


def strings(n: int) -> Guest:
    return guest_with_settings('k = "' + "\\n" * (n // 2 - 8) + '"\n', "UnknownKey k")


CASES = [
    GuestCase("schedule: two in turn", schedule, 1 << 18, "run", 1 << 20, 64),
    GuestCase("schedule: harts that can't run", schedule_of_others, 1 << 18, "run", 1 << 20, 64),
    GuestCase("schedule: empty lines", schedule_of_nothing, 1 << 18, "run", 1 << 20, 64),
    GuestCase("schedule: refused", schedule_refused, 1 << 18, "run", 1 << 20, 64),
    GuestCase("settings: comments and blanks", comments, 1 << 14, "check", 1 << 16, 1 << 11),
    GuestCase("settings: keys", keys, 1 << 14, "check", 1 << 16, 1 << 11),
    GuestCase("settings: a long key", long_key, 1 << 14, "check", 1 << 16, 1 << 11),
    GuestCase("settings: tables", tables, 1 << 14, "check", 1 << 16, 1 << 11),
    GuestCase("settings: tables in a table", tables_in_tables, 1 << 14, "check", 1 << 16, 1 << 11),
    GuestCase("settings: arrays of tables", arrays_of_tables, 1 << 14, "check", 1 << 16, 1 << 11),
    GuestCase("settings: dotted keys", dotted, 1 << 14, "check", 1 << 16, 1 << 11),
    GuestCase("settings: a long array", arrays, 1 << 14, "check", 1 << 16, 1 << 11),
    GuestCase("settings: arrays in arrays", arrays_in_arrays, 1 << 14, "check", 1 << 16, 1 << 11),
    GuestCase("settings: a long string", strings, 1 << 14, "check", 1 << 16, 1 << 11),
]
