"""Programs that growth.py makes, of any size: what each does, and what the commands must say of it. By
guest/README.md alone."""

from typing import Callable, NamedTuple

from rv32 import CODE, Code, Segment, Symbol, elf, symbol_table
from traces import FUNCTION, OBJECT

# Where the variables of those lie that have some, the heap of those that have none, and lines.
DATA, HEAP, LINE = 0x200000, 0x11000, 64
LISTED = "tracking=1,report=1,quantum=1"
# Where a second hart begins: behind a jump.
WORKER = CODE + 4


class Guest(NamedTuple):
    """A program, its settings, and its outcome as a report has it; how many lines of what `run`, `explain`
    and `check` print begin with what, or, where the number is negative, at least how many; a schedule and a
    file of settings; and the status. `explain` is asked about the line at DATA."""

    program: bytes
    settings: str = ""
    outcome: str = "exit 0"
    run: tuple[tuple[str, int], ...] = ()
    explained: tuple[tuple[str, int], ...] = ()
    checked: tuple[tuple[str, int], ...] = ()
    schedule: bytes = b""
    file: bytes = b""
    status: int = 0


class GuestCase(NamedTuple):
    """A guest of two sizes, of which `size` is the lesser one, and the commands that it is made for; the
    greatest size that it may have; a size that costs next to nothing, if another guest can't stand for that;
    and commands whose text of it is a square."""

    name: str
    make: Callable[[int], Guest]
    size: int
    commands: str
    most: int = 1 << 16
    least: int = 0
    never: str = ""


def guest_of_code(code: Code) -> bytes:
    """The program of code without variables."""
    return elf([Segment(CODE, code.bytes(), 4 * len(code.words), 5)])


def guest_with_data(code: Code, size: int, symbols: list[tuple[str, int, int, int]] = []) -> bytes:
    """The program of code with so many bytes from DATA on."""
    return elf(
        [Segment(CODE, code.bytes(), 4 * len(code.words), 5), Segment(DATA, b"", size, 6)],
        *symbol_table(symbols),
    )


def ends(n: int) -> Guest:
    """It ends at once."""
    code = Code()
    code.call("exit_group", 0)
    return Guest(guest_of_code(code))


# ---- The heap. Each says by its exit code where the last block is, counted from the beginning of the heap.


def guest_exiting(code: Code, of: str, wanted: int, settings: str = "") -> Guest:
    """It ends with what a register has."""
    code.call("exit_group", of)
    return Guest(guest_of_code(code), settings, f"exit {wanted % 2**32}")


def make_blocks(code: Code, count: int, size: int) -> None:
    """The place of the last one is in s0."""
    with code.times(count, "s1"):
        code.call("alloc", size)
    code.set("t0", HEAP)
    code.put("sub", "s0", "a0", "t0")


def free_blocks(code: Code, count: int, first: int, step: int, below: int = 0) -> None:
    """Frees blocks from the place of one on, in steps, and by what is below a power of two. The sum of the
    answers comes to s0."""
    code.set("s2", first)
    code.set("s3", step)
    code.set("s4", below - 1)
    code.set("s5", HEAP)
    with code.times(count, "s1"):
        code.put("add", "a0", "s2", "s5")
        code.call("free", "a0")
        code.put("add", "s0", "s0", "a0")
        code.put("add", "s2", "s2", "s3")
        code.put("and", "s2", "s2", "s4")


def blocks_freed(n: int, first: int, step: int, below: int = 0) -> Guest:
    code = Code()
    make_blocks(code, n, 24)
    free_blocks(code, n, first, step, below)
    # all is free again
    code.set("s6", "s0")
    make_blocks(code, 1, 32 * n)
    code.put("add", "s0", "s0", "s6")
    return guest_exiting(code, "s0", 32 * (n - 1))


def freed_in_order(n: int) -> Guest:
    return blocks_freed(n, 0, 32)


def freed_in_reverse(n: int) -> Guest:
    return blocks_freed(n, 32 * (n - 1), -32)


def freed_at_random(n: int) -> Guest:
    """So many that they are a power of two."""
    return blocks_freed(n, 0, 32 * (n * 5 // 8 | 1), 32 * n)


def low_hole(n: int) -> Guest:
    """A block of 8 bytes is freed, and others don't fit there."""
    code = Code()
    make_blocks(code, 1, 8)
    make_blocks(code, 1, 169)
    free_blocks(code, 1, 0, 0)
    make_blocks(code, n, 169)
    return guest_exiting(code, "s0", 16 + 176 * n)


def low_hole_again(n: int) -> Guest:
    """Below many blocks one is freed and made again and again, and each time another one is made behind the
    others."""
    code = Code()
    make_blocks(code, n, 24)
    code.set("s5", HEAP)
    with code.times(n, "s1"):
        code.call("free", "s5")
        code.call("alloc", 24)
        code.call("alloc", 24)
    code.put("sub", "s0", "a0", "s5")
    return guest_exiting(code, "s0", 32 * (2 * n - 1))


def every_second(n: int) -> Guest:
    """Every second block is freed, and others don't fit between."""
    code = Code()
    make_blocks(code, 2 * n, 16)
    free_blocks(code, n, 0, 32)
    make_blocks(code, n, 24)
    return guest_exiting(code, "s0", 32 * n + 32 * (n - 1))


def one_place(n: int) -> Guest:
    """One block lives at a time."""
    code = Code()
    code.set("s5", HEAP)
    code.set("s0", 0)
    with code.times(n, "s1"):
        code.call("alloc", 100)
        code.put("sub", "t0", "a0", "s5")
        code.put("add", "s0", "s0", "t0")
        code.call("free", "a0")
    return guest_exiting(code, "s0", 0)


def random_numbers(count: int, state: int) -> tuple[list[int], int]:
    """So many sizes of 16 to 512 bytes, and the state behind them."""
    sizes = []
    for _ in range(count):
        state = (state * 1664525 + 1013904223) % 2**32
        sizes.append((state >> 23 & 0x1F0) + 16)
    return sizes, state


def places_in_holes(n: int) -> int:
    """The sum of the places of the blocks that holes_of_all_sizes makes last, each the least one that is
    free."""
    sizes, state = random_numbers(n, 1)
    holes: list[list[int]] = []
    at = total = 0
    # (the last one is what lies behind all of them)
    for size in [*sizes, 2**32 + 16]:
        if size & 16 and holes and sum(holes[-1]) == at:
            holes[-1][1] += size
        elif size & 16:
            holes.append([at, size])
        at += size
    for size in random_numbers(n, state)[0]:
        hole = next(it for it in holes if it[1] >= size)
        total += hole[0]
        hole[0], hole[1] = hole[0] + size, hole[1] - size
        if hole[1] == 0:
            holes.remove(hole)
    return total


def draw_size(code: Code) -> None:
    """The next one is in a0, of the state in s3."""
    code.put("mul", "s3", "s3", "s4")
    code.put("add", "s3", "s3", "s5")
    code.put("srl", "a0", "s3", "s6")
    code.put("and", "a0", "a0", "s7")
    code.addi("a0", "a0", 16)


def draw_holes(n: int) -> Code:
    """Of blocks of 16 to 512 bytes those of an odd number of sixteens are freed, and as many are made again
    as before. The sum of their places is in s0."""
    code = Code()
    for register, value in (
        ("s3", 1),
        ("s4", 1664525),
        ("s5", 1013904223),
        ("s6", 23),
        ("s7", 0x1F0),
        ("s8", 16),
        ("s11", 4),
    ):
        code.set(register, value)
    with code.times(n, "s1"):
        draw_size(code)
        code.call("alloc", "a0")
    code.set("s9", "s3")
    code.set("s3", 1)
    code.set("s2", HEAP)
    with code.times(n, "s1"):
        draw_size(code)
        code.set("s10", "a0")
        code.put("and", "t0", "a0", "s8")
        # (a free of 0 does nothing)
        code.put("mul", "t0", "t0", "s2")
        code.put("srl", "a0", "t0", "s11")
        code.call("free", "a0")
        code.put("add", "s2", "s2", "s10")
    code.set("s3", "s9")
    code.set("s0", 0)
    code.set("s2", HEAP)
    with code.times(n, "s1"):
        draw_size(code)
        code.call("alloc", "a0")
        code.put("add", "s0", "s0", "a0")
        code.put("sub", "s0", "s0", "s2")
    return code


def holes_of_all_sizes(n: int) -> Guest:
    return guest_exiting(draw_holes(n), "s0", places_in_holes(n))


# ---- Lines that two harts share.


def two_harts(n: int) -> Code:
    """Code whose second hart, which begins at WORKER, writes the words of n lines from its argument on."""
    code = Code()
    code.jump("begin")
    with code.times(n, "t1"):
        code.store("zero", "a0")
        code.addi("a0", "a0", LINE)
    code.call("exit", 0)
    code.label("begin")
    return code


def share_lines(code: Code, n: int, first: int | str) -> None:
    """Each hart writes a word of its own in each of n lines from a place on."""
    code.set("s2", first)
    code.addi("a1", "s2", 4)
    code.call("spawn", WORKER, "a1")
    code.set("s3", "a0")
    with code.times(n, "s1"):
        code.store("zero", "s2")
        code.addi("s2", "s2", LINE)
    code.call("join", "s3")


def lines(n: int) -> Guest:
    code = two_harts(n)
    share_lines(code, n, DATA)
    code.call("exit_group", 0)
    return Guest(guest_with_data(code, LINE * n), LISTED, run=((f"lines {n}", 1), ("word", 2 * n)))


def symbols(n: int) -> Guest:
    """A variable on each line."""
    code = two_harts(n)
    share_lines(code, n, DATA)
    code.call("exit_group", 0)
    places = [(f"variable{i}", DATA + LINE * i, 8, OBJECT) for i in range(n)]
    return Guest(
        guest_with_data(code, LINE * n, places),
        LISTED,
        run=((f"lines {n}", 1), ("object symbol", n)),
        checked=((f"objects {n}", 1),),
    )


def functions(n: int) -> Guest:
    """A block on each line, made by the last of many functions."""
    code = two_harts(n)
    code.jump("main")
    code.label("make")
    code.call("alloc", LINE)
    code.back()
    code.label("main")
    with code.times(n, "s1"):
        code.jump("make", "ra")
    code.set("t0", LINE * (n - 1))
    code.put("sub", "s4", "a0", "t0")
    share_lines(code, n, "s4")
    code.call("exit_group", 0)
    places = [(f"function{i}", DATA + 4 * i, 4, FUNCTION) for i in range(n)] + [
        ("all", CODE, 4 * len(code.words), FUNCTION)
    ]
    return Guest(
        guest_with_data(code, 4 * n, places),
        LISTED,
        run=((f"lines {n}", 1), ("object block", n), ("site", n)),
    )


def noted(n: int) -> Guest:
    """A noted block on each line; the last one dies first."""
    code = two_harts(n)
    code.set("s4", DATA)
    with code.times(n, "s1"):
        code.call("block", "s4", 48)
        code.addi("s4", "s4", LINE)
    share_lines(code, n, DATA)
    code.set("s0", 0)
    with code.times(n, "s1"):
        code.addi("s2", "s2", -LINE)
        code.call("unblock", "s2")
        code.put("add", "s0", "s0", "a0")
    code.call("exit_group", "s0")
    return Guest(
        guest_with_data(code, LINE * n), LISTED, run=((f"lines {n}", 1), ("object block", n))
    )


def noted_at_one_place(n: int) -> Guest:
    code = Code()
    code.set("s2", DATA)
    code.set("s0", 0)
    with code.times(n, "s1"):
        code.call("block", "s2", 48)
        code.put("add", "s0", "s0", "a0")
    code.call("exit_group", "s0")
    return Guest(guest_with_data(code, LINE))


def noted_wide(n: int) -> Guest:
    """So many noted blocks of so many pages."""
    code = Code()
    code.set("s2", DATA)
    code.set("s0", 0)
    with code.times(n, "s1"):
        code.call("block", "s2", 4096 * n)
        code.put("add", "s0", "s0", "a0")
    code.call("exit_group", "s0")
    return Guest(guest_with_data(code, 4096 * n), "memory=67108864")


# ---- Instructions that take one line from each other.


def stores(n: int) -> Code:
    """So many stores, one behind the other, by two harts."""
    code = Code()
    code.call("spawn", CODE + 4 * 12, DATA + 4)
    code.set("a0", DATA)
    while len(code.words) < 12:
        code.addi("zero", "zero", 0)
    for _ in range(n):
        code.store("zero", "a0")
    code.set("a0", 0)
    code.call("exit", "a0")
    return code


def sites(n: int) -> Guest:
    explained = ((f"line 0x{DATA:08x}", 1), (f"sites {n}", 1), ("pair", -n))
    return Guest(
        guest_with_data(stores(n), LINE), LISTED, run=(("lines 1", 1),), explained=explained
    )


def sites_in_functions(n: int) -> Guest:
    """Each in a function of its own, of which the table has the last one first."""
    places = [(f"function{i}", CODE + 4 * (12 + i), 4, FUNCTION) for i in range(n)]
    explained = ((f"sites {n}", 1), ("pair", -n))
    return Guest(
        guest_with_data(stores(n), LINE, places[::-1]),
        LISTED,
        explained=explained,
        checked=((f"functions {n}", 1),),
    )


# ---- Harts.


def begin_harts(code: Code, harts: int = 256) -> None:
    """All others, which begin at WORKER."""
    with code.times(harts - 1, "s1"):
        code.call("spawn", WORKER, 0)


def waits(n: int) -> Guest:
    """255 harts wait at a word, of which one is woken at a time and waits again. It ends with how many were
    woken."""
    code = Code()
    code.jump("begin")
    code.label("worker")
    code.call("wait", DATA, 0)
    code.jump("worker")
    code.label("begin")
    begin_harts(code)
    # (until the last one waits)
    with code.times(2000, "s1"):
        code.addi("zero", "zero", 0)
    code.set("s0", 0)
    with code.times(n, "s1"):
        code.call("wake", DATA, 1)
        code.put("add", "s0", "s0", "a0")
    code.call("exit_group", "s0")
    return Guest(guest_with_data(code, LINE), "harts=256,stack=4096,quantum=1", f"exit {n}")


def spawns(n: int) -> Guest:
    """A hart begins, ends and is joined, again and again. It ends with the sum of the codes."""
    code = Code()
    code.jump("begin")
    code.call("exit", 3)
    code.label("begin")
    code.set("s0", 0)
    with code.times(n, "s1"):
        code.call("spawn", WORKER, 0)
        code.call("join", "a0")
        code.put("add", "s0", "s0", "a0")
    return guest_exiting(code, "s0", 3 * n)


def turns(n: int, harts: int = 256) -> Guest:
    """Harts go round."""
    code = Code()
    code.jump("begin")
    code.label("worker")
    code.jump("worker")
    code.label("begin")
    begin_harts(code, harts)
    code.jump("worker")
    settings = f"harts={harts},stack=4096,quantum=1,budget={16 * n}"
    return Guest(guest_of_code(code), settings, "budget", ((f"steps {16 * n}", 1),), status=10)


def drawn_turns(n: int) -> Guest:
    """The same by drawn turns, which go to fewer harts, since the first one begins the others by few of
    them."""
    guest = turns(n, 64)
    return guest._replace(settings=f"{guest.settings},seed=1")


def prints(n: int) -> Guest:
    """So many pieces of 64 bytes are put out."""
    code = Code()
    with code.times(n, "s1"):
        code.call("write", 1, CODE, 64)
    return guest_exiting(code, "a0", 64)


# ---- Program files.


def segments(n: int) -> Guest:
    """As many headers as there may be, or a fourth; each places 4 bytes."""
    code = Code()
    code.call("exit_group", 0)
    rows = [Segment(DATA + 8 * i, b"", 4, 6) for i in range(n - 1)]
    program = elf([Segment(CODE, code.bytes(), 4 * len(code.words), 5), *rows])
    return Guest(program, checked=(("segment", n),))


def names_of_one(n: int) -> Guest:
    """The names of symbols are the ends of one long name."""
    code = Code()
    code.call("exit_group", 0)
    rows = [Symbol(1 + i, DATA + 4 * i, 4, OBJECT) for i in range(n)]
    program = elf(
        [Segment(CODE, code.bytes(), 4 * len(code.words), 5)], rows, b"\0" + b"n" * n + b"\0"
    )
    return Guest(program, checked=((f"objects {n}", 1),))


def large(n: int) -> Guest:
    """A file of so many bytes and its header."""
    code = Code()
    code.call("exit_group", 0)
    content = code.bytes() + bytes(n - 4 * len(code.words) - 400)
    return Guest(
        elf([Segment(CODE, content, len(content), 7)]), "memory=67108864", checked=(("segment", 1),)
    )


CASES = [
    GuestCase("guest: blocks freed in order", freed_in_order, 4096, "run run--trace"),
    GuestCase("guest: blocks freed in reverse", freed_in_reverse, 4096, "run"),
    GuestCase("guest: blocks freed at random", freed_at_random, 4096, "run"),
    GuestCase("guest: a low hole", low_hole, 1024, "run"),
    GuestCase("guest: a low hole again and again", low_hole_again, 512, "run"),
    GuestCase("guest: every second block freed", every_second, 512, "run"),
    GuestCase("guest: holes of all sizes", holes_of_all_sizes, 1024, "run"),
    GuestCase("guest: blocks at one place", one_place, 4096, "run"),
    GuestCase("guest: noted blocks", noted, 2048, "run run--trace"),
    GuestCase("guest: noted blocks at one place", noted_at_one_place, 4096, "run"),
    GuestCase("guest: noted blocks, more and wider", noted_wide, 1024, "run", 1 << 13),
    GuestCase("guest: lines", lines, 4096, "run run--trace run--pcs explain"),
    GuestCase("guest: symbols", symbols, 2048, "run check"),
    GuestCase("guest: functions", functions, 1024, "run"),
    GuestCase("guest: sites", sites, 2048, "explain run"),
    GuestCase("guest: sites in functions", sites_in_functions, 2048, "explain check"),
    GuestCase("guest: 256 harts that wait", waits, 8192, "run"),
    GuestCase("guest: harts one after another", spawns, 8192, "run"),
    GuestCase("guest: turns of 256 harts", turns, 8192, "run run--pcs"),
    GuestCase("guest: drawn turns of 64 harts", drawn_turns, 8192, "run"),
    GuestCase("guest: much output", prints, 8192, "run run--output"),
    GuestCase("program file: segments", segments, 2048, "check", 65535),
    GuestCase("program file: names in one", names_of_one, 4096, "check"),
    GuestCase("program file: large", large, 1 << 22, "check run", 1 << 24),
]
