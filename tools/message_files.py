"""The files that messages.py gives to the program, each of them wrong in one way, and what is to be said of
it by docs/FORMATS.md and crates/command_io. `*` stands for a report, which isn't looked at."""

import os
import shutil
import struct
from typing import Iterator

from rv32 import CODE, Code, Segment, elf, symbol_table
from traces import OBJECT

DATA = os.path.join(
    os.path.dirname(os.path.abspath(__file__)), "..", "crates", "worked_runs", "data"
)
WORDS = 0x20000
Fault = tuple[list[str], int, str, str]
BUILD = "build it for RV32IMA with guest/build.sh"
LINK = "link it statically at fixed addresses with -static -no-pie"
DAMAGED = "the file is damaged or cut off (docs/FORMATS.md describes the format)"
NO_PCS = (
    "the trace has no pcs: record a guest with `predator run PROGRAM --pcs --trace F`, or a program"
    " of this machine with `predator native --pcs --trace F -- PROGRAM`"
)
FILTERED = "the trace is filtered, and "
SMALLER = "the trace was filtered for "
AGAIN = "link the program again, since the file is damaged or cut off"
SCRIPT = "link it with guest/link.ld, or a linker script like it"
ENTRY = "set the entry to the address of an instruction, as guest/start.S does"


def trace(records: bytes, accesses: int, first: int = 0, harts: int = 8) -> bytes:
    return (
        struct.pack("<8sQHH", b"PRDTRC01", first, harts, 0)
        + records
        + struct.pack("<B8xQQ", 6, accesses, accesses)
    )


def write(addr: int, hart: int = 0) -> bytes:
    return struct.pack("<BHIB", 2, hart, addr, 4)


def symbol(size: int, name: bytes, addr: int = 0x1000) -> bytes:
    return struct.pack("<BBIIH", 5, OBJECT, addr, size, len(name)) + name


def program(names: bytes = b"") -> bytes:
    code = Code()
    code.call("exit_group", 0)
    symbols, own = symbol_table([("words", WORDS, 4, OBJECT)])
    return elf(
        [Segment(CODE, code.bytes(), 4 * len(code.words), 5), Segment(WORDS, b"\1\0\0\0", 4, 6)],
        symbols,
        names or own,
    )


def patch_program(place: int, form: str, value: int) -> bytes:
    """The program with another number at a place of its file."""
    made = bytearray(program())
    struct.pack_into(form, made, place, value)
    return bytes(made)


# The places of the header of a program, of its second segment's and of its symbol table's.
SECOND = 52 + 32
SYMBOLS = 40 + int.from_bytes(program()[32:36], "little")
PROGRAMS = {
    "magic.elf": (patch_program(0, "<B", 1), "BadMagic", f"the file is not an ELF file: {BUILD}"),
    "empty.elf": (b"", "TooShort", f"the file is not an ELF file: {BUILD}"),
    "script": (b"#!/bin/sh\n", "TooShort", f"the file is a script: {BUILD}"),
    "wide.elf": (
        patch_program(4, "<B", 2),
        "BadClass",
        f"the file is an ELF file for RV64: {BUILD}",
    ),
    "amd64.elf": (
        b"\x7fELF\x02\x01\x01".ljust(16, b"\0") + struct.pack("<HH44x", 3, 62),
        "BadClass",
        f"the file is an ELF file for x86-64: {BUILD}",
    ),
    "turned.elf": (
        patch_program(5, "<B", 2),
        "BadData",
        f"the file is an ELF file for another machine: {BUILD}",
    ),
    "version.elf": (
        patch_program(6, "<B", 2),
        "BadVersion",
        f"the file has an unknown ELF version: {AGAIN}",
    ),
    "object.elf": (
        patch_program(16, "<H", 1),
        "BadType",
        f"the file is an object file, not linked yet: {LINK}",
    ),
    "shared.elf": (
        patch_program(16, "<H", 3),
        "BadType",
        f"the file is a shared object or a position-independent program: {LINK}",
    ),
    "core.elf": (
        patch_program(16, "<H", 4),
        "BadType",
        f"the file is not an executable with fixed addresses: {LINK}",
    ),
    "x86.elf": (
        patch_program(18, "<H", 3),
        "BadMachine",
        f"the file is an ELF file for x86: {BUILD}",
    ),
    "arm.elf": (
        patch_program(18, "<H", 40),
        "BadMachine",
        f"the file is an ELF file for ARM: {BUILD}",
    ),
    "arm64.elf": (
        patch_program(18, "<H", 183),
        "BadMachine",
        f"the file is an ELF file for AArch64: {BUILD}",
    ),
    "flags.elf": (
        patch_program(36, "<I", 1),
        "BadFlags",
        (
            "the program uses compressed instructions, floating-point registers or RV32E registers:"
            " compile it for little-endian RV32 with -march=rv32ima -mabi=ilp32"
        ),
    ),
    "headers.elf": (
        patch_program(42, "<H", 31),
        "BadHeaderSize",
        f"the ELF headers have the wrong size for RV32: {AGAIN}",
    ),
    "outside.elf": (
        patch_program(28, "<I", 1 << 20),
        "HeadersOutside",
        f"the ELF headers extend past the end of the file: {AGAIN}",
    ),
    "dynamic.elf": (
        patch_program(SECOND, "<I", 2),
        "Dynamic",
        f"the program is linked dynamically: {LINK}",
    ),
    "segment.elf": (
        patch_program(SECOND + 4, "<I", 1 << 20),
        "SegmentOutsideFile",
        f"a segment extends past the end of the file: {AGAIN}",
    ),
    "sizes.elf": (
        patch_program(SECOND + 20, "<I", 3),
        "SegmentSizes",
        f"a segment is larger in the file than in memory, or ends above 2^32: {SCRIPT}",
    ),
    "overlap.elf": (
        patch_program(SECOND + 8, "<I", CODE),
        "SegmentOverlap",
        f"two segments overlap: {SCRIPT}",
    ),
    "high.elf": (
        patch_program(SECOND + 8, "<I", 1 << 31),
        "SegmentOutsideMemory",
        (
            "the segments, the stacks and a heap do not fit in memory: "
            "set a larger `memory`, fewer `harts` or a smaller `stack` in the settings"
        ),
    ),
    "odd.elf": (
        patch_program(24, "<I", CODE + 2),
        "EntryMisaligned",
        f"the entry address is not a multiple of 4: {ENTRY}",
    ),
    "entry.elf": (
        patch_program(24, "<I", WORDS),
        "EntryNotExecutable",
        f"the entry address is not executable: {ENTRY}",
    ),
    "table.elf": (
        patch_program(SYMBOLS + 20, "<I", 17),
        "BadSymbols",
        "the symbol table is damaged: remove the symbols with llvm-strip",
    ),
    "name.elf": (
        program(b"\0words"),
        "BadSymbolName",
        "the name of a symbol has no end: remove the symbols with llvm-strip",
    ),
    "long.elf": (
        program().ljust((1 << 24) + 1, b"\0"),
        "TooLong",
        "the file is larger than 16 MiB: make it smaller with llvm-strip --strip-debug",
    ),
}
TRACES = {
    "magic": (
        b"PRDTRC00" + bytes(37),
        "BadMagic",
        (
            "the file is not a trace: write one with `predator run PROGRAM --trace F` or"
            " tools/to_trace.py"
        ),
    ),
    "harts": (
        trace(b"", 0, harts=257),
        "BadHarts",
        f"the number of harts is not from 1 to 256: {DAMAGED}",
    ),
    "tag": (trace(b"\7", 0), "BadTag 20", f"byte 20 begins no record: {DAMAGED}"),
    "field": (
        trace(write(0x1000, 8), 1),
        "BadField 21",
        f"the field at byte 21 is invalid: {DAMAGED}",
    ),
    "short": (
        b"harts = 0\n",
        "Truncated 10",
        "the trace is cut off after 10 bytes: record or copy it again",
    ),
    "nine": (
        b"PRDTRC01\0",
        "Truncated 9",
        "the trace is cut off after 9 bytes: record or copy it again",
    ),
    "count": (
        trace(b"", 3),
        "CountMismatch 3 0",
        f"the end record says 3 accesses, the trace has 0: {DAMAGED}",
    ),
    "after": (
        trace(b"", 0) + b"\0",
        "AfterEnd 45",
        f"byte 45 follows the end of the trace: {DAMAGED}",
    ),
    "many": (
        trace(write(0x1000) * 2, 2, first=2**40 - 1),
        "TooLong",
        "the trace has more than 2^40 accesses, or 2^44 bytes or more",
    ),
}
SCHEDULES = {
    "line": (
        b"\n0 5\n0  1\n",
        "BadLine 3",
        "line 3 is not a hart, one space and a count: write it like `0 500`",
    ),
    "hart": (
        b"8 1\n",
        "HartOutOfRange 1",
        (
            "line 1 names a hart that does not exist: number the harts from 0, and set how many"
            " there are with `harts` in the settings (usually 8)"
        ),
    ),
    "zero": (
        b"0 1\n0 0\n",
        "ZeroCount 2",
        "line 2 has a count of 0: set it to 1 or more, or remove the line",
    ),
    "lines": (
        b"0 1\n" * ((1 << 18) + 1),
        "TooLong",
        "the schedule is larger than 1 MiB: shorten it",
    ),
}
FORM = (
    "is not a valid FROM SIZE TO: write it like `0x11004 4 0x11040`, with single spaces, multiples"
    " of 4, SIZE at least 4, FROM + SIZE and TO + SIZE at most 2^32, and FROM at or above the end"
    " of the previous range"
)
TABLES = {
    "odd.moves": (b"\n0 6 8\n", "BadLine 2", f"line 2 {FORM}"),
    "back.moves": (b"8 4 8\n0 4 0\n", "BadLine 2", f"line 2 {FORM}"),
    "meet.moves": (
        b"0 8 64\n8 4 68\n",
        "Overlap 2",
        "the target of line 2 overlaps the target of an earlier line: move it elsewhere",
    ),
    "third.moves": (
        b"0 4 64\n\n8 4 64\n",
        "Overlap 3",
        "the target of line 3 overlaps the target of an earlier line: move it elsewhere",
    ),
    "long.moves": (
        b"\n" * ((1 << 20) + 1),
        "TooLong",
        "the table is larger than 1 MiB: shorten it",
    ),
}
# Lines of tables, each just beyond a rule, and behind it the line that keeps it.
LINES = {
    b"2 4 8": b"4 4 8",
    b"4 4 10": b"4 4 12",
    b"4 6 8": b"4 8 16",
    b"4 0 8": b"4 4 8",
    b"0xfffffffc 8 0": b"0xfffffffc 4 0",
    b"0 8 0xfffffffc": b"0 4 0xfffffffc",
    b"4294967296 4 0": b"4294967292 4 0",
    b"0 4294967300 0": b"0 4294967296 0",
    b"04 4 8": b"4 4 8",
    b"0x 4 8": b"0x4 4 8",
    b"0x123456789 4 0": b"0x12345678 4 0",
    b"0X4 4 8": b"0xA0 4 0xa0",
    b"+4 4 8": b"4 4 8",
    b"-4 4 8": b"4 4 8",
    b"4  4 8": b"4 4 8",
    b" 4 4 8": b"4 4 8",
    b"4 4 8 ": b"4 4 8",
    b"4\t4\t8": b"4 4 8",
    b"4 4": b"4 4 8",
    b"4 4 8 8": b"4 4 8",
    b"4 4 8\r": b"4 4 8",
    b"# 4": b"",
    b"\0": b"",
    b"4 4 8\n4 4 12": b"4 4 8\n8 4 12",
}
FILES: dict[str, bytes] = {
    "table": b"0 4 0xfffffffc\n",
    "way": b"0x1000 4 0x1004\n",
    "beside": b"0x10c0 4 0x1040\n",
    # two harts in words that aren't near, under regions of 64 bytes
    "filtered": struct.pack("<8sQHH", b"PRDTRC04", 0, 8, 6)
    + bytes.fromhex("240080400014018003 00")
    + struct.pack("<B16xQQ", 6, 2, 4),
    "t": trace(symbol(8, b"pair") + write(0x1000) + write(0x1004, 1), 2),
    "p": program(),
    "rest": trace(b"", 0, first=1),
    "empty": trace(b"", 0),
    "few": trace(b"", 0, first=2, harts=4),
    "behind": trace(b"", 0, first=2),
    "late": trace(b"", 0, first=6000),
    "second": b"PRDTRC02" + trace(b"", 0)[8:],
    "large": trace(symbol((1 << 24) + 4, b"large") + write(0x1000), 1),
    "full": trace(symbol(8, b"pair") + write(0x1000) + write(0xFFFFFFFC), 2),
    "twice": b"quantum = 1\n\nquantum = 2\n",
    "no_toml": b"\nquantum\n",
    "longest": b"#" * (1 << 16),
    "long": b"#" * ((1 << 16) + 1),
    "unknown": b"quantom = 3\n",
    "odd": '"h\\u007f\\u009b" = 1\n'.encode(),
    "harts.0": b"harts = 0\n",
}


def put_files() -> None:
    for kind in (PROGRAMS, TRACES, SCHEDULES, TABLES):
        for name, row in kind.items():
            put_file(name, row[0])
    for at, (wrong, right) in enumerate(LINES.items()):
        put_file(f"wrong.{at}", wrong)
        put_file(f"right.{at}", right)
    for name, content in FILES.items():
        put_file(name, content)
    put_file("state", b"bad")
    for name in ("waits_for_ever.elf", "traps.elf", "plain.elf", "shares.elf"):
        shutil.copy(os.path.join(DATA, name), name)


def put_file(name: str, content: bytes) -> None:
    with open(name, "wb") as file:
        file.write(content)


def list_faults() -> Iterator[Fault]:
    """Each fault. The file `saved` is the state of `t`."""
    for name, row in PROGRAMS.items():
        yield ["check", name], 2, f"elf {row[1]}", f"{name}: {row[2]}"
    for name, row in TRACES.items():
        yield ["convert", name, "a"], 5, f"trace {row[1]}", f"{name}: {row[2]}"
    for name, row in SCHEDULES.items():
        yield ["run", "p", "--schedule", name], 3, f"schedule {row[1]}", f"{name}: {row[2]}"
    for name, row in TABLES.items():
        yield ["move", "t", name, "a"], 14, f"table {row[1]}", f"{name}: {row[2]}"
    for at, line in enumerate(LINES):
        number = line.count(b"\n") + 1
        yield [
            "move",
            "empty",
            f"wrong.{at}",
            "a",
        ], 14, f"table BadLine {number}", f"wrong.{at}: line {number} {FORM}"
        yield ["move", "empty", f"right.{at}", "a"], 0, "move 0 0", ""
    occupied = (
        "t: an access at this address stays, and other accesses would move to it: "
        "move them elsewhere, or add a line for this address"
    )
    yield ["move", "t", "way", "a"], 14, "table Occupied 0x00001004", occupied
    far = (
        "filtered: the trace is filtered, and a range would move near an access at this address"
        " from memory that was not near it: record the whole trace, or filter it with a larger"
        " --near"
    )
    yield ["move", "filtered", "beside", "a"], 14, "table Far 0x00001000", far
    for name in ("t", "second"):
        yield ["blame", name], 5, "trace NoPcs", f"{name}: {NO_PCS}"
    needed = (
        f"filtered: {FILTERED}this command needs all accesses: use the trace that was filtered, or"
        " record the program without a filter"
    )
    yield ["place", "filtered", "pair"], 5, "trace Filtered", needed
    yield ["split", "filtered", "3", "a", "b"], 5, "trace Filtered", needed
    saved = (
        f"filtered: {FILTERED}a saved state needs all accesses: replay it without --save and"
        " --resume, or use the trace that was filtered"
    )
    yield ["replay", "filtered", "--size", "32", "--save", "a"], 5, "trace Filtered", saved
    yield ["replay", "filtered", "--resume", "saved"], 5, "trace Filtered", saved
    wide = f"filtered: {SMALLER}smaller lines: choose smaller lines, or filter for larger ones"
    yield ["misses", "filtered", "--size", "64"], 0, "*", ""
    yield ["misses", "filtered", "--size", "128"], 5, "trace TooWide", wide
    doubled = (
        f"filtered: {SMALLER}lines smaller than the predicted ones, which have twice the size:"
        " choose smaller lines with --size, or filter for larger ones"
    )
    yield ["replay", "filtered", "--size", "32"], 0, "*", ""
    yield ["replay", "filtered"], 5, "trace TooWide", doubled
    none = (
        "no object symbol of the trace has this name, and not exactly one block was allocated at"
        " that address: name another object"
    )
    yield ["place", "t", "none"], 13, "place NoObject", none
    yield [
        "place",
        "large",
        "large",
    ], 13, "place TooLarge", "the object is larger than 16 MiB: name a smaller one"
    yield [
        "place",
        "full",
        "pair",
    ], 13, "place NoRoom", (
        "the object's words do not fit between the last access and th"
        "e end of the addresses: name a smaller object"
    )
    yield [
        "run",
        "plain.elf",
        "--set",
        "budget=2",
    ], 10, "*", "the run used its whole budget: set a larger `budget`, at most 68719476736"
    yield [
        "run",
        "waits_for_ever.elf",
    ], 11, "*", "every remaining hart waits for a wake-up or for the end of another hart"
    yield [
        "run",
        "traps.elf",
    ], 12, "*", "find the source line of the outcome's pc with `llvm-symbolizer --obj=PROGRAM PC`"
    yield [
        "replay",
        "rest",
    ], 6, "state WrongPosition 0 1", (
        "rest: the first access of the trace is number 1, not 0: repl"
        "ay the parts before it first"
    )
    yield [
        "replay",
        "late",
    ], 6, "state WrongPosition 0 6000", (
        "late: the first access of the trace is number 6000, not 0: repl"
        "ay the parts before it first"
    )
    yield ["check", "p", "--settings", "longest"], 0, "*", ""
    taken = "the last thread could not start: all 1 harts are in use (setting `harts`, at most 256)"
    yield ["run", "shares.elf", "--set", "harts=1"], 0, "*", taken
    yield ["run", "shares.elf", "--set", "harts=2"], 0, "*", ""
    yield [
        "replay",
        "t",
        "--resume",
        "state",
    ], 6, "state BadState 0", "state: byte 0 is wrong: the file is not a saved state, or it is cut off"
    yield [
        "replay",
        "few",
        "--resume",
        "saved",
    ], 6, "state WrongSettings 32", "few: the trace and the saved state differ in their number of harts"
    yield [
        "replay",
        "behind",
        "--resume",
        "saved",
        "--size",
        "32",
    ], 6, "state WrongSettings 8", (
        "saved: the state was saved with another layout or thresholds"
        ", as byte 8 shows: use the same"
    )
    yield [
        "replay",
        "rest",
        "--resume",
        "saved",
    ], 6, "state WrongPosition 2 1", (
        "rest: the first access of the trace is number 1, not 2: "
        "replay the parts before it first"
    )
