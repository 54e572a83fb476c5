#!/usr/bin/env python3
"""Assembles each program of programs.S into crates/worked_runs/data/NAME.elf: a header, its segments, its
code, and its symbols where it has any, as small as can be. It takes clang with the target riscv32, and
llvm-objcopy."""

import os
import re
import struct
import subprocess
import tempfile

HERE = os.path.dirname(os.path.abspath(__file__))
DATA = os.path.join(HERE, "..", "..", "crates", "worked_runs", "data")
BASE = 0x10000


def assemble(text, work):
    source, made, code = (os.path.join(work, it) for it in ("it.S", "it.o", "it.bin"))
    with open(source, "w") as out:
        out.write(text)
    target = ["--target=riscv32-unknown-none-elf", "-march=rv32ima", "-mabi=ilp32", "-mno-relax"]
    subprocess.run(["clang", *target, "-c", source, "-o", made], check=True)
    subprocess.run(["llvm-objcopy", "-O", "binary", "-j", ".text", made, code], check=True)
    with open(code, "rb") as file:
        return file.read()


def parse_more(text):
    """What the lines `#+ ..` under a heading say: the rights of the code, the segments of zeros, and the
    functions."""
    rights, zeros, functions = 7, [], []
    for words in (line.split()[1:] for line in text.splitlines() if line.startswith("#+")):
        if words[0] == "rights":
            rights = int(words[1])
        elif words[0] == "zeros":
            zeros.append((int(words[1], 0), int(words[2])))
        else:
            functions.append((words[1], int(words[2], 0), int(words[3])))
    return rights, zeros, functions


def section_bytes(functions, place):
    """The symbols of functions, their names, and the three section headers, from a place in the file on."""
    names, symbols = b"\0", bytes(16)
    for name, addr, size in functions:
        symbols += struct.pack("<IIIBBH", len(names), addr, size, 0x12, 0, 1)
        names += name.encode() + b"\0"
    names += bytes(-len(names) % 4)
    table = struct.pack("<10I", 0, 2, 0, 0, place, len(symbols), 2, 1, 4, 16)
    strings = struct.pack("<10I", 0, 3, 0, 0, place + len(symbols), len(names), 0, 0, 1, 0)
    return symbols + names, bytes(40) + table + strings


def elf_bytes(code, rights, zeros, functions):
    segments = 1 + len(zeros)
    begin = 52 + 32 * segments
    content, sections = section_bytes(functions, begin + len(code)) if functions else (b"", b"")
    table = begin + len(code) + len(content) if functions else 0
    header = struct.pack(
        "<4sBBB9xHHIIIIIHHHHHH",
        b"\x7fELF",
        1,
        1,
        1,
        2,
        243,
        1,
        BASE,
        52,
        table,
        0,
        52,
        32,
        segments,
        40 if functions else 0,
        len(sections) // 40,
        0,
    )
    headers = struct.pack("<8I", 1, begin, BASE, 0, len(code), len(code), rights, 0)
    for addr, size in zeros:
        headers += struct.pack("<8I", 1, 0, addr, 0, 0, size, 6, 0)
    return header + headers + code + content + sections


with open(os.path.join(HERE, "programs.S")) as file:
    parts = re.split(r"(?m)^#= (\w+): .*\n", file.read())[1:]
with tempfile.TemporaryDirectory() as work:
    for name, text in zip(parts[::2], parts[1::2]):
        with open(os.path.join(DATA, f"{name}.elf"), "wb") as out:
            out.write(elf_bytes(assemble(text, work), *parse_more(text)))
