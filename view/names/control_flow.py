"""The instructions that run before one, by the jumps of its function as llvm-objdump prints them."""

import bisect
import functools
import re
import subprocess
from typing import NamedTuple

from view.names.disassembly import (
    DISASSEMBLY_ROW,
    RISCV_EXTENSIONS,
    DisassemblyRow,
    function_starts,
    is_riscv,
)

# So many instructions before one are looked at, and so many bytes behind it for jumps to it.
MAX_INSTRUCTIONS_BACK, MAX_BYTES_BEHIND = 64, 1 << 12
# What the next instruction doesn't follow, and where a jump goes.
ENDS = re.compile(r"j|jr|jmp|jmpq|ret|retq|tail|ud2|unimp|hlt")
TARGET = re.compile(r"(?:^|[\s,])0x([0-9a-f]+)\b")
CALLS = ("call", "jal")


class Code(NamedTuple):
    """The instructions of a function, and from where each of them is jumped to."""

    rows: list[DisassemblyRow]
    jumps: dict[int, list[int]]


@functools.lru_cache(64)
def disassemble(path: str, begin: int, end: int) -> Code:
    words = [*(RISCV_EXTENSIONS if is_riscv(path) else []), f"--start-address={begin:#x}"]
    ran = subprocess.run(
        ["llvm-objdump", "-d", "--no-show-raw-insn", *words, f"--stop-address={end:#x}", path],
        stdout=subprocess.PIPE,
        stderr=subprocess.DEVNULL,
    )
    matches = map(DISASSEMBLY_ROW.match, ran.stdout.decode("utf-8", "replace").split("\n"))
    rows = [DisassemblyRow(int(it[1], 16), it[2], it[3]) for it in matches if it]
    jumps: dict[int, list[int]] = {}
    for row in rows:
        target = TARGET.search(row.operands) if row.name[0] in "bj" else None
        if target and not row.name.startswith(CALLS):
            jumps.setdefault(int(target[1], 16), []).append(row.addr)
    return Code(rows, jumps)


def instructions_before(path: str, address: int) -> list[int]:
    """The instructions that run before one in its function, the nearest first: where none falls through to it, the one that jumps there."""
    begin = function_starts(path, [address])[address]
    code = disassemble(path, begin, address + MAX_BYTES_BEHIND)
    begins = [it.addr for it in code.rows]
    found: list[int] = []
    at = bisect.bisect_right(begins, address) - 1
    while 0 <= at < len(begins) and len(found) < MAX_INSTRUCTIONS_BACK:
        before = code.rows[at - 1] if at > 0 else None
        if before is None or ENDS.fullmatch(before.name):
            sources = [it for it in code.jumps.get(begins[at], []) if it not in found]
            if not sources:
                break
            found.append(sources[0])
        elif before.addr in found:
            break
        else:
            found.append(before.addr)
        at = bisect.bisect_left(begins, found[-1])
    return found
