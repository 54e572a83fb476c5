"""What llvm-objdump prints of instructions, and where functions begin."""

import re
import struct
from typing import NamedTuple, Sequence

from view.names.symbolizer import symbolize

# A function is looked through from its start up to an instruction that lies so far in it.
FAR = 1 << 16
DISASSEMBLY_ROW = re.compile(r"^ *([0-9a-f]+):\s+([a-z][a-z0-9._]*)\s*(.*)$")
RISCV_MACHINE = 243
# (what an older compiler or a small linker writes says nothing of its extensions)
RISCV_EXTENSIONS = ["--mattr=+m,+a,+f,+d,+c"]


class DisassemblyRow(NamedTuple):
    """An instruction as it is printed."""

    addr: int
    name: str
    operands: str


def function_starts(file: str, addresses: Sequence[int]) -> dict[int, int]:
    """Where the function of each address begins, by llvm-symbolizer, and else the address itself."""
    found = {it: it for it in addresses}
    for addr, answer in zip(addresses, symbolize((file, it) for it in addresses)):
        symbols = answer.get("Symbol", [])
        start = symbols[-1].get("StartAddress", "") if symbols else ""
        if start and 0 <= addr - int(start, 16) <= FAR:
            found[addr] = int(start, 16)
    return found


def is_riscv(file: str) -> bool:
    with open(file, "rb") as text:
        head = text.read(20)
    return len(head) == 20 and bool(struct.unpack_from("<H", head, 18)[0] == RISCV_MACHINE)
