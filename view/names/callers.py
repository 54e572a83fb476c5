"""The call sites of a guest's functions, read from its code: which lines of the program call a function of the kit."""

import struct
from bisect import bisect_right
from typing import TYPE_CHECKING, Callable, Iterator, NamedTuple

if TYPE_CHECKING:
    from view.names.fields import Program

# Operation codes of RV32, and the registers of a call and of a jump that doesn't come back.
AUIPC, JAL, JALR, RETURN_REGISTER, NO_REGISTER = 0x17, 0x6F, 0x67, 1, 0
INSTRUCTION_BYTES, PAGE = 4, 12
RISCV = "EM_RISCV"


class CodeCall(NamedTuple):
    """A call: where its instruction is, and where it goes."""

    site: int
    target: int


def sign_extended(value: int, bits: int) -> int:
    return value - (1 << bits) if value >> (bits - 1) else value


def jump_offset(word: int) -> int:
    """How far a `jal` goes."""
    parts = (word >> 31) << 20 | (word >> 12 & 0xFF) << 12 | (word >> 20 & 1) << 11
    return sign_extended(parts | (word >> 21 & 0x3FF) << 1, 21)


def calls_in(code: bytes, begin: int) -> Iterator[CodeCall]:
    """The calls of some code of RV32 without compressed instructions: `jal`, and `jalr` behind the `auipc` of its register."""
    upper: dict[int, int] = {}
    for at, (word,) in enumerate(struct.iter_unpack("<I", code[: len(code) // 4 * 4])):
        addr, operation, to = begin + INSTRUCTION_BYTES * at, word & 0x7F, word >> 7 & 31
        if operation == AUIPC:
            upper = {to: addr + sign_extended(word >> PAGE, 20) * (1 << PAGE)}
            continue
        if operation == JAL and to in (RETURN_REGISTER, NO_REGISTER):
            yield CodeCall(addr, addr + jump_offset(word))
        elif operation == JALR and word >> 15 & 31 in upper:
            yield CodeCall(addr, upper[word >> 15 & 31] + sign_extended(word >> 20, 12))
        upper = {}


class Callers:
    """The calls of a program between its functions."""

    def __init__(self, program: "Program") -> None:
        symbols = program.symbols_of("STT_FUNC")
        self.functions = sorted({(at, at + size) for at, size, _ in symbols if size})
        self.sites: dict[int, list[int]] = {}
        if program.elf["e_machine"] != RISCV:
            return
        for segment in program.elf.iter_segments():
            if segment["p_type"] == "PT_LOAD" and segment["p_flags"] & 1:
                self.add(segment.data(), segment["p_vaddr"])

    def add(self, code: bytes, begin: int) -> None:
        for call in calls_in(code, begin):
            own, other = self.function_of(call.site), self.function_of(call.target)
            if own != other and other == call.target:
                self.sites.setdefault(other, []).append(call.site)

    def function_of(self, addr: int) -> int | None:
        """Where the function begins that an address lies in, or none."""
        at = bisect_right(self.functions, addr, key=lambda it: it[0]) - 1
        return self.functions[at][0] if at >= 0 and addr < self.functions[at][1] else None

    def outer_sites(self, addr: int, is_inner: Callable[[int], bool]) -> list[CodeCall]:
        """The calls that come to the function of an address, through functions of `is_inner` alone, from code that isn't of these:
        each with the function that it calls."""
        first = self.function_of(addr)
        seen, waiting, found = {first}, [first], []
        while waiting:
            own = waiting.pop()
            for site in self.sites.get(own, []) if own is not None else []:
                if not is_inner(site):
                    found.append(CodeCall(site, own or 0))
                elif (caller := self.function_of(site)) not in seen:
                    seen.add(caller)
                    waiting.append(caller)
        return sorted(found)
