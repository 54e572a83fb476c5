"""A slow machine for small programs, from docs/FORMATS.md and guest/README.md: the tests of view run their programs on it where the built
program isn't there. It runs RV32IMA with the calls that the programs of this folder make, under turns of `quantum` steps."""

import struct

from elftools.elf.elffile import ELFFile

MASK = 0xFFFFFFFF
FREE, RUNS, ENDED, WAITS, JOINS = range(5)
EINVAL, EAGAIN, EFAULT, ENOSYS = 22, 11, 14, 38
CAUSES = (
    "illegal",
    "breakpoint",
    "fetch-misaligned",
    "fetch-outside",
    "load-misaligned",
    "load-outside",
    "store-misaligned",
    "store-outside",
)


class Trap(Exception):
    pass


def signed(number):
    return number - 2**32 if number & 0x80000000 else number


def divided(a, b, is_signed):
    """Quotient and remainder as the machine has them."""
    if b == 0:
        return MASK, a
    if not is_signed:
        return a // b, a % b
    x, y = signed(a), signed(b)
    quotient = abs(x) // abs(y) * (1 if (x < 0) == (y < 0) else -1)
    return quotient & MASK, (x - quotient * y) & MASK


PLAIN = {
    (0, 0): lambda a, b: a + b,
    (0, 32): lambda a, b: a - b,
    (1, 0): lambda a, b: a << (b & 31),
    (2, 0): lambda a, b: int(signed(a) < signed(b)),
    (3, 0): lambda a, b: int(a < b),
    (4, 0): lambda a, b: a ^ b,
    (5, 0): lambda a, b: a >> (b & 31),
    (5, 32): lambda a, b: signed(a) >> (b & 31),
    (6, 0): lambda a, b: a | b,
    (7, 0): lambda a, b: a & b,
    (0, 1): lambda a, b: a * b,
    (1, 1): lambda a, b: signed(a) * signed(b) >> 32,
    (2, 1): lambda a, b: signed(a) * b >> 32,
    (3, 1): lambda a, b: a * b >> 32,
    (4, 1): lambda a, b: divided(a, b, True)[0],
    (5, 1): lambda a, b: divided(a, b, False)[0],
    (6, 1): lambda a, b: divided(a, b, True)[1],
    (7, 1): lambda a, b: divided(a, b, False)[1],
}
BRANCHES = {
    0: lambda a, b: a == b,
    1: lambda a, b: a != b,
    4: lambda a, b: signed(a) < signed(b),
    5: lambda a, b: signed(a) >= signed(b),
    6: lambda a, b: a < b,
    7: lambda a, b: a >= b,
}
ATOMIC = {
    0: lambda a, b: a + b,
    1: lambda a, b: b,
    4: lambda a, b: a ^ b,
    8: lambda a, b: a | b,
    12: lambda a, b: a & b,
    16: lambda a, b: min(a, b, key=signed),
    20: lambda a, b: max(a, b, key=signed),
    24: min,
    28: max,
}


def bits(word, high, low):
    return word >> low & (1 << high - low + 1) - 1


def extended(number, width):
    return number - (1 << width) if number >> width - 1 else number


class Hart:
    def __init__(self):
        self.phase, self.code, self.regs, self.pc, self.sites, self.held, self.of = (
            FREE,
            0,
            [0] * 32,
            0,
            [],
            None,
            0,
        )


class Machine:
    """One run. `accesses` are (hart, address, writes, size, pc); `records` pairs of a number of accesses and what came after so many."""

    def __init__(self, path, settings):
        with open(path, "rb") as file:
            elf = ELFFile(file)
            self.segments = [
                segment
                for segment in elf.iter_segments()
                if segment["p_type"] == "PT_LOAD" and segment["p_memsz"]
            ]
            self.low = min(it["p_vaddr"] for it in self.segments) // 4096 * 4096
            self.memory = bytearray(settings["memory"])
            for segment in self.segments:
                at = segment["p_vaddr"] - self.low
                self.memory[at : at + segment["p_filesz"]] = segment.data()
            table = elf.get_section_by_name(".symtab")
            kinds = {"STT_OBJECT": 1, "STT_FUNC": 2}
            kept = [
                symbol
                for symbol in (table.iter_symbols() if table else ())
                if symbol["st_info"]["type"] in kinds and symbol["st_size"]
            ]
            self.symbols = [
                (
                    kinds[symbol["st_info"]["type"]],
                    symbol["st_value"],
                    symbol["st_size"],
                    symbol.name.encode(),
                )
                for symbol in kept
            ]
            entry = elf["e_entry"]
        self.settings, self.top = settings, self.low + settings["memory"]
        self.stacks = self.top - settings["harts"] * settings["stack"]
        self.heap = -(-max(it["p_vaddr"] + it["p_memsz"] for it in self.segments) // 4096) * 4096
        self.harts = [Hart() for _ in range(settings["harts"])]
        self.accesses, self.records, self.blocks, self.output = [], [], {}, bytearray()
        self.decoded, self.steps, self.ending = {}, 0, None
        self.start(0, entry, 0, 0)

    def start(self, number, pc, argument, gp):
        hart = self.harts[number] = Hart()
        hart.phase, hart.pc = RUNS, pc
        hart.regs[2], hart.regs[3], hart.regs[10] = (
            self.top - number * self.settings["stack"],
            gp,
            argument,
        )

    def place(self, addr, size, cause):
        if addr % size:
            raise Trap(cause - 1)
        if not self.low <= addr <= self.top - size:
            raise Trap(cause)
        return addr - self.low

    def load(self, number, addr, size, pc):
        at = self.place(addr, size, 5)
        self.accesses.append((number, addr, False, size, pc))
        return int.from_bytes(self.memory[at : at + size], "little")

    def store(self, number, addr, size, value, pc):
        at = self.place(addr, size, 7)
        self.accesses.append((number, addr, True, size, pc))
        self.memory[at : at + size] = (value & (1 << 8 * size) - 1).to_bytes(size, "little")
        for other, hart in enumerate(self.harts):
            if other != number and hart.held == addr // 4 * 4:
                hart.held = None

    def run(self):
        turn, last, budget = 0, None, self.settings["budget"]
        while self.ending is None:
            runs = [at for at, it in enumerate(self.harts) if it.phase == RUNS]
            if all(it.phase in (FREE, ENDED) for it in self.harts):
                self.ending = f"exit {self.harts[0].code}"
            elif not runs:
                self.ending = "deadlock"
            elif self.steps >= budget:
                self.ending = "budget"
            else:
                if last in runs and turn < self.settings["quantum"]:
                    turn += 1
                else:
                    after = (
                        runs
                        if last is None
                        else [it for it in runs if it > last] + [it for it in runs if it <= last]
                    )
                    # (a hart that goes on alone has more turns in a row than the quantum, and gives way at once)
                    last, turn = after[0], turn + 1 if after[0] == last else 1
                self.step(last)

    def step(self, number):
        hart = self.harts[number]
        try:
            word = struct.unpack_from("<I", self.memory, self.place(hart.pc, 4, 3))[0]
            self.execute(number, hart, word, hart.pc)
            self.steps += 1
        except Trap as trap:
            self.ending = f"trap hart {number} pc {hart.pc:#010x} {CAUSES[trap.args[0]]}"

    def execute(self, number, hart, word, pc):
        opcode, rd, kind = word & 127, bits(word, 11, 7), bits(word, 14, 12)
        a, b, to, value = hart.regs[bits(word, 19, 15)], hart.regs[bits(word, 24, 20)], pc + 4, None
        immediate = extended(word >> 20, 12)
        if opcode == 0x13:
            top = bits(word, 31, 25) if kind in (1, 5) else 0
            value = PLAIN[kind, top](a, immediate & MASK)
        elif opcode == 0x33:
            value = PLAIN[kind, bits(word, 31, 25)](a, b)
        elif opcode == 0x03:
            size = 1 << (kind & 3)
            value = self.load(number, a + immediate & MASK, size, pc)
            value = extended(value, 8 * size) if kind < 3 else value
        elif opcode == 0x23:
            offset = extended(bits(word, 31, 25) << 5 | rd, 12)
            self.store(number, a + offset & MASK, 1 << kind, b, pc)
        elif opcode == 0x63:
            offset = (
                bits(word, 31, 31) << 12
                | bits(word, 7, 7) << 11
                | bits(word, 30, 25) << 5
                | bits(word, 11, 8) << 1
            )
            if BRANCHES[kind](a, b):
                to = pc + extended(offset, 13)
        elif opcode in (0x37, 0x17):
            value = (word & 0xFFFFF000) + (pc if opcode == 0x17 else 0)
        elif opcode in (0x6F, 0x67):
            value, to = pc + 4, self.jump(hart, word, pc, a, immediate)
        elif opcode == 0x2F:
            value = self.atomic(number, hart, word, pc, a, b)
        elif word == 0x73:
            return self.call(number, hart)
        elif opcode != 0x0F:
            raise Trap(1 if word == 0x100073 else 0)
        if to & 3:
            raise Trap(2)
        if value is not None and rd:
            hart.regs[rd] = value & MASK
        hart.pc = to & MASK
        return None

    def jump(self, hart, word, pc, a, immediate):
        links, rd, rs = (1, 5), bits(word, 11, 7), bits(word, 19, 15)
        is_plain = word & 127 == 0x6F
        if not is_plain and rs in links and (rd not in links or rd != rs) and hart.sites:
            hart.sites.pop()
        if rd in links:
            hart.sites.append(pc)
        if is_plain:
            return pc + extended(
                bits(word, 31, 31) << 20
                | bits(word, 19, 12) << 12
                | bits(word, 20, 20) << 11
                | bits(word, 30, 21) << 1,
                21,
            )
        return a + immediate & ~1

    def atomic(self, number, hart, word, pc, a, b):
        kind = bits(word, 31, 27)
        if kind == 2:
            hart.held = a
            return self.load(number, a, 4, pc)
        at = self.place(a, 4, 7)
        if kind == 3:
            held, hart.held = hart.held, None
            if held != a:
                return 1
            self.store(number, a, 4, b, pc)
            return 0
        old = struct.unpack_from("<I", self.memory, at)[0]
        self.store(number, a, 4, ATOMIC[kind](old, b), pc)
        return old

    def call(self, number, hart):
        a, b, c, what = hart.regs[10], hart.regs[11], hart.regs[12], hart.regs[17]
        hart.pc += 4
        calls = {
            64: self.write,
            1024: self.alloc,
            1025: self.free,
            1026: self.spawn,
            1029: self.wake,
        }
        if what == 93:
            hart.phase, hart.code = ENDED, a
            joiner = next((it for it in self.harts if it.phase == JOINS and it.of == number), None)
            if joiner:
                hart.phase, joiner.phase, joiner.regs[10] = FREE, RUNS, a
        elif what == 94:
            self.ending = f"exit {a}"
        elif what == 1027:
            other = self.harts[a] if 0 < a < len(self.harts) and a != number else hart
            if other is hart or other.phase == FREE:
                hart.regs[10] = -EINVAL & MASK
            elif other.phase == ENDED:
                hart.regs[10], other.phase = other.code, FREE
            else:
                hart.phase, hart.of = JOINS, a
        elif what == 1028:
            hart.regs[10] = 0
            if struct.unpack_from("<I", self.memory, a - self.low)[0] == b:
                hart.phase, hart.of = WAITS, a
            else:
                hart.regs[10] = -EAGAIN & MASK
        elif what == 1030:
            hart.regs[10] = number
        else:
            hart.regs[10] = calls[what](hart, a, b, c) & MASK if what in calls else -ENOSYS & MASK

    def write(self, _hart, file, at, count):
        self.output += self.memory[at - self.low : at - self.low + min(count, 4096)]
        return min(count, 4096)

    def alloc(self, hart, size, *_):
        wide, at = max(size + 15 & ~15, 16), self.heap
        for low, (_, high) in sorted(self.blocks.items()):
            if at + wide <= low:
                break
            at = max(at, high)
        if at + wide > self.stacks:
            return 0
        self.blocks[at] = size, at + wide
        sites = (*hart.sites[:-5:-1], 0, 0, 0, 0)[:4]
        self.records.append((len(self.accesses), ("alloc", at, size, sites)))
        return at

    def free(self, _hart, at, *_):
        if at not in self.blocks:
            return -EINVAL
        del self.blocks[at]
        self.records.append((len(self.accesses), ("free", at)))
        return 0

    def spawn(self, hart, pc, argument, *_):
        number = next((at for at, it in enumerate(self.harts) if it.phase == FREE and at), None)
        if number is None:
            return -EAGAIN
        self.start(number, pc, argument, hart.regs[3])
        return number

    def wake(self, _hart, addr, most, *_):
        woken = [it for it in self.harts if it.phase == WAITS and it.of == addr][:most]
        for hart in woken:
            hart.phase = RUNS
        return len(woken)
