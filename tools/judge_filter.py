#!/usr/bin/env python3
"""Filters a trace by the definition of a redundant access. It judges: what a recorder or a command writes as a
filtered trace must have these bytes.

    judge_filter.py TRACE FILE [--near N]   writes the filtered trace of TRACE, which is of version 3, to FILE
                                            (N, the bytes of a region, is 4096 where it isn't given), and prints
                                            `filter ACCESSES KEPT`
    judge_filter.py .. --parts TABLE        the same, with each part filtered by itself that begins at a row
                                            `resume` of the address map TABLE, as the recorder does it
    judge_filter.py --check [COUNT [SEED]]  holds the one pass against the definition: over lists that were
                                            worked by hand, and COUNT (500) random ones from SEED (1)

An access at position i is redundant where an earlier one, at j, is by the same hart and touches the same word of
4 bytes; that one writes or this one reads; and no access of another hart between the two is near: in the same
region or in one of the two beside it. A filtered trace leaves all of these out."""

import argparse
import random
import struct
import sys
from typing import Callable, Iterable, Sequence

from traces import Access, Touch, encode_distance, located_records

END = struct.Struct("<BBBHIQQ")  # tag, outcome, cause, hart, value, steps, accesses
NEAR = 4096


def keep_by_definition(accesses: Sequence[Touch], k: int) -> list[int]:
    """The positions of the accesses that aren't redundant. Its time is quadratic."""

    def is_redundant(position: int) -> bool:
        hart, addr, writes = accesses[position]
        for other, other_addr, other_writes in reversed(accesses[:position]):
            if other == hart and other_addr // 4 == addr // 4 and (other_writes or not writes):
                return True
            if other != hart and abs((other_addr >> k) - (addr >> k)) <= 1:
                return False
        return False

    return [it for it in range(len(accesses)) if not is_redundant(it)]


def keep_in_one_pass(accesses: Iterable[Touch], k: int) -> list[int]:
    """The same, in time and memory for what is touched."""
    kept: list[int] = []
    # Of each region the hart that came near it last, and how often another one did.
    nearest, number = dict[int, int](), dict[int, int]()
    # Of each word the hart of its last access that was kept, the number of its region then, and whether it wrote.
    words = dict[int, tuple[int, int, bool]]()
    for position, (hart, addr, writes) in enumerate(accesses):
        region, word = addr >> k, addr // 4
        last = words.get(word)
        if last and last[:2] == (hart, number[region]) and (last[2] or not writes):
            continue
        kept.append(position)
        for near in (region - 1, region, region + 1):
            if nearest.get(near) != hart:
                nearest[near] = hart
                number[near] = number.get(near, 0) + 1
        words[word] = hart, number[region], writes
    return kept


def keep_by_parts(accesses: Sequence[Touch], k: int, begins: Sequence[int]) -> list[int]:
    """The positions that are kept where each part is filtered by itself."""
    borders = [0, *begins, len(accesses)]
    return [
        begin + it
        for begin, end in zip(borders, borders[1:])
        for it in keep_in_one_pass(accesses[begin:end], k)
    ]


def part_begins(table: str) -> list[int]:
    """Behind how many accesses recording began or went on, by an address map."""
    with open(table, encoding="utf-8", errors="surrogateescape") as file:
        rows = (it.split() for it in file if it.startswith("resume "))
        return [int(words[1]) for words in rows]


def filter_trace(trace: bytes, k: int, begins: Sequence[int] = ()) -> tuple[int, int, bytes]:
    """How many accesses a trace has, how many of them its filtered trace, and that trace."""
    if trace[:8] != b"PRDTRC03":
        sys.exit("judge_filter.py: this is no trace of version 3")
    accesses, others = list[Access](), list[tuple[int, bytes]]()
    sizes = list[int]()
    place = 20
    for start, place, record in located_records(trace):
        if isinstance(record, Access):
            accesses.append(record)
            sizes.append(trace[start] % 16)
        else:  # (with the number of the accesses before it)
            others.append((len(accesses), trace[start:place]))
    kept = keep_by_parts([it[:3] for it in accesses], k, begins)
    parts = [b"PRDTRC04" + bytes(8) + trace[16:18] + struct.pack("<H", k)]
    addr, pcs, at = 0, dict[int, int](), 0
    for position in [*kept, len(accesses)]:
        while at < len(others) and others[at][0] <= position:
            parts.append(others[at][1])
            at += 1
        if position == len(accesses):
            break
        own, size = accesses[position], sizes[position]
        assert own.pc is not None
        parts.append(bytes((16 * (1 + own.writes) + size, own.hart)))
        parts.append(encode_distance(own.addr - addr))
        parts.append(encode_distance(own.pc - pcs.get(own.hart, 0)))
        addr, pcs[own.hart] = own.addr, own.pc
    *end, stated = END.unpack_from(trace, place)
    assert stated == len(accesses) and place + END.size == len(trace), "no whole trace"
    parts.append(END.pack(*end, len(kept)) + struct.pack("<Q", stated))
    return len(accesses), len(kept), b"".join(parts)


# ---- What was worked by hand ----


def touches(text: str) -> list[Touch]:
    """A list, as `W0 1000, R1 1020`: each access by its kind, its hart and its address."""
    rows = [it.split() for it in text.split(",")]
    return [(int(kind[1:]), int(addr, 16), kind[0] == "W") for kind, addr in rows]


# Regions of so many bytes, a list, and the positions that are kept.
WORKED = (
    (64, "W0 1000, W0 1000, R0 1000, W0 1004, R0 1000", [0, 3]),
    (64, "R0 1000, W0 1000, W0 1000, R0 1000", [0, 1]),
    (64, "W0 1000, R1 1020, W0 1000, R0 1000", [0, 1, 2]),
    (64, "W0 1000, R1 10c0, W0 1000, R1 10c0", [0, 1]),
    (64, "W0 1000, R1 1040, W0 1000, R1 1040", [0, 1, 2, 3]),
    (64, "R1 1040, W0 1000, R1 1040", [0, 1, 2]),
    (64, "W0 1000, R1 1000, R1 1000, W1 1000, W0 1000", [0, 1, 3, 4]),
    (64, "R0 1000, R1 1000, R0 1000, R1 1000", [0, 1, 2, 3]),
    (64, "W0 1000, W0 1002, R0 1000, W0 1004, R0 1000", [0, 3]),
    (128, "W0 1000, R1 10c0, W0 1000, R1 10c0", [0, 1, 2, 3]),
)
# The same of files: regions, the pcs, the list, and the bytes behind the magic and the first position.
FILES = (
    (
        64,
        "W0 1000, R1 1020, W0 1000, R0 1000",
        (0x44, 0x48, 0x4C, 0x50),
        "08000600240080408801 1401409001 24003f10 06" + 16 * "00" + f"{'03':<016}" + f"{'04':<016}",
    ),
    (
        4096,
        "W0 1000, W0 1000, R0 1000, W0 1004, R0 1000",
        (0x44, 0x48, 0x4C, 0x50, 0x54),
        "08000c00240080408801 24000818 06" + 16 * "00" + f"{'02':<016}" + f"{'05':<016}",
    ),
)


def encode_trace(accesses: Sequence[Touch], pcs: Sequence[int], harts: int) -> bytes:
    """A trace of version 3, with accesses of 4 bytes alone."""
    parts = [struct.pack("<8sQHH", b"PRDTRC03", 0, harts, 0)]
    last, last_pcs = 0, dict[int, int]()
    for (hart, addr, writes), pc in zip(accesses, pcs):
        parts.append(bytes((0x24 if writes else 0x14, hart)))
        parts.append(encode_distance(addr - last))
        parts.append(encode_distance(pc - last_pcs.get(hart, 0)))
        last, last_pcs[hart] = addr, pc
    return b"".join((*parts, END.pack(6, 0, 0, 0, 0, 0, len(accesses))))


def random_list(dice: random.Random) -> tuple[int, list[Touch]]:
    """A list of few harts and few words, most of them near borders of regions, and their k."""
    k = dice.randrange(6, 17)
    bases = [dice.randrange(1, 2**32 >> k) << k for _ in range(2)]
    words = [base + dice.choice((-4, 0, 4, 1 << k)) for base in bases for _ in range(2)]
    harts = dice.randrange(1, 4)
    made, hart = list[Touch](), 0
    for _ in range(dice.randrange(40)):
        hart = dice.randrange(harts) if dice.random() < 0.4 else hart
        made.append((hart, dice.choice(words) % 2**32, dice.random() < 0.4))
    return k, made


Keep = Callable[[Sequence[Touch], int], list[int]]


def find_difference(keep: Keep, count: int, seed: int) -> str | None:
    """The first list for which `keep` differs from what was worked or defined, or none."""
    for near, text, wanted in WORKED:
        found = keep(touches(text), near.bit_length() - 1)
        if found != wanted:
            return f"{text} by {near}: {found}, and not {wanted}"
    dice = random.Random(seed)
    for _ in range(count):
        k, accesses = random_list(dice)
        found, wanted = keep(accesses, k), keep_by_definition(accesses, k)
        if found != wanted:
            return f"{accesses} by {k}: {found}, and not {wanted}"
    return None


def check(count: int, seed: int) -> int:
    failed = [
        f"{name}: {difference}"
        for name, keep in (("definition", keep_by_definition), ("one pass", keep_in_one_pass))
        if (difference := find_difference(keep, count, seed))
    ]
    for near, text, pcs, wanted in FILES:
        found = filter_trace(encode_trace(touches(text), pcs, 8), near.bit_length() - 1)[2]
        if found != b"PRDTRC04" + bytes(8) + bytes.fromhex(wanted):
            failed.append(f"the file of {text}: {found.hex()}")
    empty = filter_trace(encode_trace([], [], 1), 16)
    if empty != (0, 0, b"PRDTRC04" + bytes(8) + bytes.fromhex("010010000600") + bytes(31)):
        failed.append(f"the file of an empty list: {empty[2].hex()}")
    for failure in failed:
        print(failure)
    print(f"{len(WORKED) + len(FILES) + 1} worked lists, {count} random ones, {len(failed)} failed")
    return 1 if failed else 0


def main() -> int:
    words = argparse.ArgumentParser(usage=__doc__)
    words.add_argument("names", nargs="*")
    words.add_argument("--near", type=int, default=NEAR, choices=[2**k for k in range(6, 17)])
    words.add_argument("--check", action="store_true")
    words.add_argument("--parts")
    given = words.parse_args()
    if given.check:
        count, seed, *_ = [*map(int, given.names), *(500, 1)[len(given.names) :]]
        return check(count, seed)
    if len(given.names) != 2:
        words.error("a trace and a file are wanted")
    begins = part_begins(given.parts) if given.parts else []
    with open(given.names[0], "rb") as file:
        accesses, kept, trace = filter_trace(file.read(), given.near.bit_length() - 1, begins)
    with open(given.names[1], "wb") as file:
        file.write(trace)
    print(f"filter {accesses} {kept}")
    return 0


if __name__ == "__main__":
    sys.exit(main())
