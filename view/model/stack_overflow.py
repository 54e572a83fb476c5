"""Whether a hart ran out of its stack, by the last accesses of a run that didn't end well. Nothing separates two stacks: one that grows
too far runs into that of the next hart, and the last one into the heap."""

import os
import subprocess
import threading
from typing import Iterator, NamedTuple, Sequence

from view.names.naming import Memory
from view.reading.engine import REPORT_STATUSES, Predator, add_trace_option

# So many bytes of a trace are kept, its end has so many, and an access.
KEPT_BYTES, END_BYTES, ACCESS_BYTES = 1 << 24, 25, 8
# A frame is smaller than this, and who wrote so many bytes below its stack ran out of it.
MAX_FRAME_BYTES, MIN_OVERFLOW_BYTES = 4096, 1024
# The greatest stack that the settings allow.
MAX_STACK_BYTES = 1 << 20
# Tags of an access that writes and one that reads, of a block that is made and one that is freed, with their lengths.
WRITES, READS, OTHERS = 2, 1, ((3, 25), (4, 5))


class Overflow(NamedTuple):
    """A hart, the size of its stack, and how far below its top it wrote."""

    hart: int
    size: int
    depth: int

    def sentence(self) -> str:
        text = f"hart {self.hart} overflowed its stack of {self.size:,} bytes: it wrote {self.depth:,} bytes below the top"
        enough = 1 << (self.depth - 1).bit_length()
        if enough > MAX_STACK_BYTES:
            return f"{text}; it recurses without end, or its local variables exceed the largest stack, {MAX_STACK_BYTES:,} bytes"
        return f"{text}; use `--set stack={enough}`, unless it recurses without end"


def last_bytes_of_run(predator: Predator, words: list[str]) -> bytes:
    """The last bytes of a run's trace."""
    take, give = os.pipe()
    kept: list[bytes] = []

    def keep() -> None:
        with open(take, "rb", 0) as source:
            while piece := source.read(1 << 20):
                kept.append(piece)
                if len(kept) > 2 * KEPT_BYTES >> 16:
                    kept[:] = [b"".join(kept)[-KEPT_BYTES:]]

    keeping = threading.Thread(target=keep)
    keeping.start()
    try:
        predator.output(
            add_trace_option(words, f"/dev/fd/{give}"),
            REPORT_STATUSES,
            pass_fds=(give,),
            stderr=subprocess.DEVNULL,
        )
    finally:
        os.close(give)
        keeping.join()
    return b"".join(kept)[-KEPT_BYTES:]


def last_bytes_of_file(path: str) -> bytes:
    with open(path, "rb") as file:
        file.seek(max(os.path.getsize(path) - KEPT_BYTES, 0))
        return file.read()


def last_writes(trace: bytes) -> Iterator[tuple[int, int]]:
    """The hart and the address of each write at the end of a trace of version 1, the last one first, as far as its records can be read."""
    at = len(trace) - END_BYTES
    if at < 0 or trace[at] != 6:
        return
    while at >= ACCESS_BYTES:
        if trace[at - 8] in (READS, WRITES) and trace[at - 6] == 0 and trace[at - 1] in (1, 2, 4):
            at -= ACCESS_BYTES
            if trace[at] == WRITES:
                yield trace[at + 1], int.from_bytes(trace[at + 3 : at + 7], "little")
            continue
        size = next((size for tag, size in OTHERS if at >= size and trace[at - size] == tag), None)
        if size is None:
            return
        at -= size


def find_overflow(trace: bytes, memory: Memory) -> Overflow | None:
    """The hart that wrote farthest below its stack, from there on without a gap, or none."""
    below: dict[int, set[int]] = {}
    for hart, addr in last_writes(trace):
        if memory.stack_bytes and addr < memory.top(hart + 1):
            below.setdefault(hart, set()).add(addr)
    found = [
        Overflow(
            hart, memory.stack_bytes, memory.top(hart) - lowest_address(own, memory.top(hart + 1))
        )
        for hart, own in below.items()
    ]
    deep = [it for it in found if it.depth >= it.size + MIN_OVERFLOW_BYTES]
    return max(deep, key=lambda candidate: candidate.depth) if deep else None


def lowest_address(addresses: set[int], low: int) -> int:
    """How far down addresses go from a stack's lower end, without a gap."""
    for addr in sorted(addresses, reverse=True):
        if low - addr > MAX_FRAME_BYTES:
            break
        low = addr
    return low


def is_outside_code(outcome: str, code: Sequence[tuple[int, int]]) -> bool:
    """Whether a trap's pc is where no code is."""
    pc = int(outcome.split(" ")[4], 16) if outcome.startswith("trap") else None
    return pc is not None and bool(code) and not any(low <= pc < high for low, high in code)
