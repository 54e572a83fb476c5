"""The blocks of a trace, with the threads that they were given to, and the cache lines that blocks of several
threads share.

A block's thread is the one of its first access, and who freed it is the thread of its last. docs/ALLOCATORS.md
has the rules; tools/judge_allocators.py counts the same on its own."""

import bisect
import mmap
import struct
from collections import defaultdict
from dataclasses import dataclass, field
from typing import Callable, Iterable, Iterator, Sequence

from view.reading.trace_records import Accesses, Allocation, Free, Symbol, scan_records

LINE_BYTES, PAGE_BYTES = 64, 4096
FUNCTION = 2
# An access of a trace of version 1: its tag, hart, address and size.
ACCESS = struct.Struct("<BHIB")


@dataclass
class Block:
    """A block that was handed out, with its life as numbers of records."""

    addr: int
    size: int
    sites: Sequence[int]
    born: int
    died: int | None = None
    # The thread that the block was given to, and the one that used it last; none where nobody did.
    owner: int | None = None
    last_user: int | None = None

    def __post_init__(self) -> None:
        self.end = self.addr + self.size

    def lines(self) -> range:
        return range(self.addr // LINE_BYTES, (self.end - 1) // LINE_BYTES + 1)


@dataclass(frozen=True)
class Placement:
    """What the placement of a trace's blocks came to."""

    # How many blocks were handed out and used, and the lines, by their numbers, that ever held one.
    calls: int
    lines: frozenset[int]
    # Those that held blocks of two threads at once, and those where a place changed hands beside a live block.
    active: frozenset[int]
    passive: frozenset[int]
    # The most bytes of blocks that lived at once, and how many pages ever held one.
    live_bytes: int
    pages: int

    def line_bytes(self) -> int:
        return LINE_BYTES * len(self.lines)


@dataclass
class LiveBlocks:
    """The blocks that live at a place of a trace, by their addresses and by the lines that they meet."""

    by_addr: dict[int, Block] = field(default_factory=dict)
    by_line: defaultdict[int, list[Block]] = field(default_factory=lambda: defaultdict(list))

    def add(self, block: Block) -> None:
        self.by_addr[block.addr] = block
        for line in block.lines():
            self.by_line[line].append(block)

    def remove(self, addr: int, place: int) -> None:
        block = self.by_addr.pop(addr, None)
        if block is not None:
            block.died = place
            for line in block.lines():
                self.by_line[line].remove(block)

    def note_accesses(self, data: bytes) -> None:
        """Notes the threads of some accesses of a trace of version 1 in the blocks that they meet."""
        for _, hart, addr, size in ACCESS.iter_unpack(data):
            for block in self.by_line.get(addr // LINE_BYTES, ()):
                if block.addr < addr + size and addr < block.end:
                    block.last_user = hart
                    if block.owner is None:
                        block.owner = hart


def read_blocks(path: str, is_counted: Callable[[Block], bool]) -> list[Block]:
    """The used blocks of a trace of version 1 that were handed out while it was recorded."""
    live, found = LiveBlocks(), list[Block]()
    has_begun, place = False, 0
    with open(path, "rb") as file, mmap.mmap(file.fileno(), 0, access=mmap.ACCESS_READ) as data:
        for record in scan_records(data):
            place += 1
            if isinstance(record, Accesses):
                has_begun = True
                live.note_accesses(data[record.begin : record.end])
            elif isinstance(record, Allocation):
                live.remove(record.addr, place)
                block = Block(record.addr, record.size, record.sites, place)
                if has_begun and record.size > 0 and is_counted(block):
                    live.add(block)
                    found.append(block)
            elif isinstance(record, Free):
                live.remove(record.addr, place)
    return [it for it in found if it.owner is not None]


def read_functions(path: str) -> Iterator[Symbol]:
    """The functions that a trace names."""
    with open(path, "rb") as file, mmap.mmap(file.fileno(), 0, access=mmap.ACCESS_READ) as data:
        yield from (
            record
            for record in scan_records(data)
            if isinstance(record, Symbol) and record.kind == FUNCTION
        )


def counts_every_block(block: Block) -> bool:
    return True


def counts_blocks_noted_by(functions: Iterable[Symbol], prefix: bytes) -> Callable[[Block], bool]:
    """Counts the blocks whose first call site is in a function whose name begins so: memory that an allocator
    takes in large pieces is noted elsewhere."""
    spans = sorted((it.addr, it.addr + it.size) for it in functions if it.name.startswith(prefix))
    begins = [begin for begin, _ in spans]

    def is_counted(block: Block) -> bool:
        at = bisect.bisect_right(begins, block.sites[0]) - 1
        return at >= 0 and block.sites[0] < spans[at][1]

    return is_counted


class SharedLines:
    """The lines that blocks of several threads share, as blocks come and go."""

    def __init__(self) -> None:
        self.live: defaultdict[int, list[Block]] = defaultdict(list)
        # The block that each byte of a line was last in.
        self.held: defaultdict[int, dict[int, Block]] = defaultdict(dict)
        self.active: set[int] = set()
        self.passive: set[int] = set()

    def add(self, block: Block) -> None:
        for line in block.lines():
            first = max(block.addr, line * LINE_BYTES)
            places = range(first, min(block.end, (line + 1) * LINE_BYTES))
            held = self.held[line]
            if any(it.owner != block.owner for it in self.live[line]):
                self.active.add(line)
                if any(changes_hands(held.get(it), block) for it in places):
                    self.passive.add(line)
            held.update(dict.fromkeys(places, block))
            self.live[line].append(block)

    def remove(self, block: Block) -> None:
        for line in block.lines():
            self.live[line].remove(block)


def changes_hands(before: Block | None, block: Block) -> bool:
    """Whether a place that is given to a block's thread was given to another one before, or freed by another one."""
    return (
        before is not None
        and before.died is not None
        and before.died <= block.born
        and {before.owner, before.last_user} != {block.owner}
    )


def measure_placement(blocks: Sequence[Block]) -> Placement:
    """What the placement of some blocks comes to."""
    events = [(it.born, 1, it) for it in blocks]
    events += [(it.died, 0, it) for it in blocks if it.died is not None]
    shared, live_bytes, most_bytes = SharedLines(), 0, 0
    lines, pages = set[int](), set[int]()
    for _, is_birth, block in sorted(events, key=lambda event: event[:2]):
        if not is_birth:
            shared.remove(block)
            live_bytes -= block.size
            continue
        shared.add(block)
        lines.update(block.lines())
        pages.update(range(block.addr // PAGE_BYTES, (block.end - 1) // PAGE_BYTES + 1))
        live_bytes += block.size
        most_bytes = max(most_bytes, live_bytes)
    return Placement(
        len(blocks),
        frozenset(lines),
        frozenset(shared.active),
        frozenset(shared.passive),
        most_bytes,
        len(pages),
    )
