"""What the engine counts of a trace, split by whose memory it is: blocks, the allocator's own data, and the rest.

The engine counts misses for each line (`misses`), and invalidations for each pair of instructions (`blame`). The
worst pair of a line is the one that invalidates it most often over different words. A line is the allocator's own
data if both instructions of that pair are the allocator's, or if no block was on it and one of them is."""

import os
from collections import Counter
from dataclasses import dataclass
from typing import Callable, Collection, Iterable

from native.allocators.lives import LINE_BYTES
from view.names.naming import ALLOCATOR_SOURCES, Naming
from view.names.native import AddressMap, NativeProgram, NativeSources
from view.reading.reports import Blame, InstructionPair, Misses

# Whether an instruction is the allocator's.
IsOwn = Callable[[int], bool]
# What some instructions are called, by their addresses.
Names = Callable[[Iterable[int]], dict[int, str]]
MAX_NAMED_LINES = 40
# How names of functions of the C library's allocator begin, where its debug information isn't installed.
C_FUNCTIONS = (
    *(
        "malloc",
        "free",
        "calloc",
        "realloc",
        "cfree",
        "memalign",
        "aligned_alloc",
        "posix_memalign",
    ),
    *("int_malloc", "int_free", "int_realloc", "int_memalign", "sysmalloc", "systrim"),
    *("unlink_chunk", "tcache_", "arena_get", "new_heap", "alloc_new_heap"),
)


@dataclass(frozen=True)
class OwnData:
    """Lines of the allocator's own data that the same instructions use, with their false-sharing misses."""

    users: str
    false_misses: int
    lines: int


@dataclass(frozen=True)
class Findings:
    """The misses of a trace, and whose the false-sharing ones are."""

    accesses: int
    cold: int
    true_misses: int
    false_misses: int
    in_blocks: int
    in_own_data: int
    elsewhere: int
    own_data: tuple[OwnData, ...]

    def all_misses(self) -> int:
        return self.cold + self.true_misses + self.false_misses


def worst_pair(blame: Blame, base: int) -> InstructionPair | None:
    """The pair of instructions that invalidates a line most often over different words, or over any where none
    does so."""
    found = blame.invalidations(base)
    if found is None or not found.pairs:
        return None
    return max(
        found.pairs,
        key=lambda it: (it.times - it.same_word_times, it.times, -it.victim, -it.invalidator),
    )


def split_misses(
    misses: Misses, blame: Blame, block_lines: Collection[int], is_own: IsOwn, names: Names
) -> Findings:
    """The false-sharing misses of a trace, by whose memory they are in. The lines that held blocks are given by
    their numbers."""
    in_blocks = elsewhere = 0
    own: list[tuple[int, InstructionPair | None]] = []
    for base, line in misses.lines.items():
        if not line.useless:
            continue
        pair = worst_pair(blame, base)
        users = [is_own(pair.invalidator), is_own(pair.victim)] if pair else [False, False]
        has_block = base // LINE_BYTES in block_lines
        if all(users) or any(users) and not has_block:
            own.append((line.useless, pair))
        elif has_block:
            in_blocks += line.useless
        else:
            elsewhere += line.useless
    total = misses.total
    return Findings(
        misses.accesses,
        total["cold"],
        total["useful"],
        total["useless"],
        in_blocks,
        sum(count for count, _ in own),
        elsewhere,
        name_own_data(own, names),
    )


def name_own_data(
    own: list[tuple[int, InstructionPair | None]], names: Names
) -> tuple[OwnData, ...]:
    """Puts lines together that the same instructions use, the worst first."""
    own = sorted(own, key=lambda it: -it[0])
    pairs = [pair for _, pair in own[:MAX_NAMED_LINES] if pair]
    known = names({at for pair in pairs for at in (pair.invalidator, pair.victim)})
    counts, lines = Counter[str](), Counter[str]()
    for count, pair in own:
        found = [known.get(it, "") for it in (pair.invalidator, pair.victim)] if pair else []
        users = " and ".join(dict.fromkeys(filter(None, found))) or "other instructions"
        counts[users] += count
        lines[users] += 1
    return tuple(
        OwnData(users, count, lines[users])
        for users, count in sorted(counts.items(), key=lambda it: (-it[1], it[0]))
    )


class NativeInstructions:
    """The instructions of a native trace, by its address map: whose they are, and what they are called."""

    def __init__(self, map_path: str, library: str) -> None:
        self.map = AddressMap(map_path)
        self.library = os.path.realpath(library) if library else ""
        self.program = NativeProgram(self.map)

    def has_loaded(self, library: str) -> bool:
        """Whether the program has loaded a library."""
        wanted = os.path.realpath(library)
        return any(os.path.realpath(path) == wanted for _, path in self.map.maps)

    def is_own(self, pc: int) -> bool:
        if self.library:
            found = self.program.file(pc)
            return found is not None and os.path.realpath(found[0].path) == self.library
        places = [*self.map.frames.get(pc, []), *self.map.sites.get(pc, [])]
        in_libc = self.program.library_place(pc).startswith("libc.so")
        return any(
            ALLOCATOR_SOURCES.search(place.line.rpartition(":")[0])
            or in_libc
            and place.function.lstrip("_").startswith(C_FUNCTIONS)
            for place in places
        )

    def names(self, pcs: Iterable[int]) -> dict[int, str]:
        wanted = sorted(pcs)
        naming = Naming(None, self.program, NativeSources(self.program)) if wanted else None
        if naming is None:
            return {}
        naming.find_lines(wanted)
        return {it: naming.instruction_name(it) for it in wanted}
