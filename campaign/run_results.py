"""The printed results of one run, parsed, and the keys by which its lines are found again in other runs.

A line with a variable on it has the same address in every run. A line with heap blocks alone is the same by
its first block."""

from dataclasses import dataclass
from typing import Iterator, Literal, NamedTuple, Sequence, Union

from campaign.campaign_file import Record
from campaign.invalidations import Blame
from view.model.objects import ObjectLine, contending_objects
from view.names.naming import Memory, Naming, address_text
from view.names.source_lines import Sources
from view.reading import reports
from view.reading.reports import Block, LineKind, Misses, Report, Site, Symbol


class AddressKey(NamedTuple):
    """A line by its address."""

    kind: Literal["address"]
    base: int


class BlockKey(NamedTuple):
    """A line by the block that it begins in: the block's call sites, its number among all blocks of these
    (none without a trace), and the offset in it."""

    kind: Literal["block"]
    sites: tuple[Site, ...]
    number: int | None
    offset: int


# A line is the same in all runs by its key.
LineKey = Union[AddressKey, BlockKey]
# An object by its name, and the offset at which the line begins in it.
ObjectOffset = tuple[str, int]
# The size of lines, and the offset of the first one.
Layout = tuple[int, int]


class PairKey(NamedTuple):
    """Two instructions in a line of a layout: the one that loses its copy, and the one that invalidates
    it."""

    layout: Layout
    line: LineKey
    victim: str
    invalidator: str


@dataclass(frozen=True)
class RunLine:
    """A line of one run, with its numbers: none where nothing printed them."""

    base: int
    key: LineKey
    # (each with its share of the accesses)
    objects: dict[ObjectOffset, float]
    invalidations: int | None
    false_sharing: int | None


class RunResults:
    """The texts of one run: its report, and by their layouts the misses, the reports of replays and the pairs
    of instructions."""

    # (only where there is a report)
    naming: Naming

    def __init__(self, record: Record, memory: Memory, sources: Sources | None = None) -> None:
        self.record, self.seed = record, record["seed"]
        texts = {call: result["text"] for call, result in record["results"].items()}
        self.report = Report(texts["run"]) if "run" in texts else None
        self.misses: dict[Layout, Misses] = {}
        self.replays: dict[Layout, Report] = {}
        self.blames = [Blame(text) for call, text in texts.items() if call.startswith("blame")]
        for call, text in texts.items():
            if call.startswith("misses"):
                misses = Misses(text)
                self.misses[misses.size, misses.offset] = misses
            elif call.startswith("replay"):
                replay = Report(text)
                self.replays[replay.size, replay.offset] = replay
        if self.report:
            self.naming = Naming(self.report, sources=sources, memory=memory)

    def lines(self) -> Iterator[tuple[Layout, LineKind, RunLine]]:
        """Each line that a report lists or that has misses, with its layout and kind."""
        if self.report is None:
            return
        observed = {(self.report.size, self.report.offset): self.report.observed()}
        observed |= {layout: replay.observed() for layout, replay in self.replays.items()}
        for layout in dict.fromkeys([*observed, *self.misses]):
            for line in self.layout_lines(observed.get(layout, []), self.misses.get(layout)):
                yield layout, "observed", line
        for predicted in self.report.predicted():
            layout = predicted.size, predicted.base % predicted.size
            missed = (
                self.misses[layout].lines.get(predicted.base) if layout in self.misses else None
            )
            yield layout, predicted.kind, self.line(ObjectLine(predicted.base, predicted, missed))

    def layout_lines(
        self, listed: Sequence[reports.Line], misses: Misses | None
    ) -> Iterator[RunLine]:
        """The lines of one layout, those that the report lists first."""
        missed, seen = misses.lines if misses else {}, {it.base for it in listed}
        for line in listed:
            yield self.line(ObjectLine(line.base, line, missed.get(line.base)))
        for base, own in missed.items():
            if base not in seen:
                yield self.line(ObjectLine(base, None, own))

    def line(self, spot: ObjectLine) -> RunLine:
        objects = (spot.missed.objects() if spot.missed else []) or spot.objects()
        return RunLine(
            spot.base,
            self.line_key(spot.base, objects),
            self.object_offsets(spot),
            spot.line.count if spot.line else None,
            spot.missed.useless if spot.missed else None,
        )

    def object_offsets(self, spot: ObjectLine) -> dict[ObjectOffset, float]:
        """The objects on a line, each with its share of the accesses."""
        shares: dict[ObjectOffset, float] = {}
        for key, (example, share) in contending_objects(spot, spot.objects(), self.naming).items():
            if isinstance(example, Block):
                name, addr = self.block_name(example), example.addr
            else:
                name = self.naming.object_name(key, example)
                addr = example.addr if isinstance(example, Symbol) else spot.base
            shares[name, spot.base - addr] = max(share, 0)
        return shares

    def pairs(self) -> dict[PairKey, tuple[int, int]]:
        """How often the second of two instructions invalidates a line, and how often over the same word. A
        line that no other text has goes by its address."""
        keys = {(layout, line.base): line.key for layout, _, line in self.lines()}
        counts: dict[PairKey, tuple[int, int]] = {}
        for blame in self.blames:
            layout = blame.size, blame.offset
            for base, pairs in blame.lines.items():
                line = keys.get((layout, base), AddressKey("address", base))
                for pair in pairs:
                    key = PairKey(layout, line, pair.victim, pair.invalidator)
                    total, same = counts.get(key, (0, 0))
                    counts[key] = total + pair.invalidations, same + pair.same_word
        return counts

    def block_number(self, block: Block) -> int | None:
        """A block's number among all blocks of its call sites, in the order of their allocation; none without
        a trace."""
        number: int | None = self.record["blocks"].get(f"{block.addr:#010x} {block.born}")
        return number

    def block_name(self, block: Block) -> str:
        return block_name(block.sites, self.block_number(block), self.naming)

    def line_key(self, base: int, objects: Sequence[Symbol | Block]) -> LineKey:
        """The address, unless blocks alone are on the line: then the lowest block, of those of one address
        the first."""
        blocks = [it for it in objects if isinstance(it, Block)]
        if not blocks or len(blocks) < len(objects):
            return AddressKey("address", base)
        first = min(blocks, key=lambda block: (block.addr, block.born))
        return BlockKey("block", first.sites, self.block_number(first), base - first.addr)


def block_name(sites: Sequence[Site], number: int | None, naming: Naming) -> str:
    """A block by its number and its call sites, without those of allocators and of where threads begin: by their
    lines, which other builds have too, or else by their addresses."""
    which = f"block {number} of" if number else "block of"
    if not sites:
        return f"{which} no call site"
    return f"{which} " + " < ".join(
        f"{site.name}@{naming.site_line(site) or address_text(site.addr)}"
        for site in naming.own_sites(sites)
    )
