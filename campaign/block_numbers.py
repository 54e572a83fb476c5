"""The numbers of heap blocks: of all blocks that the same call sites allocate in a run, a block's place in
the order of allocation."""

import mmap
import re
from collections import Counter

from campaign.campaign_file import Record
from view.reading.trace_records import Accesses, Allocation, scan_records

BLOCK = re.compile(r"^object block (0x[0-9a-f]+) \d+ born (\d+)", re.MULTILINE)


def named_blocks(results: Record) -> set[tuple[int, int]]:
    """The blocks that the texts of a run name, by their address and birth."""
    return {
        (int(addr, 16), int(born))
        for result in results.values()
        for addr, born in BLOCK.findall(result["text"])
    }


def number_blocks(trace: str, blocks: set[tuple[int, int]]) -> dict[str, int]:
    """The number of each of these blocks, from 1 on, by its address and birth as texts."""
    numbers: dict[str, int] = {}
    made: Counter[tuple[int, ...]] = Counter()
    born = 0
    with open(trace, "rb") as file, mmap.mmap(file.fileno(), 0, access=mmap.ACCESS_READ) as data:
        for record in scan_records(data):
            if isinstance(record, Accesses):
                born += record.number
            elif isinstance(record, Allocation):
                made[record.sites] += 1
                if (record.addr, born) in blocks:
                    numbers[f"{record.addr:#010x} {born}"] = made[record.sites]
    return dict(sorted(numbers.items()))
