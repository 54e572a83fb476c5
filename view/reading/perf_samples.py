"""The memory samples of `perf c2c record` or `perf mem record`, as `perf script --show-mmap-events` prints them, and on which objects
of a view they fell.

perf sampled another run, in which all lies elsewhere. Data of the program and its libraries is found by the file that was mapped there;
the heap and stacks can't be. Nothing is counted but rows of the text."""

import re
from collections import Counter
from typing import TYPE_CHECKING, Iterable, Iterator, NamedTuple

from elftools.elf.constants import P_FLAGS
from elftools.elf.elffile import ELFFile

from view.faults import Fault

if TYPE_CHECKING:
    from view.model.view import View
    from view.names.native import AddressMap

PAGE = 4096
# A row of a sample: its thread, its address, and what the processor says of the access, as
# `hits 4711 [002] 81.5:  30 cpu/mem-loads,ldlat=30/P:  55d1c2b3d040  68100142 |OP LOAD|LVL L1 hit|SNP HitM|TLB ..|LCK No|BLK  N/A  210 ..`.
SAMPLE = re.compile(
    r"^[^|]*:\s+([0-9a-f]{1,16})\s+(?:[^|]*\s)?[0-9a-f]{1,16}\s+\|OP ([^|]*)\|LVL ([^|]*)\|SNP ([^|]*)\|(.*)$"
)
# A row of a mapping: `.. PERF_RECORD_MMAP2 4711/4711: [0x55d1c2b3d000(0x1000) @ 0x2000 fe:01 12 0]: rw-p /tmp/hits`.
MAPPING = re.compile(
    r"PERF_RECORD_MMAP2? (-?\d+)/\d+: \[(0x[0-9a-f]+)\((0x[0-9a-f]+)\) @ (?:0x)?([0-9a-f]+)[^]]*\]: (\S+) (.*)$"
)


class Sample(NamedTuple):
    """An access that was sampled; `weight` is its time in cycles, or none."""

    addr: int
    is_store: bool
    level: str
    snoop: str
    weight: int | None

    def is_hitm(self) -> bool:
        """Whether another core had the line modified."""
        return "HitM" in self.snoop.replace("HITM", "HitM")


class Samples(NamedTuple):
    """What a text has: samples, and for each file that was mapped what its addresses are greater by than in the file."""

    samples: list[Sample]
    biases: dict[str, int]


def segment_address(path: str, offset: int, rights: str) -> int | None:
    """The address, in a file's own terms, of what a mapping begins with, by its offset and its rights: that of code, or of data that is
    written. (Others may share their page in the file.)"""
    flag = P_FLAGS.PF_X if "x" in rights else P_FLAGS.PF_W if "w" in rights else 0
    try:
        with open(path, "rb") as file:
            for segment in ELFFile(file).iter_segments("PT_LOAD"):
                if segment["p_flags"] & flag and segment["p_offset"] // PAGE == offset // PAGE:
                    return int(segment["p_vaddr"]) // PAGE * PAGE
    except Exception:  # (a file that is gone, or no ELF file)
        return None
    return None


def read_weight(behind: str) -> int | None:
    """The weight that stands behind what the processor says of a sample: `LCK No|BLK  N/A    210 ..`."""
    words = behind.rpartition("|")[2].split()
    return int(words[2]) if len(words) > 2 and words[2].isdecimal() else None


def parse_samples(rows: Iterable[str]) -> Samples:
    samples: list[Sample] = []
    biases: dict[str, int] = {}
    for row in rows:
        mapping = MAPPING.search(row)
        if mapping:
            path = mapping[6].strip()
            offset, rights = int(mapping[4], 16), mapping[5]
            addr = segment_address(path, offset, rights) if path.startswith("/") else None
            if addr is not None:
                biases.setdefault(path, int(mapping[2], 16) - addr)
            continue
        found = SAMPLE.search(row.rstrip())
        if found:
            where, op, level, snoop, behind = found.groups()
            samples.append(
                Sample(
                    int(where, 16), "STORE" in op, level.strip(), snoop.strip(), read_weight(behind)
                )
            )
    return Samples(samples, biases)


def read_samples(path: str) -> Samples:
    """Those of a file; one that has none is refused."""
    try:
        with open(path, encoding="utf-8", errors="replace") as file:
            found = parse_samples(file)
    except OSError as error:
        raise Fault(f"{path}: {error.strerror}") from error
    if not found.samples:
        raise Fault(
            f"{path} has no memory samples: make it by `perf c2c record -- PROGRAM` and"
            " `perf script --show-mmap-events >FILE`"
        )
    return found


def trace_addresses(found: Samples, table: "AddressMap") -> Iterator[tuple[Sample, int | None]]:
    """Each sample with the address that its data has in the trace, or none where that is unknown."""
    places = {was: place for place, was in table.pages.items()}
    ranges: list[tuple[int, int, int]] = []
    for bias, path in table.maps:
        if path not in found.biases:
            continue
        with open(path, "rb") as file:
            for segment in ELFFile(file).iter_segments("PT_LOAD"):
                low = int(segment["p_vaddr"]) + found.biases[path]
                ranges.append((low, low + int(segment["p_memsz"]), bias - found.biases[path]))
    for sample in found.samples:
        move = next((move for low, high, move in ranges if low <= sample.addr < high), None)
        addr = None if move is None else sample.addr + move
        page = None if addr is None else places.get(addr // PAGE * PAGE)
        yield sample, None if page is None or addr is None else page + addr % PAGE


def describe_samples(own: list[Sample]) -> str:
    """How many samples an object has, of which kinds, and how long they took."""
    hitm = sum(it.is_hitm() for it in own)
    stores = sum(it.is_store for it in own)
    weights = [it.weight for it in own if it.weight is not None and not it.is_store]
    time = f"; loads took {sum(weights) / len(weights):.0f} cycles on average" if weights else ""
    return (
        f"{len(own):,} samples on its lines: {hitm:,} found the line modified by another core (HITM),"
        f" {stores:,} are stores{time}"
    )


def perf_rows(view: "View", path: str) -> Iterator[str]:
    """What a screen says of the samples: a row for each object that it lists, and what fell elsewhere."""
    table = getattr(view.naming.program, "map", None)
    if table is None:
        raise Fault("'--perf' needs a native program's trace, with its address map")
    found = read_samples(path)
    size, offset = view.report.size, view.report.offset
    owners = {line.base: obj for obj in view.objects for line in obj.lines}
    by_object: dict[object, list[Sample]] = {}
    elsewhere = Counter[str]()
    for sample, addr in trace_addresses(found, table):
        if addr is None:
            elsewhere["unknown"] += 1
            continue
        obj = owners.get((addr - offset) // size * size + offset)
        if obj is None:
            elsewhere["quiet"] += 1
        else:
            by_object.setdefault(obj.key, []).append(sample)
    yield f"perf: {len(found.samples):,} memory samples of {path}"
    for rank, obj in enumerate(view.listed_objects(), 1):
        if obj.key in by_object:
            yield f"{rank:5}  {view.label(obj)}: {describe_samples(by_object[obj.key])}"
    if elsewhere["quiet"]:
        yield f"       {elsewhere['quiet']:,} samples on lines without sharing misses"
    if elsewhere["unknown"]:
        yield (
            f"       {elsewhere['unknown']:,} samples on the heap, stacks or unknown files: perf sampled"
            " another run, where these lie elsewhere"
        )
