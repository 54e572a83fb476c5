"""Where a file's debug information has what lies at an address, without a look at all of its entries: pyelftools parses
every unit before the one that it is asked for, and a library of the system has hundreds."""

import bisect
import contextlib
from typing import Any, Iterator

from view.names.debug_entries import Die, Unit

# The operation that pushes an address (DW_OP_addr).
ADDRESS_OPERATION = 3
# A unit of 64-bit DWARF has its length behind this one of four bytes.
LONG_UNIT = 0xFFFFFFFF


def unit_begins(data: bytes, is_little: bool) -> list[int]:
    """Where the units of a section of debug information begin, and where the last one ends."""
    order: Any = "little" if is_little else "big"
    found, at = [0], 0
    while at + 4 <= len(data):
        length = int.from_bytes(data[at : at + 4], order)
        at += 4
        if length == LONG_UNIT:
            length = int.from_bytes(data[at : at + 8], order)
            at += 8
        at += length
        found.append(at)
    return found


class DebugPlaces:
    """The units of a file's debug information by their places. While it lives, pyelftools finds units by it."""

    def __init__(self, dwarf: Any) -> None:
        self.dwarf = dwarf
        self.data: bytes = dwarf.debug_info_sec.stream.getvalue()
        self.begins = unit_begins(self.data, dwarf.config.little_endian)
        dwarf.get_CU_containing = self.unit_at

    def unit_at(self, offset: int) -> Unit:
        """The unit that has an offset of the section."""
        at = bisect.bisect_right(self.begins, offset) - 1
        if not 0 <= at < len(self.begins) - 1:
            raise ValueError(f"no unit has {offset:#x}")
        unit: Unit = self.dwarf.get_CU_at(self.begins[at])
        return unit

    def has_other_addresses(self) -> bool:
        """Whether expressions may name addresses by their place in a table (DW_OP_addrx)."""
        return self.dwarf.debug_addr_sec is not None

    def entries_with(self, addr: int) -> Iterator[Die]:
        """The entries that have an expression which is this address alone."""
        order: Any = "little" if self.dwarf.config.little_endian else "big"
        size = self.dwarf.config.default_address_size
        wanted = bytes([size + 1, ADDRESS_OPERATION]) + addr.to_bytes(size, order)
        at = self.data.find(wanted)
        while at >= 0:
            yield self.entry_around(at)
            at = self.data.find(wanted, at + 1)

    def entry_around(self, offset: int) -> Die:
        """The innermost entry that begins before an offset of the section and ends behind it."""
        unit = self.unit_at(offset)
        found = unit.get_top_DIE()
        while not found.offset <= offset < found.offset + found.size:
            own = None
            for child in unit.iter_DIE_children(found):
                if child.offset > offset:
                    break
                own = child
            if own is None:
                raise ValueError(f"no entry has {offset:#x}")
            found = own
        return found


def read_debug_information(elf: Any) -> tuple[Any, DebugPlaces | None]:
    """What a file of pyelftools has, and the places in it; none without debug information, or where that is damaged."""
    dwarf, places = None, None
    with contextlib.suppress(Exception):
        if elf.has_dwarf_info() and elf.get_section_by_name(".debug_info"):
            dwarf = elf.get_dwarf_info()
            places = DebugPlaces(dwarf)
    return dwarf, places
