"""Which objects are the C library's, its loader's or the kernel's, and so not the program's to change."""

import re
from typing import Sequence

from view.model.object_keys import FileKey
from view.names.naming import BEGINNINGS, KIT, THREAD_LOCALS, Naming
from view.names.naming import LIBRARIES as HEADERS
from view.model.objects import DataObject
from view.reading.reports import Block, Site, Symbol

# Files of a program of this machine, and what the kernel and valgrind put beside them.
LIBRARIES = re.compile(
    r"(?:^|/)(?:lib(?:c|m|dl|rt|pthread|resolv|gcc_s)[.-][^/]*|ld-linux[^/]*|vgpreload_[^/]*)$|^\["
)
# The function of LLVM's C++ library in which threads begin.
THREAD_PROXY = "__thread_proxy"
# Names that are kept for a C library.
RESERVED = re.compile(r"__|_[A-Z]")


def is_foreign(obj: DataObject, naming: Naming) -> bool:
    """Whether an object isn't the program's own, as far as its file and its debug information show."""
    if naming.program is None or naming.program.dwarf is None and file_path(0, naming) is None:
        return False
    if isinstance(obj.key, FileKey):
        return bool(LIBRARIES.search(obj.key.path))
    if isinstance(obj.example, Symbol):
        return is_foreign_symbol(obj.example, naming)
    if (
        isinstance(obj.example, Block)
        and obj.example.sites
        and obj.example.sites[0].name != THREAD_LOCALS
    ):
        return all(is_foreign_site(it, naming) for it in obj.example.sites)
    return False


def file_path(addr: int, naming: Naming) -> str | None:
    """The file of this machine that has an address, or none for a guest."""
    from view.names.native import NativeProgram

    if not isinstance(naming.program, NativeProgram):
        return None
    found = naming.program.file(addr)
    return found[0].path if found else ""


def is_foreign_symbol(symbol: Symbol, naming: Naming) -> bool:
    from view.names.fields import die_name, value_or_default

    path = file_path(symbol.addr, naming)
    if path is not None:
        return bool(LIBRARIES.search(path))
    variable = naming.program.variable(symbol.addr) if naming.program else None
    if variable is None:
        # (the C library of guests has no debug information)
        return bool(RESERVED.match(symbol.name))
    unit = variable.dies[0].cu
    return bool(KIT.search(value_or_default(lambda: die_name(unit.get_top_DIE()), "")))


def is_foreign_site(site: Site, naming: Naming) -> bool:
    path = file_path(site.addr, naming)
    if path is not None:
        return not path or bool(LIBRARIES.search(path))
    files = (
        [it.file for it in naming.sources.frames(site.addr) if it.file] if naming.sources else []
    )
    # (where a thread of C++ begins; a function of the program that is compiled into it has its own file)
    is_proxy = THREAD_PROXY in site.name
    return site.name in BEGINNINGS or all(
        KIT.search(it) or is_proxy and HEADERS.search(it) for it in files
    )


def row_of(folded: Sequence[DataObject], has_runtime: bool = False) -> str:
    """The name of the row that some objects share; `has_runtime` is whether some are of Go's runtime."""
    what = "1 object" if len(folded) == 1 else f"{len(folded):,} objects"
    whose = "the C library or Go's runtime" if has_runtime else "the C library"
    return f"{what} of {whose} (--library shows {'it' if len(folded) == 1 else 'them'})"
