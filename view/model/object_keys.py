"""What lines are grouped by: the key of the object that they are reported under. A key says its kind first, so keys of two kinds are never
equal."""

from typing import Literal, NamedTuple, Union


class SymbolKey(NamedTuple):
    """A variable."""

    kind: Literal["symbol"]
    name: str
    addr: int


class BlocksKey(NamedTuple):
    """The blocks of some call sites, as `Naming.sites_key` spells these."""

    kind: Literal["block"]
    sites: tuple[str, ...]


class StackKey(NamedTuple):
    """A hart's stack."""

    kind: Literal["stack"]
    hart: int


class FileKey(NamedTuple):
    """Memory without an object where a file is mapped, by the file's path."""

    kind: Literal["file"]
    path: str


class MemoryKey(NamedTuple):
    """Other memory without an object, by the page that it is in."""

    kind: Literal["memory"]
    page: int


# What lies where no object is.
PlaceKey = Union[StackKey, FileKey, MemoryKey]
Key = Union[SymbolKey, BlocksKey, PlaceKey]


def key_order(key: Key) -> tuple[str | int, ...]:
    """What keys stand in order by: their kinds, and then what each is of."""
    return (key.kind, *key.sites) if isinstance(key, BlocksKey) else (*key,)
