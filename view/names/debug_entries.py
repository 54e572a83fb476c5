"""Entries of debug information, as pyelftools reads them, which has no types: the part of its interface that view uses."""

from typing import Any, Iterator, Mapping, Protocol


class Attribute(Protocol):
    """An attribute of an entry: its form, and its value, whose type the form decides."""

    @property
    def form(self) -> str:
        ...

    @property
    def value(self) -> Any:
        ...


class Unit(Protocol):
    """A unit of compilation."""

    # (tables of pyelftools, for its own parsers)
    structs: Any

    def __getitem__(self, name: str) -> int:
        ...

    def get_top_DIE(self) -> "Die":
        ...

    def iter_DIEs(self) -> Iterator["Die"]:
        ...

    def iter_DIE_children(self, die: "Die") -> Iterator["Die"]:
        ...


class Die(Protocol):
    """An entry of a unit: a type, a variable, a field or a function. A type that is void or unknown is none."""

    tag: str
    attributes: Mapping[str, Attribute]
    cu: Unit
    offset: int
    size: int
    # (the whole of a program's debug information, to which `Program` adds itself)
    dwarfinfo: Any

    def __hash__(self) -> int:
        ...

    def get_parent(self) -> "Die | None":
        ...

    def iter_children(self) -> Iterator["Die"]:
        ...

    def get_DIE_from_attribute(self, name: str) -> "Die":
        ...
