"""The ways to put the fields of a record in groups: by the threads that use them."""

from typing import Callable, Sequence

from view.repairs.layouts import Member
from view.repairs.subjects import Sharing

Key = tuple[object, ...]
Pattern = tuple[Sharing, ...]


class GroupKeys:
    """The keys by which the fields of a record may be put in groups."""

    def __init__(self, members: Sequence[Member], found: dict[str, Pattern]) -> None:
        self.found = found
        self.first: dict[Key, str] = {}
        for member in members:
            if self.kind(member) == "shared":
                self.first.setdefault(self.harts(member), member.name)

    def kind(self, member: Member) -> str:
        kinds = {one.kind for one in self.found[member.name]} - {"none"}
        return next((one for one in ("shared", "read", "own") if one in kinds), "none")

    def harts(self, member: Member) -> Key:
        return tuple(one.harts for one in self.found[member.name])

    def alone(self, member: Member) -> Key:
        """What harts share is alone; what they only read, and what each has for itself, is a group."""
        return (
            ("shared", member.name)
            if self.kind(member) == "shared"
            else (self.kind(member), *(self.harts(member) if self.kind(member) == "own" else ()))
        )

    def by_writer(self, member: Member) -> Key:
        """The same, and what harts share by who writes it."""
        return (
            ("shared", *self.harts(member)) if self.kind(member) == "shared" else self.alone(member)
        )

    def together(self, member: Member) -> Key:
        """The same, and all that harts share as one."""
        return ("shared",) if self.kind(member) == "shared" else self.alone(member)

    def with_writer(self, member: Member) -> Key:
        """What harts share with what its writer has for itself."""
        return (
            ("of", *self.harts(member))
            if self.kind(member) in ("shared", "own")
            else self.alone(member)
        )

    def with_first(self, member: Member) -> Key:
        """What a hart has for itself with the first of what it writes for others."""
        is_writers = self.kind(member) == "own" and self.harts(member) in self.first
        return ("shared", self.first[self.harts(member)]) if is_writers else self.alone(member)


def field_groupings(
    members: Sequence[Member], found: dict[str, Pattern]
) -> list[list[list[Member]]]:
    """The ways to put the fields of a record in groups: those that are only read, each hart's own ones, and what harts share, alone, by who
    writes it, or with what the writer has for itself."""
    keys = GroupKeys(members, found)
    used, unused = (
        [it for it in members if (keys.kind(it) == "none") == is_unused]
        for is_unused in (False, True)
    )
    ways: list[list[list[Member]]] = []
    for key in (keys.together, keys.by_writer, keys.with_writer, keys.with_first, keys.alone):
        way = group_fields(used, unused, key)
        if len(way) > 1 and way not in ways:
            ways.append(way)
    return ways


def group_fields(
    used: Sequence[Member], unused: Sequence[Member], key: Callable[[Member], Key]
) -> list[list[Member]]:
    """The fields by their keys, in the order of their firsts; those that nobody uses go to what is only read, or else behind the rest."""
    groups: dict[Key, list[Member]] = {}
    for member in used:
        groups.setdefault(key(member), []).append(member)
    if groups and unused:
        into = groups.get(("read",)) or list(groups.values())[-1]
        into.extend(unused)
    return list(groups.values())
