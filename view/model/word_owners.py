"""Which threads use which words of an object's worst line: the row `who` of the screen."""

import re
from collections import Counter
from typing import Iterable, NamedTuple, Sequence

from view.repairs import advice
from view.model.object_keys import StackKey
from view.model.view import View
from view.model.objects import DataObject, WordUse
from view.reading.reports import Symbol

# So many groups of words are named, so many fields of a group, and so many neighbours.
GROUPS, FIELDS, BESIDE = 3, 3, 3
# A variable of more bytes isn't a single number.
MAX_VALUE_BYTES = 8
ELEMENT = re.compile(r"\[\d+\]")
MANY, ONE = "several threads", "one thread"


class Owner(NamedTuple):
    """The threads of some words: what they do, and their names where these are known."""

    does: str
    names: str


def join_names(names: Sequence[str]) -> str:
    """The names of threads as one: `harts 1 and 2`."""
    parts = [it.partition(" ")[::2] for it in names]
    kinds = {kind for kind, _ in parts}
    if len(names) < 2 or len(kinds) > 1 or not all(number.isdigit() for _, number in parts):
        return advice.all_of(names)
    return f"{kinds.pop()}s {advice.all_of([number for _, number in parts])}"


def owner_of(view: View, obj: DataObject, word: WordUse) -> Owner:
    """The threads that use a word: while threads run where the trace was read, and else in the whole run."""
    tried = (view.trials or {}).get(obj.key)
    if tried is not None and tried.uses is not None and word.key == obj.key:
        from view.repairs.subjects import sharing_of

        found = sharing_of(tried.uses, word.addr, 4)
        names = [view.naming.memory.owner(it) for it in sorted(found.harts)]
        if found.kind == "own":
            return Owner("own", names[0])
        if found.kind == "shared":
            return Owner("shared", join_names(names) if len(names) <= BESIDE else MANY)
        if found.kind == "read":
            return Owner("read", "")
    if word.hart != "many":
        return Owner("own", word.owner)
    if word.writes == 0:
        return Owner("read", "")
    return Owner("used", MANY if advice.is_shared(word) else ONE)


def group_by_owner(
    view: View, obj: DataObject, words: Iterable[WordUse]
) -> dict[Owner, list[WordUse]]:
    """Words by their threads, in the order of their addresses."""
    found: dict[Owner, list[WordUse]] = {}
    for word in sorted(words, key=lambda word: word.addr):
        found.setdefault(owner_of(view, obj, word), []).append(word)
    return found


def field_in(obj: DataObject, word: WordUse) -> str:
    """A word's field without the object's name, which the row has: `+4`, `[2].high`."""
    name = word.field_name()
    rest = name.removeprefix(obj.name)
    is_value = isinstance(obj.example, Symbol) and obj.example.size <= MAX_VALUE_BYTES
    return (rest if rest != name else name) or (name if is_value else "+0")


def accesses(word: WordUse) -> str:
    """How often a word is written and read."""
    parts = [
        f"{count:,} {what}{'' if count == 1 else 's'}"
        for count, what in ((word.writes, "write"), (word.reads, "read"))
        if count
    ]
    return f" ({', '.join(parts)})" if parts else ""


def own_elements(obj: DataObject, groups: Iterable[Sequence[WordUse]]) -> list[str]:
    """For each group the element of an array that all its words lie in, where no word of another group does; else nothing."""
    found = []
    for own in groups:
        elements = {ELEMENT.match(field_in(obj, it)) for it in own}
        found.append({it[0] if it else "" for it in elements})
    times = Counter(it for own in found for it in own)
    return [next(iter(own)) if len(own) == 1 and times[min(own)] == 1 else "" for own in found]


def names_of(
    obj: DataObject, words: Sequence[WordUse], element: str, worst: WordUse, is_numbered: bool
) -> str:
    """The fields of a group, the most written word with its numbers, unless the trace leaves out some of its accesses."""
    numbers = accesses(worst) if is_numbered and any(it is worst for it in words) else ""
    if element:
        return element + numbers
    names = advice.patterns(field_in(obj, it) for it in words)
    most = field_in(obj, worst)
    if numbers:
        # (it may be one of a pattern)
        at = names.index(most) if most in names else 0
        names = [names[at] + numbers, *names[:at], *names[at + 1 :]]
    more = len(names) - FIELDS
    return f"{', '.join(names[:FIELDS])} and {more} more" if more > 0 else advice.all_of(names)


def group_text(owner: Owner, names: str) -> str:
    """A group of words and its threads."""
    if owner.does == "own":
        return f"{owner.names}: {names}"
    if owner.does == "read":
        return f"read-only: {names}"
    does = "written" if owner.does == "shared" else "used mostly" if owner.names == ONE else "used"
    return f"{does} by {owner.names}: {names}"


def describe_owners(view: View, obj: DataObject) -> str:
    """Which threads use which words of an object's worst line, and its neighbours there; or nothing."""
    seen = view.details(obj)
    base = obj.worst_line().base
    own = [it for it in seen.words if it.key == obj.key and it.base == base]
    own = used_by_others(view, own)
    return "; ".join(filter(None, (own_words(view, obj, own), neighbours(view, obj))))


def used_by_others(view: View, own: list[WordUse]) -> list[WordUse]:
    """Some words without those of a stack that its own thread uses alone, if others remain: a stack has many, and others use few."""
    owner = view.naming.memory.owner
    return [
        it for it in own if not isinstance(it.key, StackKey) or it.owner != owner(it.key.hart)
    ] or own


def own_words(view: View, obj: DataObject, own: Sequence[WordUse]) -> str:
    """The threads of an object's own words on a line."""
    if not own:
        return ""
    groups, worst = group_by_owner(view, obj, own), max(own, key=lambda word: word.writes)
    elements = dict(zip(groups, own_elements(obj, groups.values())))
    # (the group of the most written word is always named)
    first = sorted(groups, key=lambda owner: not any(one is worst for one in groups[owner]))
    named = [it for it in groups if len(groups) <= GROUPS + 1 or it in first[:GROUPS]]
    is_numbered = view.filtered is None
    parts = [
        group_text(owner, names_of(obj, groups[owner], elements[owner], worst, is_numbered))
        for owner in named
    ]
    more = len(groups) - len(named)
    text = "; ".join(parts) + (f"; and {more} more" if more else "")
    if len(groups) < 2 or any(it.does != "own" for it in groups):
        return text
    does = "writes" if all(any(it.writes for it in words) for words in groups.values()) else "uses"
    what = "element" if all(elements.values()) else "words"
    return f"each thread {does} its own {what}: {text}"


def neighbours(view: View, obj: DataObject) -> str:
    """The objects that share a line with another one, or nothing."""
    names = [view.label(view.objects_by_key[it]) for it in obj.neighbours]
    if not names:
        return ""
    more = len(names) - BESIDE
    listed = advice.all_of(names) if more < 1 else f"{', '.join(names[:BESIDE])} and {more} more"
    return f"on the same line{'' if len(obj.lines) == 1 else 's'}: {listed}"
