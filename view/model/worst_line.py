"""The worst line of an object as a table: which threads write each of its words, and which only read it."""

from typing import Iterator, NamedTuple, Sequence

from view.model.objects import DataObject, WordUse
from view.model.view import View
from view.model.word_owners import field_in, join_names, used_by_others

# So many rows of the table, and so many threads of a word, are shown.
MAX_ROWS, MAX_THREADS = 8, 3
SEVERAL = "several threads"


class WordRow(NamedTuple):
    """A word or a number of eight bytes: its offset in the line, its field, and the threads that write it and that only read it."""

    offset: int
    field: str
    writers: str
    readers: str


def is_one(word: WordUse, other: WordUse) -> bool:
    """Whether two words are the halves of one number."""
    if (word.key, word.base) != (other.key, other.base) or ", " in word.name:
        return False
    is_pair = other.addr == word.addr + 4 and word.addr % 8 == 0
    if is_pair and word.kind.is_typed and word.field_name() == other.field_name():
        return True
    # (without a type, by the accesses: the first one that is counted may be that of the upper half)
    is_near = abs(word.reads - other.reads) <= 1 and abs(word.writes - other.writes) <= 1
    return is_pair and is_near and word.name == other.name and word.hart == other.hart


def joined(word: WordUse, other: WordUse) -> WordUse:
    """Two halves as one, which is accessed as often as the half that is accessed more."""
    useful = None if word.useful is None else max(word.useful, other.useful or 0)
    same = word.hart == other.hart
    return word._replace(
        reads=max(word.reads, other.reads),
        writes=max(word.writes, other.writes),
        useful=useful,
        hart=word.hart if same else "many",
        owner=word.owner if same else SEVERAL,
    )


def wholes(words: Sequence[WordUse]) -> Iterator[WordUse]:
    """The words, those of two that are one number once."""
    at = 0
    while at < len(words):
        both = at + 1 < len(words) and is_one(words[at], words[at + 1])
        yield joined(words[at], words[at + 1]) if both else words[at]
        at += 2 if both else 1


def names_of(view: View, harts: Sequence[int]) -> str:
    if len(harts) > MAX_THREADS:
        return f"{len(harts)} threads"
    return join_names([view.naming.memory.owner(it) for it in sorted(harts)])


def word_row(view: View, obj: DataObject, word: WordUse) -> WordRow:
    """The row of a word, by the threads that use it while they run where the trace was read, and else in the whole run."""
    tried = (view.trials or {}).get(obj.key)
    found = tried.uses.users_of(word.addr) if tried and tried.uses else {}
    field = field_in(obj, word) if word.key == obj.key else word.field_name()
    if found:
        writers = [hart for hart, use in found.items() if use.writes]
        readers = [hart for hart, use in found.items() if not use.writes]
        return WordRow(
            word.addr - word.base, field, names_of(view, writers), names_of(view, readers)
        )
    who = SEVERAL if word.hart == "many" else word.owner
    return WordRow(
        word.addr - word.base,
        field,
        who if word.writes else "",
        "" if word.writes else who,
    )


def worst_line_rows(view: View, obj: DataObject) -> list[WordRow]:
    """The rows of an object's worst line, in the order of their offsets."""
    base = obj.worst_line().base
    words = used_by_others(view, [it for it in view.details(obj).words if it.base == base])
    words.sort(key=lambda it: it.addr)
    return [word_row(view, obj, it) for it in wholes(words)]
