"""The fix for an object, in a sentence: which of its fields need lines of their own, or that its sharing is true."""

import re
from typing import Callable, Iterable, Mapping, NamedTuple, Sequence

from view.model.object_keys import Key, BlocksKey, StackKey
from view.model.objects import DataObject, WordUse
from view.reading.reports import Placement

# A word whose own misses are fewer than one in so many accesses is one thread's, but for reads at the start and the end.
SELDOM = 20
# An object behind the first one with fewer than one in so many of the run's misses isn't worth a change.
LITTLE = 100
# So many names are listed where not each of them matters; the rest are a number.
NAMED = 4
# A word of which one in so many accesses writes isn't read-only.
STEADY = 100
# So many misses of a word, or fewer, are reads at the start and the end.
LOOKS = 2
# With a larger quantum than this, and at least so many misses on one line, the advice is to try a smaller one.
SHORT, MANY = 10, 50
# What aligns in C, and below it an index, and one of elements that share a word.
ATTRIBUTE = re.compile(r"__attribute__\(\(aligned\((\d+)\)\)\)")
INDEX, PACKED = re.compile(r"\[\d+(?:\.\.\d+)?\]"), re.compile(r"\[\d+\.\.\d+\]")


# The code that gives each element of an array its own line, or nothing.
Element = Callable[[str], str]
SHARED, READ = "several threads", "read-only"


def attribute(line: int, is_cpp: bool = False) -> str:
    """What aligns a type, a field or a variable."""
    return f"alignas({line})" if is_cpp else f"__attribute__((aligned({line})))"


def in_language(text: str, is_cpp: bool) -> str:
    """A fix as the language of the object's source has it: in C++ `alignas`, which stands behind a name and before its dimensions."""
    if not is_cpp:
        return text
    return ATTRIBUTE.sub(r"alignas(\1)", text).replace("after its dimensions", "after its name")


class FieldGroup(NamedTuple):
    """Whose some words are: a thread's own, or of `SHARED` threads by their pattern, or written by one thread, by their name."""

    whose: str
    of: str


Groups = dict[FieldGroup, list[WordUse]]


def patterns(names: Iterable[str]) -> list[str]:
    """The names, those of more than two elements of an array as one: `slots[..]`."""
    found: dict[str, list[str]] = {}
    for name in dict.fromkeys(names):
        found.setdefault(INDEX.sub("[..]", name), []).append(name)
    return [one for pattern, own in found.items() for one in ([pattern] if len(own) > 2 else own)]


def listing(own: Iterable[str]) -> str:
    """Some names in a row, and how many more there are."""
    names = patterns(own)
    more = len(names) - NAMED
    return ", ".join(names[:NAMED]) + f" and {more} more" if more > 1 else all_of(names)


def all_of(names: Sequence[str]) -> str:
    """All of some names in a row."""
    return ", ".join(names[:-1]) + " and " + names[-1] if len(names) > 1 else "".join(names)


def is_field(name: str) -> bool:
    """Whether a word is called by a field or a variable, and not by its place."""
    return name[:1] not in ("+", "0")


def is_shared(word: WordUse) -> bool:
    """Whether threads pass a word to each other: by its own misses, and without them by its threads."""
    if word.useful is None:
        return word.hart == "many" and word.writes > 0
    return (
        word.writes > 0 and word.useful > LOOKS and word.useful * SELDOM > word.reads + word.writes
    )


def is_packed(word: WordUse) -> bool:
    """Whether several fields or elements lie in a word, which counts as one."""
    return word.kind.is_packed


def is_waited_for(words: Sequence[WordUse]) -> bool:
    """Whether threads read elements of an array far more often than they write them."""
    return len(words) > 1 and sum(it.reads for it in words) >= 2 * sum(it.writes for it in words)


def arrays(names: Sequence[str]) -> str | None:
    """The array in which some names first differ, or none: `stats[1].low` and `stats[2].low` differ in `stats`."""
    heads = [[name[: it.start()] for it in INDEX.finditer(name)] for name in names]
    indices = [INDEX.findall(name) for name in names]
    for depth in range(min((len(it) for it in heads), default=0)):
        if len({it[depth] for it in heads}) > 1:
            return None
        if len({it[depth] for it in indices}) > 1:
            return heads[0][depth]
    return None


def array_of(words: Sequence[WordUse]) -> str | None:
    """The array in which some words first differ, or whose elements share the one word; or none."""
    names = [it.field_name().partition(", ")[0] for it in words]
    alone = PACKED.search(names[0]) if len(set(names)) == 1 else None
    return names[0][: alone.start()] if alone else arrays(names)


def groups(words: Iterable[WordUse]) -> Groups:
    """The words by whose they are: each thread's own, each shared one alone, and the read-only ones."""
    found: Groups = {}
    for word in sorted(words, key=lambda word: -word.writes):
        if is_shared(word):
            found.setdefault(FieldGroup(SHARED, INDEX.sub("[..]", word.field_name())), []).append(
                word
            )
        elif word.hart != "many":
            found.setdefault(FieldGroup(word.owner, ""), []).append(word)
        elif word.writes * STEADY > word.reads:
            found.setdefault(FieldGroup("one thread", word.field_name()), []).append(word)
        else:
            found.setdefault(FieldGroup(READ, ""), []).append(word)
    return found


def is_contended(found: Groups) -> bool:
    """Whether words of some groups conflict: one of them is written."""
    return len(found) > 1 and any(
        key.whose != READ and any(it.writes for it in own) for key, own in found.items()
    )


def describe_words(key: FieldGroup, words: Sequence[WordUse], size: int, element: Element) -> str:
    """A group of words, and whose it is; of an array whose elements each need a line, how they get it."""
    array = (
        array_of(words)
        if key.whose == SHARED and (is_waited_for(words) or all(map(is_packed, words)))
        else None
    )
    if not array:
        names = patterns(it.field_name() for it in words)
        return f"{all_of(names) if is_field(names[0]) else listing(names)} ({key.whose})"
    return f"each element of {array} ({SHARED}; {by_type(array, size, element)})"


def by_type(array: str, size: int, element: Element) -> str:
    """How each element of an array gets its own line."""
    return element(array) or f"`{attribute(size)}` on the element's type"


def lines(words: Iterable[WordUse]) -> list[list[WordUse]]:
    """The words by their lines."""
    found: dict[int, list[WordUse]] = {}
    for word in words:
        found.setdefault(word.base, []).append(word)
    return list(found.values())


def contended_words(own: list[WordUse]) -> list[WordUse]:
    """The words of the lines on which several threads' words are, or of the first line."""
    found = [it for line in lines(own) if is_contended(groups(line)) for it in line]
    return found or (own and lines(own)[0])


def naming_fields(words: Sequence[WordUse], obj: DataObject) -> str:
    """How to name the fields of a block whose type isn't known, or nothing."""
    site = obj.name.partition(" made at ")[2].partition(" ")[0]
    return f" (`--type {site}=TYPE` names its fields)" if site and is_untyped(words, obj) else ""


def is_untyped(words: Iterable[WordUse], obj: DataObject) -> bool:
    return isinstance(obj.key, BlocksKey) and all(it.name[:1] == "+" for it in words)


def in_pieces(words: Sequence[WordUse], obj: DataObject, size: int) -> str:
    """The fix for memory without a type of which each thread has pieces."""
    how = f"`{attribute(size)}` on the element's type" + (
        f" and `aligned_alloc({size}, ..)`" if isinstance(obj.key, BlocksKey) else ""
    )
    rounded = f"in an arena round the start and the size of each piece up to multiples of {size}"
    said = f"give each thread's words their own line: in an array put {how}; {rounded}"
    return said + naming_fields(words, obj)


def is_raw(words: Sequence[WordUse], obj: DataObject) -> bool:
    """Whether an object is memory without a type, or bytes, of which each thread has its own."""
    own = groups(words)
    is_plain = is_untyped(words, obj) or all(PACKED.search(it.name) for it in words)
    return is_contended(own) and all(key.whose != SHARED for key in own) and is_plain


def groups_apart(own: Sequence[WordUse], obj: DataObject, size: int, element: Element) -> str:
    """Which words of a line need lines of their own."""
    found = groups(own)
    if (
        len(found) > 2
        and not any(it.element for it in own)
        and all(key.whose != SHARED for key in found)
    ):
        return f"give each thread's words their own line: `{attribute(size)}` on the element's type"
    if len(found) < 2:
        return f"start {obj.name} on its own line: `{attribute(size)}` after its name"
    listed = [describe_words(key, it, size, element) for key, it in found.items()]
    more = len(listed) - NAMED
    if more > 1 and not any(is_field(it.field_name()) for it in own):
        listed[NAMED:] = [f"and {more} more groups"]
    return f"separate these groups with `{attribute(size)}` after the first field of each: {'; '.join(listed)}{naming_fields(own, obj)}"


def apart(words: Iterable[WordUse], obj: DataObject, size: int, element: Element) -> str:
    """Which of an object's words need lines of their own; `element` gives the code for an array's elements."""
    own = [it for it in words if it.key == obj.key]
    if isinstance(obj.key, StackKey):
        likely = f", likely {obj.likely}" if obj.likely else ""
        return f"other threads use variables on this stack{likely}: put `{attribute(size)}` on their types, or move them off the stack"
    if isinstance(obj.key, BlocksKey) and any(
        len({it.begin for it in line}) > 1 for line in lines(own)
    ):
        how = f"`aligned_alloc({size}, ..)` with sizes rounded up to multiples of {size}"
        return f"allocate each of these blocks on its own lines: {how}"
    own = contended_words(own)
    if own and is_raw(own, obj):
        return in_pieces(own, obj, size)
    written = [it for it in own if it.writes]
    array = array_of(written) if written else None
    if array is not None:
        return f"give each element{f' of {array}' if array else ''} its own line: {by_type(array, size, element)}"
    return groups_apart(own, obj, size, element)


def neighbours(words: Sequence[WordUse], obj: DataObject, names: Mapping[Key, str]) -> list[str]:
    """The names of the objects that conflict with another one on its worst line, as far as its words show."""
    if not words:
        return list(names.values())
    line = [it for it in words if it.base == words[0].base]
    found: dict[Key, int] = {}
    own = any(it.writes for it in line if it.key == obj.key)
    for word in line:
        if own or word.writes:
            found[word.key] = found.get(word.key, 0) + word.reads + word.writes
    # (one or two accesses are no conflict)
    return [
        names[key]
        for key, much in found.items()
        if key in names and much * SELDOM > sum(found.values())
    ]


def cost(obj: DataObject, words: Iterable[WordUse]) -> str:
    """How many misses more the words would have on lines of their own, where they would; or nothing."""
    fields: dict[tuple[int, str], int] = {}
    for word in words:
        if word.key == obj.key:
            fields[word.base, word.field_name()] = max(
                fields.get((word.base, word.field_name()), 0), word.useful or 0
            )
    own = sum(fields.values())
    more = own - obj.useful - obj.useless
    return f"; a separate line per word would cost {more:,} more misses" if more > 0 else ""


def placing(
    placed: Placement | None, name: Callable[[int], str], owner: Callable[[int], str]
) -> str:
    """The placement that `place` counted of the object, or nothing; `name` gives a word's name by its address."""
    if placed is None:
        return ""
    if placed.after >= placed.before:
        return f"; grouping its words by thread gains nothing: invalidations {placed.before:,} → {placed.after:,} (`place`)"
    found: dict[str, list[str]] = {}
    for addr, (_, hart) in placed.words.items():
        found.setdefault(SHARED if hart == "many" else owner(int(hart)), []).append(name(addr))
    parts = [f"{listing(names)} ({whose})" for whose, names in found.items()]
    more = len(parts) - NAMED
    where = "; ".join(parts[:NAMED]) + (f"; and {more} more" if more > 0 else "")
    return f"; grouped by thread ({where}), invalidations {placed.before:,} → {placed.after:,} (`place`)"


def little(obj: DataObject, total: int) -> str:
    """Why an object with hardly any of all misses isn't worth a change."""
    return f"not worth a change: {obj.useless + obj.useful:,} of all {total:,} sharing misses"


def of_allocator() -> str:
    """The fix for what the C library's allocator keeps."""
    return "reuse blocks, free them in the thread that allocated them, or link another allocator"


def is_true(obj: DataObject, is_counted: bool) -> bool:
    if is_counted:
        return obj.useless < obj.useful
    return {it.line.verdict for it in obj.lines if it.line} == {"true"}


def mostly_packed(own: Sequence[WordUse]) -> bool:
    """Whether words with several fields or elements are most of what is missed of some shared words."""
    return 2 * sum(it.useful or 1 for it in own if is_packed(it)) > sum(
        word.useful or 1 for word in own
    )


def bytewise(own: Iterable[WordUse]) -> str:
    """Those of some shared words in which threads may use different bytes, since several fields or elements lie there; or nothing."""
    return mostly_written(it for it in own if is_packed(it))


def true_sharing_sentence(
    obj: DataObject, words: Sequence[WordUse], own: Sequence[WordUse], is_counted: bool
) -> str:
    """The fix for words that threads pass to each other, `own` of some."""
    total, packed = obj.useful + obj.useless, bytewise(own)
    much = f" ({obj.useful:,} of {total:,} misses)" if is_counted else ""
    said = f"{mostly_written(own) or obj.name}: true sharing{much}"
    if packed and mostly_packed(own):
        how = "where threads use different ones, give each its own line and run again"
        return (
            f"{said} by whole 4-byte words, and several fields or elements lie in one word: {how}"
        )
    less = f"{said}: write less often, or give each thread its own copy"
    if packed:
        return f"{less}; several fields or elements lie in one word of {packed}: where threads use different ones, give each its own line"
    if not all(it.kind.is_typed for it in own):
        return f"{less}; padding helps only where threads use different bytes of a word{cost(obj, words)}"
    return f"{less}; padding doesn't help{cost(obj, words)}"


def in_turns(obj: DataObject, words: Iterable[WordUse], turns: int) -> str:
    """That a large quantum hides what threads do at the same time, where that may be."""
    own, missed = [it for it in words if it.key == obj.key], obj.worst_line().missed
    if (
        turns <= SHORT
        or missed is None
        or missed.useful + missed.useless < MANY
        or len(groups(contended_words(own) or ())) < 2
    ):
        return ""
    return f"; quantum {turns} may hide false sharing here: try `--set quantum=1` too"


def mostly_written(words: Iterable[WordUse]) -> str:
    """Some words by their names, those that are written most first."""
    return listing(it.field_name() for it in sorted(words, key=lambda word: -word.writes))


def split_sentence(
    words: Sequence[WordUse],
    obj: DataObject,
    names: Mapping[Key, str],
    size: int,
    element: Element,
) -> str:
    """What needs separate lines: an object and its neighbours, and its own words where these conflict with each other."""
    beside = neighbours(words, obj, names)
    if not beside:
        return apart(words, obj, size, element)
    both = f"{all_of([obj.name, *beside])} share lines: put `{attribute(size)}` after each name"
    own = [it for it in words if it.key == obj.key]
    within = not isinstance(obj.key, StackKey) and any(
        is_contended(groups(line)) for line in lines(own)
    )
    return f"{both}, and {apart(words, obj, size, element)}" if within else both


def sentence(
    obj: DataObject,
    words: Sequence[WordUse],
    names: Mapping[Key, str],
    size: int,
    is_counted: bool,
    element: Element,
    turns: int = 0,
) -> str:
    """The fix. The words are those of the worst line first, `names` those of the objects beside it by their keys, and `turns` is the
    quantum, where that is known."""
    total = obj.useful + obj.useless
    if is_counted and not total:
        return "none needed: its lines are invalidated, but no thread misses them again"
    if is_counted and not words and obj.useless:
        return "unknown: to see its words, lower the thresholds (`--set tracking=1,report=1`)"
    own, truth = [it for it in words if is_shared(it) and it.key == obj.key], is_true(
        obj, is_counted
    )
    if truth and (not is_counted or obj.useless * SELDOM < obj.useful):
        return true_sharing_sentence(obj, words, own, is_counted) + in_turns(obj, words, turns)
    what = split_sentence(words, obj, names, size, element)
    if not is_counted:
        return what
    saved, packed = f"saves up to {obj.useless:,} of {total:,} misses", bytewise(own)
    more = f", or more: several fields or elements lie in one word of {packed}" if packed else ""
    if not truth or packed and mostly_packed(own):
        return f"{what}; {saved}{more}" + ("" if packed else cost(obj, words))
    shared = mostly_written(own) or obj.name
    less = f"write {shared} less often ({obj.useful:,} of {total:,} misses are true sharing)"
    return f"{less}; to save up to {obj.useless:,} more, {what}{more}"
