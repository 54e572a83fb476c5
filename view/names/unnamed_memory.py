"""Names what has no name of its own by the instructions that conflict on it, where the trace has these."""

from typing import Iterable, Sequence

from view.model.object_keys import Key, FileKey, MemoryKey, StackKey
from view.names.naming import THREAD_LOCALS, Naming
from view.model.objects import DataObject
from view.reading.reports import Blame, Block, LineInvalidations

# So many objects are named so, the worst first, each by so many instructions; one of the program's own is looked for in so many pairs.
MAX_NAMED_OBJECTS, NAMING_PAIRS, SEARCHED_PAIRS = 4000, 2, 16
USED = "memory used at"
# What the C library's allocator keeps beside the blocks that it hands out.
HEAP = "malloc's own memory"
# A block of so many bytes may be one that pieces are cut from.
MIN_ARENA_BYTES = 1024


def worst_instructions(taken: LineInvalidations, most: int) -> list[int]:
    """The instructions of so many pairs that take a line most often for nothing, the worst first."""
    pairs = sorted(taken.pairs, key=lambda pair: (pair.same_word_times - pair.times, -pair.times))[
        :most
    ]
    return list(dict.fromkeys(at for it in pairs for at in (it.invalidator, it.victim)))


def naming_instructions(taken: LineInvalidations, naming: Naming) -> list[int]:
    """Those that name what has no name. Where the worst are all of the libraries of a language, as those of locks, the first that isn't
    leads."""
    worst = worst_instructions(taken, NAMING_PAIRS)
    own = next(
        (it for it in worst_instructions(taken, SEARCHED_PAIRS) if not naming.is_of_language(it)),
        None,
    )
    return worst if own is None or own in worst else [own, *worst]


def is_unnamed(obj: DataObject, naming: Naming) -> bool:
    """Whether instructions may say more of an object than its name does."""
    example = obj.example
    if isinstance(example, Block):
        is_large = (
            example.size >= MIN_ARENA_BYTES
            and bool(example.sites)
            and example.sites[0].name != THREAD_LOCALS
            and naming.type_of_block(example) is None
        )
        return is_large or not naming.is_identified(example.sites)
    return isinstance(obj.key, (FileKey, MemoryKey, StackKey))


def list_names(texts: Iterable[str]) -> str:
    return " and ".join(list(dict.fromkeys(texts))[:NAMING_PAIRS])


def name_by_users(obj: DataObject, pcs: Sequence[int], naming: Naming) -> None:
    """Names an object that instructions use."""
    users = list_names(map(naming.instruction_name, pcs))
    functions = list(dict.fromkeys(it for it in map(naming.frame_function, pcs) if it))
    example = obj.example
    if isinstance(obj.key, StackKey):
        used = f", used at {users}" if any(map(naming.landmark, pcs)) else ""
        obj.name += f", used in {list_names(functions)}" if functions else used
    elif isinstance(obj.key, FileKey):
        obj.name += f", used at {users}"
    elif not isinstance(example, Block):
        obj.name = HEAP if pcs and all(map(naming.is_allocator, pcs)) else f"{USED} {users}"
    elif not example.sites:
        obj.name = f"block used at {users}"
    elif not naming.is_identified(example.sites):
        obj.name += f", used at {users}"
    elif len(functions) > 1:
        # (the elements of an array are mostly used by one function, and what an arena hands out by several)
        obj.name = obj.name.replace("block made", f"block of {example.size:,} made", 1)
        obj.note = f" (an arena, used at {users})"


def join_same_names(objects: Sequence[DataObject]) -> dict[Key, DataObject]:
    """The objects by their keys: pages that the same instructions use are one, which has the lines of all."""
    first: dict[str, DataObject] = {}
    found: dict[Key, DataObject] = {}
    for obj in objects:
        own = (
            first.setdefault(obj.name, obj)
            if isinstance(obj.key, MemoryKey) and obj.name.startswith((USED, HEAP))
            else obj
        )
        found[obj.key] = own
        if own is obj:
            continue
        for spot in obj.lines:
            own.add(spot)
        own.neighbours += obj.neighbours
        own.cached_worst_lines = []
    return found


def go_runtime_keys(objects: Iterable[DataObject], blame: Blame, naming: Naming) -> set[Key]:
    """The memory of a program of Go that its runtime alone contends for."""
    from_file = getattr(naming.program, "has_go_table", None)
    if from_file is None or not from_file():
        return set()
    lines = {
        obj.key: [blame.invalidations(spot.base) for spot in obj.lines]
        for obj in objects
        if isinstance(obj.key, (MemoryKey, StackKey))
    }
    found = {
        key: [at for taken in own if taken for at in worst_instructions(taken, NAMING_PAIRS)]
        for key, own in lines.items()
    }
    naming.find_lines({at for own in found.values() for at in own})
    return {key for key, own in found.items() if own and all(map(naming.is_of_language, own))}


def name_by_instructions(objects: Iterable[DataObject], blame: Blame, naming: Naming) -> None:
    """Gives names to those of some objects that have none. What takes their worst lines is looked up in one call."""
    found: list[tuple[DataObject, LineInvalidations]] = []
    for obj in objects:
        taken = (
            blame.invalidations(obj.worst_line().base)
            if len(found) < MAX_NAMED_OBJECTS and is_unnamed(obj, naming)
            else None
        )
        if taken:
            found.append((obj, taken))
    naming.find_lines({at for _, taken in found for at in worst_instructions(taken, NAMING_PAIRS)})
    others = [
        taken
        for _, taken in found
        if all(map(naming.is_of_language, worst_instructions(taken, NAMING_PAIRS)))
    ]
    naming.find_lines({at for taken in others for at in worst_instructions(taken, SEARCHED_PAIRS)})
    for obj, taken in found:
        name_by_users(obj, naming_instructions(taken, naming), naming)
