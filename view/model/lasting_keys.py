"""Names of objects that another build of the program has too."""

from typing import Iterable

from view.model.object_keys import BlocksKey, Key, MemoryKey, SymbolKey, key_order
from view.model.objects import DataObject
from view.names.naming import Naming
from view.reading.reports import Block


def make_lasting_keys(objects: Iterable[DataObject], naming: Naming) -> dict[Key, str]:
    """For each object a text that another build of the program has too: no address, and no line of a source."""
    found: dict[Key, str] = {}
    groups: dict[str, list[DataObject]] = {}
    for obj in sorted(objects, key=lambda obj: key_order(obj.key)):
        if isinstance(obj.key, SymbolKey):
            text = f"symbol {naming.names.lasting_name(obj.key.name)}"
        elif isinstance(obj.key, BlocksKey):
            text = "block " + (
                " < ".join(naming.site_functions(obj.example.sites))
                if isinstance(obj.example, Block) and obj.example.sites
                else "-"
            )
        else:
            text = "memory" if isinstance(obj.key, MemoryKey) else f"{obj.key.kind} {obj.key[1]}"
        groups.setdefault(text, []).append(obj)
    for text, own in groups.items():
        for at, obj in enumerate(own):
            found[obj.key] = text if at == 0 else f"{text} #{at + 1}"
    return found
