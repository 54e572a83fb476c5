"""The classes whose virtual functions are in stripped code of C++.

The word before a table of virtual functions points to the typeinfo of its class, and the typeinfo to the class's name, unless the program
is built without RTTI."""

import functools
import re
from typing import Iterator

from view.names.x86_image import Image
from view.names.demangling import LONG, bracket_depths, demangle, short_name

NAME, SHOWN = re.compile(rb"\*?[A-Za-z0-9_.$]+"), "typeinfo name for "
# If at most this many classes share a function and none of them is a base of all, the first by name stands for them.
FEW = 4
# At most this many functions of an abstract class may be missing at the start of its table: they are zero.
LEFT_OUT = 2
# The most bases in the typeinfo of a class with several.
MOST_BASES = 64
# Names of the libraries from which most programs take threads and containers, and of the language itself.
LIBRARY = re.compile(r"(?<![\w:])(?:std|__gnu_cxx|__cxxabiv1|tbb)::[\w:~]+|>::[\w:~]+")
PLAIN = re.compile(
    r"\b(?:void|bool|w?char(?:\d*_t)?|short|int|long|float|double|unsigned|signed|const|volatile|true|false)\b|\d\w*"
)
LAMBDA, CUT = "::{lambda(", "<..>"


class Classes:
    """The classes of a program that have tables of virtual functions."""

    def __init__(self, image: Image) -> None:
        self.image = image
        self.words = {**image.words, **image.symbol_words}
        # (the classes that have a function in their tables, each by its typeinfo)
        self.owners: dict[int, dict[int, None]] = {}
        for addr, to in self.words.items():
            if to and self.mangled(to):
                for function in self.functions(addr + 8):
                    self.owners.setdefault(function, {})[to] = None

    @functools.cache
    def mangled(self, info: int) -> str:
        """The mangled name of a class, from its typeinfo; empty if the address has none."""
        name = self.words.get(info + 8)
        # (a typeinfo's first word points to the functions of its own class)
        if not name or info not in self.words or not self.image.is_constant(name):
            return ""
        text = self.image.text(name)
        return (
            text.decode("latin-1").lstrip("*")
            if NAME.fullmatch(text) and re.match(rb"\*?[1-9NSZ]", text)
            else ""
        )

    def functions(self, addr: int) -> Iterator[int]:
        """The functions of a table, without those of other files and those missing at its start."""
        left = LEFT_OUT
        while left and addr not in self.words and self.image.bytes(addr, 8) == bytes(8):
            addr, left = addr + 8, left - 1
        while (to := self.words.get(addr)) is not None and (to == 0 or self.image.is_code(to)):
            if to:
                yield to
            addr += 8

    def bases(self, info: int) -> list[int]:
        """The typeinfos of a class's bases."""
        single = self.words.get(info + 16)
        if single:
            return [single] if self.mangled(single) else []
        count = int.from_bytes(self.image.bytes(info + 20, 4), "little")
        several = [
            self.words.get(info + 24 + 16 * number, 0)
            for number in range(count if count <= MOST_BASES else 0)
        ]
        return [it for it in several if it and self.mangled(it)]

    @functools.cache
    def with_bases(self, info: int) -> set[int]:
        """A class and all of its bases."""
        found, left = {info}, [info]
        while left:
            new = [it for it in self.bases(left.pop()) if it not in found]
            found.update(new)
            left += new
        return found

    @functools.cache
    def of(self, start: int) -> str:
        """The class whose virtual function begins at an address; empty if none does."""
        infos = list(self.owners.get(start, ()))
        common = set(infos).intersection(*map(self.with_bases, infos))
        # (of a class and the base that it inherits the function from, the base has it first)
        chosen = (
            [min(common, key=lambda info: (len(self.with_bases(info)), info))] if common else infos
        )
        return (
            min(filter(None, map(self.names.get, chosen)), default="") if len(chosen) <= FEW else ""
        )

    @functools.cached_property
    def names(self) -> dict[int, str]:
        """The names of all classes, demangled by one call."""
        infos = list({it: None for own in self.owners.values() for it in own})
        names = demangle(["_ZTS" + self.mangled(it) for it in infos])
        return {
            info: name.removeprefix(SHOWN)
            for info, name in zip(infos, names)
            if name.startswith(SHOWN)
        }


def is_library(name: str) -> bool:
    """Whether a class or type belongs to a library or the language, and its name mentions nothing of the program."""
    return not re.search(r"\w", PLAIN.sub("", LIBRARY.sub("", name)))


def template_arguments(name: str) -> list[str]:
    """The arguments in the first angle brackets of a name."""
    deep = bracket_depths(name)
    first = next((at for at, it in enumerate(name) if it == "<" and deep[at] == 0), None)
    if first is None:
        return []
    found, begin = [], first + 1
    for at in range(begin, len(name)):
        if deep[at] == 1 and name[at] == "," or deep[at] == 0 and name[at] == ">":
            found.append(name[begin:at].strip())
            begin = at + 1
            if name[at] == ">":
                break
    return found


def lambda_function(name: str) -> str:
    """The function of the first lambda among a name's template arguments, short; empty if there is none."""
    end = name.find(LAMBDA)
    deep = bracket_depths(name)
    if end < 0 or deep[end] == 0:
        return ""
    begin = next(
        at
        for at in range(end - 1, -1, -1)
        if deep[at] < deep[end] or deep[at] == deep[end] and name[at] == ","
    )
    return short_name(name[begin + 1 : end].strip())


def own_argument(name: str) -> str:
    """The first template argument that is the program's own, also inside a library's template; empty if there is none."""
    own = next((it for it in template_arguments(name) if not is_library(it)), "")
    return own_argument(own) or own if LIBRARY.match(own) else own


def short_class_name(name: str) -> str:
    """A class's short name; a template keeps the lambda or the class of the program that it is instantiated for."""
    outer = short_name(name.partition("<")[0]).rpartition("::")[2]
    inner = lambda_function(name)
    if inner:
        return f"{outer}<lambda in {inner}>"
    own = own_argument(name) if len(name) > LONG and CUT in short_name(name) else ""
    return (
        f"{outer}<{short_name(own)}{'' if len(template_arguments(name)) == 1 else ',..'}>"
        if own
        else short_name(name)
    )
