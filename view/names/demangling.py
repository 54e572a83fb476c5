"""Names of symbols and functions: whole, as the sources of C++, Rust and Go have them, and short, as the screen shows them."""

import re
import shutil
import subprocess


# Symbols of C++ and Rust in a text. (A pattern that begins with a letter is looked for much faster than one that looks back first.)
MANGLED = re.compile(r"_(?<![!-~]_)[ZR][A-Za-z0-9_$.]+")
# What the compilers put behind a name that is theirs alone: it differs from build to build.
SUFFIX, HASH = re.compile(r"\.llvm\.\d+$"), re.compile(r"::h[0-9a-f]{16}$|\[[0-9a-f]{13,16}\]")
# A name in Go begins with the path of its package, behind what it is where the compiler has made it; types that stand for others are shown
# as the runtime does.
PACKAGE = re.compile(r"^(type[.:]\.\w+\.|)[\w.~%-]+(?:/[\w.~%-]+)*/(?=[^/(\[]+\.)")
SHAPES = re.compile(r"\[go\.shape\..*\]")
STRING = re.compile(
    r"std::(?:__cxx11::|__1::)?basic_string<char, ?std::(?:__1::)?char_traits<char>, ?std::(?:__1::)?allocator<char> ?>"
)
# A short name with more letters loses what stands in angle brackets.
LONG = 48
OPERATOR = re.compile(r"operator *(?:<=>|<<=|>>=|<<|>>|<=|>=|\(\)|<|>)")
OPENS, CLOSES = "<([{", ">)]}"


def demangle(names: list[str]) -> list[str]:
    """The names of some symbols, by one call of the demangler for all of them."""
    tool = shutil.which("c++filt") or shutil.which("llvm-cxxfilt")
    if not names or tool is None:
        return names
    lines = "".join(SUFFIX.sub("", it) + "\n" for it in names)
    ran = subprocess.run(
        [tool], input=lines.encode("utf-8", "surrogateescape"), capture_output=True
    )
    rows = ran.stdout.decode("utf-8", "replace").splitlines()
    # (a comma with a blank is between fields that lie in one word)
    return (
        [HASH.sub("", it).replace(", ", ",") for it in rows] if len(rows) == len(names) else names
    )


def bracket_depths(name: str) -> list[int]:
    """How deep in brackets each letter of a name is; a bracket is as deep as what is around it. Those of `operator<` and `->` are none."""
    found: list[int] = []
    depth = 0
    for letter in OPERATOR.sub(lambda operator: "o" * len(operator[0]), name.replace("->", "oo")):
        depth -= letter in CLOSES
        found.append(depth)
        depth += letter in OPENS
    return found


def remove_brackets(name: str, opening: str, kept: str, least: int = 0) -> str:
    """The name with `kept` in the place of what stands in its brackets of a kind, those of at least this depth that something follows or
    precedes."""
    deep, out, at = bracket_depths(name), "", 0
    closing = CLOSES[OPENS.index(opening)]
    while at < len(name):
        is_one = (
            name[at] == opening
            and deep[at] >= least
            and not name.startswith(("(anonymous", "(*"), at)
        )
        if opening == "(" and name.startswith("operator()", max(at - 8, 0)):
            out, at = out + "()", at + 2
            continue
        end = (
            next(
                (
                    place
                    for place in range(at + 1, len(name))
                    if name[place] == closing and deep[place] == deep[at]
                ),
                None,
            )
            if is_one
            else None
        )
        # (a bracket that a name begins with names a type: `<T as Trait>::name`)
        is_type = (
            at == 0 or name[at - 1] in " (," or (name[at - 1] == "<" and deep[at] > deep[at - 1])
        )
        if end is not None and not is_type:
            out, at = out + kept, end + 1
        else:
            out, at = out + name[at], at + 1
    return out


def short_name(name: str) -> str:
    """A name without what a reader of the screen doesn't need: parameters, return types, packages' paths and, where it is long, what is in
    angle brackets."""
    if "::" not in name and "(" not in name and "/" not in name:
        return name
    name = (
        STRING.sub("std::string", PACKAGE.sub(r"\1", name))
        .replace("std::__cxx11::", "std::")
        .replace("[abi:cxx11]", "")
    )
    if len(name) > LONG:
        name = SHAPES.sub("[...]", name)
    name = remove_brackets(re.sub(r"\) const\b", ")", name), "(", "")
    if (
        "operator" not in name
        and not re.search(r"(?:^|\W)\w+ for ", name)
        and not name.startswith("<")
    ):
        deep = bracket_depths(name)
        name = name[
            max((at + 1 for at, it in enumerate(name) if it == " " and deep[at] == 0), default=0) :
        ]
    for least in (1, 0):
        if len(name) > LONG:
            name = remove_brackets(name, "<", "<..>", least)
    return name


class SymbolNames:
    """The names that are known: each symbol's whole one, and each whole one's short one."""

    def __init__(self) -> None:
        self.whole: dict[str, str] = {}
        self.shorts: dict[str, str] = {}

    def learn_symbols(self, text: str) -> None:
        """Has all symbols in a text demangled at once."""
        new = sorted({it for it in MANGLED.findall(text) if it not in self.whole})
        self.whole.update(zip(new, demangle(new)))

    def remember(self, name: str) -> str:
        """Takes along a whole name, to show it short."""
        if name not in self.shorts:
            self.shorts[name] = short_name(name)
        return name

    def readable_name(self, name: str) -> str:
        """A symbol's name as its source has it."""
        if name[:2] in ("_Z", "_R"):
            self.learn_symbols(name)
            name = self.whole.get(name, name)
        elif "/" in name:
            name = re.sub("%([0-9a-f]{2})", lambda escape: chr(int(escape[1], 16)), name)
        # (a library's function may have the version of its interface)
        return self.remember(re.sub(r"(?<=\w)@.*", "", name))

    def shorten(self, text: str) -> str:
        """A text with each name in it short."""
        for long_name in sorted(
            (it for it, other in self.shorts.items() if it != other and it in text),
            key=len,
            reverse=True,
        ):
            text = text.replace(long_name, self.shorts[long_name])
        return text

    def lasting_name(self, name: str) -> str:
        """A symbol's name as another build has it too."""
        return (
            self.readable_name(name)
            if re.search(r"17h[0-9a-f]{16}E|\.llvm\.\d+$|^_R", name)
            else name
        )
