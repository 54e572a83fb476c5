"""Makes small programs with a table of Go's functions and lines, as each version of Go writes it, where tests can change any byte."""

import struct
from typing import Iterator, NamedTuple, Sequence

TEXT, TABLE, MODULE, MOVES = 0x401000, 0x500000, 0x600000, 0x700000
MAGICS = {"1.16": 0xFFFFFFFA, "1.18": 0xFFFFFFF0, "1.20": 0xFFFFFFF1}
MISSING = 0xFFFFFFFF
# Values, each with how many bytes of code it is of.
Steps = Sequence[tuple[int, int]]


class Own(NamedTuple):
    """A function of some bytes: which file its unit's list begins with, its files by their numbers there, its lines, the inlined calls that
    its code is of, and the name and place of each of these. The tree of them may be left out."""

    name: str
    size: int
    unit: int
    files: Steps
    lines: Steps
    index: Steps = ()
    calls: Sequence[tuple[str, int]] = ()
    has_tree: bool = True


# (the last file is left out of the program; where no call is inlined the table of inlined calls may be there or not)
FILES = ["/src/a.go", "/src/b.go", "lib//c.go", None]
OWN = [
    Own("main.plain", 32, 0, [(1, 32)], [(7, 16), (8, 8), (6, 8)]),
    # (lib.inner is called at byte 15, and calls lib.deep at byte 31)
    Own(
        *(
            "main.outer",
            64,
            0,
            [(0, 16), (1, 32), (0, 16)],
            [(300, 15), (301, 1), (20, 15), (21, 1), (50, 16), (302, 16)],
        ),
        *([(-1, 16), (0, 16), (1, 16), (-1, 16)], [("lib.inner", 15), ("lib.deep", 31)]),
    ),
    Own("github.com/x/y%2ev3.(*T).M", 16, 2, [(0, 16)], [(1000000, 16)]),
    Own(
        "main.bare",
        32,
        0,
        [(0, 32)],
        [(90, 16), (91, 16)],
        [(0, 16), (-1, 16)],
        [("lib.inner", 20)],
        has_tree=False,
    ),
    Own("main.unknown", 16, 3, [(0, 16)], [(5, 16)]),
    Own("main.short", 16, 0, [(0, 4)], [(60, 4)], [(-1, 4)]),
]


def number(value: int) -> bytes:
    """A number of seven bits a byte."""
    return bytes([value]) if value < 0x80 else bytes([value & 0x7F | 0x80]) + number(value >> 7)


def encoded(steps: Steps) -> bytes:
    found, before = b"", -1
    for value, size in steps:
        change = value - before
        found += number(2 * change if change >= 0 else -2 * change - 1) + number(size)
        before = value
    return found + b"\0"


class Store:
    """Bytes that are put behind each other, each piece once."""

    def __init__(self, first: bytes) -> None:
        self.data, self.places = first, {first: 0}

    def put(self, piece: bytes) -> int:
        if piece not in self.places:
            self.places[piece] = len(self.data)
            self.data += piece
        return self.places[piece]

    def text(self, text: str) -> int:
        return self.put(text.encode() + b"\0")


class Made:
    """A program with a table. `way` is how addresses are written: `fixed`, or moved by relocations with `addends` or by `packed` ones."""

    def __init__(
        self,
        version: str = "1.18",
        way: str = "fixed",
        own: Sequence[Own] = OWN,
        has_module: bool = True,
    ) -> None:
        self.version, self.way, self.own, self.is_wide = version, way, own, version == "1.16"
        self.pointers: dict[int, int] = {}
        self.starts = [TEXT + sum(it.size for it in own[:at]) for at in range(len(own) + 1)]
        self.parts = {
            TEXT: bytearray(b"\xcc" * (self.starts[-1] - TEXT)),
            TABLE: bytearray(0x2000),
            MODULE: bytearray(0x200),
        }
        self.names, self.files, self.values, self.trees = (
            Store(b"go.buildid\0"),
            Store(b"/src/a.go\0"),
            Store(b"\0"),
            Store(b"\0" * 8),
        )
        places = [self.places_of(function) for function in own]
        units = b"".join(
            struct.pack("<I", MISSING if file is None else self.files.text(file)) for file in FILES
        )
        self.places = [TABLE + (64 if self.is_wide else 72)]
        for data in (self.names.data, units, self.files.data, self.values.data):
            self.put(self.places[-1], data)
            self.places.append((self.places[-1] + len(data) + 7) // 8 * 8)
        self.tree = TABLE + 0x1000
        self.put(self.tree, self.trees.data)
        self.head()
        self.records: list[int] = []
        self.list_functions(places)
        if has_module:
            self.module()

    def places_of(self, own: Own) -> tuple[int, int, int, int, int]:
        """Where a function's name, files, lines, tables of inlined calls and tree are."""
        found = [
            self.values.put(encoded(values)) if values else 0
            for values in (own.files, own.lines, own.index)
        ]
        calls = [(self.names.text(name), place) for name, place in own.calls]
        how = struct.Struct("<4xIi4x") if self.version == "1.20" else struct.Struct("<hxxiiIi")
        tree = b"".join(
            how.pack(*call) if self.version == "1.20" else how.pack(at - 1, 0, 0, *call)
            for at, call in enumerate(calls)
        )
        return (
            self.names.text(own.name),
            *found,
            self.trees.put(tree) if tree and own.has_tree else MISSING,
        )

    def put(self, addr: int, data: bytes) -> None:
        begin = max(it for it in self.parts if it <= addr)
        self.parts[begin][addr - begin : addr - begin + len(data)] = data

    def get(self, addr: int, size: int = 4) -> int:
        begin = max(it for it in self.parts if it <= addr)
        return int.from_bytes(self.parts[begin][addr - begin : addr - begin + size], "little")

    def point(self, addr: int, to: int) -> None:
        self.pointers[addr] = to
        self.put(addr, struct.pack("<Q", 0 if self.way == "addends" else to))

    def head(self) -> None:
        words = [
            len(self.own),
            len(FILES),
            *([] if self.is_wide else [0]),
            *(it - TABLE for it in self.places),
        ]
        self.put(
            TABLE, struct.pack(f"<IBBBB{len(words)}Q", MAGICS[self.version], 0, 0, 1, 8, *words)
        )
        if not self.is_wide:
            self.point(TABLE + 24, TEXT)

    def list_functions(self, places: Sequence[tuple[int, int, int, int, int]]) -> None:
        first = self.places[4]
        step = 16 if self.is_wide else 8
        place = first + (step * len(places) + 8 + 7) // 8 * 8
        for at, (own, start, own_places) in enumerate(zip(self.own, self.starts, places)):
            self.start(first + step * at, start)
            self.put(first + step * at + step // 2, (place - first).to_bytes(step // 2, "little"))
            self.records.append(place)
            place = self.function(place, own, start, own_places)
        self.start(first + step * len(places), self.starts[-1])

    def start(self, addr: int, start: int) -> None:
        if self.is_wide:
            self.point(addr, start)
        else:
            self.put(addr, struct.pack("<I", start - TEXT))

    def function(
        self, place: int, own: Own, start: int, places: tuple[int, int, int, int, int]
    ) -> int:
        """Writes a function's record, and returns the place for the next one."""
        name, files, lines, index, tree = places
        tables, pieces = (4 if own.index else 3 if own.unit else 2), (4 if own.calls else 3)
        self.start(place, start)
        unread = 7 if self.version == "1.20" else 3
        rest = (
            struct.pack("<I12xIIII", name, files, lines, tables, own.unit)
            + bytes(unread)
            + bytes([pieces])
        )
        place += 8 if self.is_wide else 4
        # (the other tables and pieces are of what isn't read here)
        self.put(place, rest + struct.pack("<IIII", 1, 1, index, 1)[: 4 * tables])
        place += len(rest) + 4 * tables
        if not self.is_wide:
            self.put(place, struct.pack("<IIII", 1, MISSING, 1, tree)[: 4 * pieces])
            return (place + 4 * pieces + 7) // 8 * 8
        place = (place + 7) // 8 * 8
        if own.calls and tree != MISSING:
            self.point(place + 24, self.tree + tree)
        return place + 8 * pieces

    def module(self) -> None:
        self.point(MODULE, TABLE)
        names, units, files, values, functions = self.places
        for word, to, size in zip(
            (1, 4, 7, 10, 13, 16), (*self.places, functions), (1, 2, 3, 4, 5, len(self.own) + 1)
        ):
            self.point(MODULE + 8 * word, to)
            self.put(MODULE + 8 * word + 8, struct.pack("<QQ", size, size))
        for word, to in ((20, TEXT), (21, self.starts[-1]), (22, TEXT), (23, self.starts[-1])):
            self.point(MODULE + 8 * word, to)
        # (of each version alone its own word is where trees are)
        for version, word in (("1.18", 38), ("1.20", 40)):
            if version == self.version:
                self.point(MODULE + 8 * word, self.tree)

    def moves(self) -> tuple[bytes, bytes]:
        """The relocations, and the dynamic section that names them."""
        if self.way == "packed":
            relocations = b"".join(struct.pack("<Q", it) for it in sorted(self.pointers))
            tags = ((36, MOVES), (35, len(relocations)))
        else:
            relocations = b"".join(
                struct.pack("<QQq", addr, 8, to) for addr, to in self.pointers.items()
            )
            tags = ((7, MOVES), (8, len(relocations)))
        return relocations, b"".join(struct.pack("<QQ", *it) for it in (*tags, (0, 0)))

    def segments(self) -> Iterator[tuple[int, int, int, bytes]]:
        """The type, the rights, the address and the bytes of each segment."""
        for addr, data in self.parts.items():
            yield 1, 5 if addr == TEXT else 6, addr, bytes(data)
        if self.way != "fixed":
            relocations, tags = self.moves()
            yield 1, 4, MOVES, relocations + tags
            yield 2, 4, MOVES + len(relocations), tags

    def bytes(self, machine: int = 62, kind: int = 2) -> bytes:
        """The program's file: for x86-64, by its class one of 64 bits."""
        segments = list(self.segments())
        place = 64 + 56 * len(segments)
        head = struct.pack(
            "<16sHHIQQQIHHHHHH",
            b"\x7fELF" + bytes([kind, 1, 1]),
            2 if self.way == "fixed" else 3,
            machine,
            1,
            TEXT,
            64,
            0,
            *(0, 64, 56, len(segments), 64, 0, 0),
        )
        table, body = b"", b""
        for p_type, rights, addr, data in segments:
            table += struct.pack(
                "<IIQQQQQQ", p_type, rights, place + len(body), addr, addr, len(data), len(data), 8
            )
            body += data
        return head + table + body
