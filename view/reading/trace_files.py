"""Who uses which word of a trace while threads run, read from the trace itself. Traces of other versions are converted to version 1 first,
in which each access has eight bytes."""

import mmap
import os
import struct
import tempfile
from array import array
from collections import Counter
from typing import Iterator, NamedTuple

from view.reading.engine import Predator
from view.reading.filtered_traces import is_filtered, write_plain

HEADER, ACCESS = 20, 8
# The end of a part of a trace, with how many accesses it has.
PART_END = struct.Struct("<BBBHIQQ")
END, OF_PART = 6, 4
# How much of a long trace is looked at for the best repair, where it has more than so many times that.
PART, LONG = 1 << 19, 4
# So many accesses are looked at in one piece: few behind another record, and more as long as none comes.
FEW, MANY = 64, 1 << 13
# Of more accesses than so many only every second, third .. piece is counted: who uses what is a guess, by which repairs are chosen.
ENOUGH = 1 << 21
# The sizes of records that aren't accesses, by their tags; a symbol has its name behind them.
SIZES = {3: 25, 4: 5, 5: 12}
SYMBOL = 5
# A hart that makes fewer than one in so many of the accesses that another makes to a word, or no more than so many, only looks.
SELDOM, LOOKS = 20, 2
# The bits of an access's key that are its word's, once it is moved.
WORD_MASK = 0xFFFFFFFC
# A word of which fewer than one in so many accesses writes is read only.
STEADY = 100
READ = 1


class HartUse(NamedTuple):
    """How a hart uses a word: reads, writes, and the bytes of it, as bits."""

    reads: int
    writes: int
    bytes: int

    def accesses(self) -> int:
        return self.reads + self.writes


# The byte or half of a word that a hart uses, as its place and size, by the hart and the word.
NarrowedWords = dict[tuple[int, int], tuple[int, int]]
# The use of a word by each hart.
ByHart = dict[int, HartUse]


def access_pieces(data: mmap.mmap) -> Iterator[tuple[int, bytes]]:
    """The accesses of a trace of version 1, in pieces, in order, each with where it begins."""
    place, many, end = HEADER, FEW, len(data)
    while place < end:
        piece = data[place : place + ACCESS * many]
        tags = piece[::ACCESS]
        good = len(tags) - len(tags.lstrip(b"\1\2"))
        if good:
            yield place, piece[: ACCESS * good]
        place += ACCESS * good
        if good == many:
            many = min(2 * many, MANY)
            continue
        tag = data[place] if place < end else 0
        if tag not in SIZES:
            return
        place += SIZES[tag] + (
            int.from_bytes(data[place + 10 : place + 12], "little") if tag == SYMBOL else 0
        )
        many = FEW


class ThreadPhase:
    """How often each access is made while threads run: from the first access of another hart than the first one on, up to the last such
    access. `front` is the first part of a long trace, a trace too, or empty, and has so many accesses.
    """

    def __init__(self, data: mmap.mmap) -> None:
        self.counts: "Counter[int]" = Counter()
        self.front, self.front_accesses = b"", 0
        pending: "Counter[int]" = Counter()
        first, accesses, enough, step = b"", 0, 0, len(data) // (ACCESS * ENOUGH) + 1
        for at, (place, piece) in enumerate(access_pieces(data)):
            # (a hart is below 256, and has its number in one byte)
            harts = piece[1::ACCESS]
            first = first or harts[:1]
            low, high = 0, len(harts.rstrip(first))
            if high and not enough:
                low = len(harts) - len(harts.lstrip(first))
                enough = accesses + low + PART
            accesses += len(harts)
            if high:
                self.counts.update(pending)
                pending.clear()
            if enough and at % step == 0:
                self.counts.update(array("Q", piece[ACCESS * low : ACCESS * high]))
                pending.update(array("Q", piece[ACCESS * high :]))
            if (
                enough
                and not self.front
                and accesses >= enough
                and len(data) > place + ACCESS * PART * LONG
            ):
                self.front = data[: place + len(piece)] + PART_END.pack(
                    END, OF_PART, 0, 0, 0, 0, accesses
                )
                self.front_accesses = accesses


# The bytes of a word, as bits, that one number of less than a word may be: where it begins, and its size.
NARROW = {1: (0, 1), 2: (1, 1), 4: (2, 1), 8: (3, 1), 3: (0, 2), 12: (2, 2)}
# A hart's accesses to all of a word by what an atomic instruction reads and writes, and the bytes of its others.
WHOLE_WORD = 4


class WordUses:
    """Who uses which words of a trace while threads run. Where the trace is filtered these are the accesses that it has: each thread that
    writes a word writes it there too, but not each of its bytes, nor as often. Where `has_wide_atomics` says that the machine has atomic
    instructions for whole words alone, those of a hart that otherwise uses one byte or half of a word count for that: `narrowed`
    has it by hart and word, as its place in the word and its size."""

    def __init__(
        self, path: str, is_filtered: bool = False, has_wide_atomics: bool = False
    ) -> None:
        with open(path, "rb") as file, mmap.mmap(file.fileno(), 0, access=mmap.ACCESS_READ) as data:
            running = ThreadPhase(data)
        self.front, self.front_accesses = running.front, running.front_accesses
        self.is_filtered = is_filtered
        self.counts, self.kinds = running.counts, dict[int, list[int]]()
        for key in self.counts:
            self.kinds.setdefault(key >> 24 & WORD_MASK, []).append(key)
        self.narrowed = narrow_atomics(self.counts) if has_wide_atomics else {}
        self.by_hart: dict[int, ByHart] = {}
        self.cached: dict[int, ByHart] = {}

    def words_of_several(self) -> Iterator[int]:
        """The words with accesses of several kinds, as all have that several harts use."""
        return (word for word, keys in self.kinds.items() if len(keys) > 1)

    def uses_of(self, word: int) -> ByHart:
        """How each hart uses a word."""
        if word not in self.by_hart:
            own = self.by_hart[word] = {}
            for key in self.kinds.get(word, ()):
                hart, is_read, size = key >> 8 & 0xFFFF, key & 0xFF == READ, key >> 56
                much, (reads, writes, used) = self.counts[key], own.get(hart, (0, 0, 0))
                used |= ((1 << size) - 1) << (key >> 24 & 3)
                own[hart] = HartUse(reads + much * is_read, writes + much * (not is_read), used)
            for hart in own:
                if (hart, word) in self.narrowed:
                    at, size = self.narrowed[hart, word]
                    own[hart] = own[hart]._replace(bytes=((1 << size) - 1) << at)
        return self.by_hart[word]

    def users_of(self, word: int) -> ByHart:
        """The harts that use a word, without those that only look at it."""
        if word in self.cached or word not in self.kinds:
            return self.cached.get(word, {})
        own = self.uses_of(word)
        most = max((it.accesses() for it in own.values()), default=0)
        found = {
            hart: use
            for hart, use in own.items()
            if use.accesses() * SELDOM >= most and (use.accesses() > LOOKS or most <= LOOKS)
        }
        self.cached[word] = found
        return found

    def is_mixed(self, word: int) -> bool:
        """Whether harts use different bytes of a word, one of them to write. Of a filtered trace this isn't known."""
        return not self.is_filtered and self.may_be_mixed(word)

    def may_be_mixed(self, word: int) -> bool:
        """The same by the accesses that the trace has."""
        own = self.users_of(word).values()
        return len({it.bytes for it in own}) > 1 and any(it.writes for it in own)


def narrow_atomics(counts: "Counter[int]") -> NarrowedWords:
    """The harts that use one byte or half of a word, but for atomic instructions, each of which reads all of it and writes it at most
    once; with that byte or half."""
    whole: dict[tuple[int, int], list[int]] = {}
    parts: dict[tuple[int, int], int] = {}
    for key, much in counts.items():
        addr, size, own = key >> 24 & 0xFFFFFFFF, key >> 56, key >> 8 & 0xFFFF
        place = own, addr & ~3
        if size == WHOLE_WORD:
            found = whole.setdefault(place, [0, 0])
            found[key & 0xFF != READ] += much
        else:
            parts[place] = parts.get(place, 0) | ((1 << size) - 1) << (addr & 3)
    return {
        place: NARROW[parts[place]]
        for place, (reads, writes) in whole.items()
        if 0 < writes <= reads and parts.get(place) in NARROW
    }


def read_word_uses(
    predator: Predator, trace: str, has_wide_atomics: bool = False
) -> WordUses | None:
    """Who uses the words of a trace, or none where it can't be read so."""
    with tempfile.TemporaryDirectory(prefix="predator-view-") as folder:
        is_part = False
        for at in range(4):
            with open(trace, "rb") as file:
                version = file.read(8)
            if version == b"PRDTRC01":
                return WordUses(trace, is_part, has_wide_atomics)
            other = os.path.join(folder, str(at))
            if is_filtered(version):
                write_plain(trace, other)
                is_part = True
            else:
                predator.quiet_output(["convert", "--", trace, other])
            trace = other
    return None
