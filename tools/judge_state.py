#!/usr/bin/env python3
"""Says what a saved state is by its rules alone, as docs/FORMATS.md has them, and stands on nothing of the
program.

With STATE alone it prints `good`, or the place of the first unit at fault. Else it changes and cuts the state
in many ways, replays TRACE from each by PROGRAM with WORDS (settings, a layout), and reports where it prints
another result."""
import argparse
import os
import struct
import subprocess
import sys
import tempfile
from typing import Iterator

NO_HART, MANY, NONE = 0xFFFF, 0xFFFE, 2**64 - 1
NATIVE = (32, 64, 128, 256)


# Size, offset, tracking, prediction, harts, position, and the numbers of lines and tracks.
Header = tuple[int, int, int, int, int, int, int, int]


class Fault(Exception):
    """The place of the first unit at fault."""


def read_header(b: bytes) -> Header:
    if len(b) < 64 or b[:8] != b"PRDSTA01" or any(b[34:40]):
        raise Fault(0)
    size, offset, tracking, prediction, harts = struct.unpack_from("<IIQQH", b, 8)
    position, lines, tracks = struct.unpack_from("<QQQ", b, 40)
    good = size in (4, 8, 16, 32, 64, 128, 256, 512, 1024) and offset < size and offset % 4 == 0
    good = good and 1 <= tracking <= 2**32 and 1 <= harts <= 256 and position <= 2**40
    if prediction:
        good = good and tracking <= prediction <= 2**32 and size in NATIVE and offset == 0
    if not good:
        raise Fault(0)
    return size, offset, tracking, prediction, harts, position, lines, tracks


def word_total(b: bytes, at: int, harts: int) -> int | None:
    reads, writes, owner, zero = struct.unpack_from("<QQHH", b, at)
    n = reads + writes
    owned = owner == NO_HART if n == 0 else owner < harts or (owner == MANY and n >= 2)
    return n if owned and zero == 0 else None


def read_track(b: bytes, at: int, head: Header) -> tuple[int, int, int, int]:
    """Kind, base and start of the track by itself, and its end."""
    size, offset, tracking, prediction, harts, position, _, _ = head
    if at + 32 > len(b):
        raise Fault(at)
    kind, count_of, first, second, zero, base, start, count = struct.unpack_from("<BBHHHqQQ", b, at)
    if kind > 2 or zero or count_of > 2:
        raise Fault(at)
    words = (size * (2 if kind == 2 else 1)) // 4
    end = at + 32 + 20 * words
    if end > len(b):
        raise Fault(at)
    totals = [word_total(b, at + 32 + 20 * i, harts) for i in range(words)]
    if None in totals:
        raise Fault(at)
    sum_of_words = sum(total or 0 for total in totals)
    if start == NONE:
        good = (
            count_of == 0
            and first == NO_HART
            and second == NO_HART
            and count == 0
            and sum_of_words == 0
        )
    else:
        good = (
            count_of >= 1
            and first < harts
            and (second == NO_HART if count_of == 1 else second < harts and second != first)
        )
        good = (
            good
            and start < position
            and count <= position - start - 1
            and sum_of_words <= position - start
        )
    if not good:
        raise Fault(at)
    return kind, base, start, end


def check_detector(b: bytes) -> tuple[Header, int]:
    head = size, offset, tracking, prediction, harts, position, lines, tracks = read_header(b)
    at, due = 64, list[int]()
    last: int | None = None
    for _ in range(lines):
        if at + 16 > len(b):
            raise Fault(at)
        base, writes = struct.unpack_from("<qQ", b, at)
        good = (
            (base - offset) % size == 0
            and base + size > 0
            and base < 2**32
            and 1 <= writes <= position
        )
        if not good or (last is not None and base <= last):
            raise Fault(at)
        last = base
        if writes >= tracking:
            due.append(base)
        at += 16
    before: tuple[int, int] | None = None
    seen, crossed = 0, set[int]()
    for _ in range(tracks):
        kind, base, start, end = read_track(b, at, head)
        good = before is None or before < (kind, base)
        if kind == 0:
            good = good and seen < len(due) and due[seen] == base and start != NONE
            seen += 1
        else:
            line = base // size * size
            good = (
                good
                and prediction > 0
                and seen == len(due)
                and base >= 0
                and line in due
                and line + size in due
            )
            if kind == 1:
                good = good and base % 4 == 0 and base % size != 0 and line not in crossed
                crossed.add(line)
            else:
                good = good and base % (2 * size) == 0
        if not good:
            raise Fault(at)
        before, at = (kind, base), end
    if seen < len(due):
        raise Fault(at)
    return head, at


def check_objects(b: bytes, at: int, position: int) -> None:
    if at + 16 > len(b):
        raise Fault(at)
    symbols, blocks = struct.unpack_from("<QQ", b, at)
    at, places, live = at + 16, set[tuple[int, int, int]](), set[int]()
    for _ in range(symbols):
        if at + 12 > len(b) or b[at] != 5:
            raise Fault(at)
        kind, addr, size, length = struct.unpack_from("<BIIH", b, at + 1)
        name = b[at + 12 : at + 12 + length]
        good = (
            kind in (1, 2) and size > 0 and length <= 1024 and len(name) == length and 0 not in name
        )
        if not good or (kind, addr, size) in places:
            raise Fault(at)
        places.add((kind, addr, size))
        at += 12 + length
    for _ in range(blocks):
        if at + 41 > len(b) or b[at] != 3:
            raise Fault(at)
        addr, born, died = struct.unpack_from("<I", b, at + 1)[0], *struct.unpack_from(
            "<QQ", b, at + 25
        )
        good = born <= position if died == NONE else born <= died <= position
        if not good or (died == NONE and addr in live):
            raise Fault(at)
        if died == NONE:
            live.add(addr)
        at += 41
    if at != len(b):
        raise Fault(at)


def judge_state(b: bytes) -> tuple[Header | None, int | None]:
    """The header of a good state, or the place of the first unit at fault."""
    try:
        head, at = check_detector(b)
        check_objects(b, at, head[5])
        return head, None
    except Fault as fault:
        return None, fault.args[0]


def changed_states(b: bytes) -> Iterator[bytes]:
    for place in range(len(b)):
        for value in (0, 1, 0x7F, 0xFF):
            if b[place] != value:
                yield bytes(b[:place]) + bytes([value]) + bytes(b[place + 1 :])
    for cut in range(len(b)):
        yield bytes(b[:cut])
    yield bytes(b) + b"\0"
    for place in (48, 56):
        for number in (2**64 - 1, 2**63, 2**32):
            yield bytes(b[:place]) + struct.pack("<Q", number) + bytes(b[place + 8 :])


def call_replay(program: str, trace: str, words: list[str], state: str) -> tuple[int, str]:
    done = subprocess.run(
        [program, "replay", trace, "--resume", state, *words], capture_output=True, text=True
    )
    return done.returncode, done.stdout


def judge_changes(name: str, program: str, trace: str, words: list[str]) -> tuple[int, int]:
    """Replays a trace from each change of a state: how many there are, and of how many the program says
    another thing."""
    with open(name, "rb") as file:
        state = file.read()
    own, good = judge_state(state)[0], call_replay(program, trace, words, name)[0]
    tried = wrong = 0
    with tempfile.TemporaryDirectory() as work:
        changed = os.path.join(work, "state")
        for variant in changed_states(state):
            with open(changed, "wb") as out:
                out.write(variant)
            tried += 1
            status, text = call_replay(program, trace, words, changed)
            if not is_right_ending(own, variant, status, text, good):
                wrong += 1
                print(f"variant {tried}: {judge_state(variant)}: {status} {text[:60]!r}")
    return tried, wrong


def is_right_ending(own: Header | None, changed: bytes, status: int, text: str, good: int) -> bool:
    """Whether a replay from a changed state ends as that state says, where the trace goes on from a state
    with the header `own`, and ends with the status `good` from a good one."""
    head, place = judge_state(changed)
    if head is None or own is None:
        return text == f"predator: state BadState {place}\n" and status == 6
    differs = [at for at, mine, its in zip((8, 12, 16, 24, 32), own[:5], head[:5]) if mine != its]
    if differs:
        return text == f"predator: state WrongSettings {differs[0]}\n" and status == 6
    if head[5] != own[5]:
        return text == f"predator: state WrongPosition {head[5]} {own[5]}\n" and status == 6
    return text.startswith("predator report 1\n") and status == good


def main() -> int:
    parser = argparse.ArgumentParser(
        description=__doc__, formatter_class=argparse.RawDescriptionHelpFormatter
    )
    parser.add_argument("state", metavar="STATE")
    parser.add_argument("program", nargs="?", metavar="PROGRAM")
    parser.add_argument("trace", nargs="?", metavar="TRACE")
    parser.add_argument("words", nargs=argparse.REMAINDER, metavar="WORDS")
    call = parser.parse_args()
    if call.program is None:
        with open(call.state, "rb") as file:
            place = judge_state(file.read())[1]
        print("good" if place is None else f"BadState {place}")
        return 0
    tried, wrong = judge_changes(call.state, call.program, call.trace, call.words)
    print(f"{tried} tried, {wrong} wrong")
    return 1 if wrong else 0


if __name__ == "__main__":
    sys.exit(main())
