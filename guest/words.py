#!/usr/bin/env python3
"""Gives a program other words for its `main`: words.py PROGRAM COPY [WORD ..].

COPY is a copy of PROGRAM whose `main` gets these words in place of those that it was built with. The kit
keeps 4 KiB for them, the object `predator_arguments`: how many words there are, where each begins, a null,
and their bytes, each with a 0 behind. The launcher calls it for `predator run PROGRAM -- WORD ..`.

It ends with 0, with 1 where the words can't be had, which is said, and with 3 where PROGRAM is no file for
the machine, which the program itself says better."""

import os
import shutil
import struct
import sys

NAME, ROOM = b"predator_arguments", 4096
SYMBOLS, LOADED, OBJECT = 2, 1, 1


class NotProgram(Exception):
    """The file is no program of the machine."""


def read_table(data, at, size, count):
    """The rows of a table of the file."""
    if at + size * count > len(data):
        raise NotProgram
    return [data[at + it * size : at + (it + 1) * size] for it in range(count)]


def find_room(data):
    """Where the words are kept, in memory and in the file, or none."""
    if data[:5] != b"\x7fELF\x01" or len(data) < 52:
        raise NotProgram
    segments_at, sections_at = struct.unpack_from("<II", data, 28)
    segment_size, segments, section_size, sections = struct.unpack_from("<HHHH", data, 42)
    if segment_size < 32 or sections and section_size < 40:
        raise NotProgram
    sections = [
        struct.unpack_from("<10I", section)
        for section in read_table(data, sections_at, section_size, sections)
    ]
    for _, kind, _, _, at, size, link, _, _, _ in sections:
        if kind != SYMBOLS or link >= len(sections):
            continue
        names = data[sections[link][4] : sections[link][4] + sections[link][5]]
        for name, addr, length, info, _, _ in (
            struct.unpack("<IIIBBH", entry) for entry in read_table(data, at, 16, size // 16)
        ):
            if info & 15 == OBJECT and length == ROOM and names[name:].startswith(NAME + b"\0"):
                for kind, begin, base, _, filled, *_ in (
                    struct.unpack_from("<8I", segment)
                    for segment in read_table(data, segments_at, segment_size, segments)
                ):
                    if kind == LOADED and base <= addr and addr + ROOM <= base + filled:
                        return addr, begin + addr - base
    return None


def words_bytes(addr, words):
    """The bytes of the words at an address, or none where they take more."""
    places, text = [], b""
    begin = addr + 4 * (len(words) + 2)
    for word in words:
        places.append(begin + len(text))
        text += word + b"\0"
    made = struct.pack(f"<{len(words) + 2}I", len(words), *places, 0) + text
    return made.ljust(ROOM, b"\0") if len(made) <= ROOM else None


def main(words):
    if len(words) < 2:
        sys.exit(__doc__)
    path, copy = words[:2]
    try:
        with open(path, "rb") as file:
            data = file.read()
        room = find_room(data)
    except (OSError, NotProgram, struct.error):
        return 3
    if room is None:
        print(
            (
                f"predator: {path}: there is no room for words of its own: guest/build.sh and"
                " guest/cc leave it in programs with a C library"
            ),
            file=sys.stderr,
        )
        return 1
    made = words_bytes(room[0], [b"program", *map(os.fsencode, words[2:])])
    if made is None:
        print(f"predator: {path}: its words take more than {ROOM} bytes", file=sys.stderr)
        return 1
    shutil.copyfile(path, copy)
    with open(copy, "r+b") as file:
        file.seek(room[1])
        file.write(made)
    return 0


if __name__ == "__main__":
    sys.exit(main(sys.argv[1:]))
