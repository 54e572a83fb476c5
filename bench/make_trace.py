#!/usr/bin/env python3
"""Writes a trace of N accesses by 8 harts, three writes to a read, from a fixed seed.

KIND says where they go: `dense`, the usual one, 64 lines of 64 bytes; `random`, 65,536 such lines in random
order; `ends`, 32,768 words at each end of the address space. """
import argparse
import struct


def dense_access(r, hart):
    return 0x10000 + 64 * (r >> 3 & 63) + 4 * (hart + 8 * (r >> 9 & 1))


def random_access(r, hart):
    return 0x100000 + 64 * (r >> 12 & 0xFFFF) + 4 * (hart + 8 * (r >> 9 & 1))


def border_access(r, hart):
    offset = 4 * (r >> 12 & 0x7FFF)
    return offset if r >> 28 & 1 else 0x100000000 - 4 - offset


KINDS = {"dense": dense_access, "random": random_access, "ends": border_access}


def main():
    parser = argparse.ArgumentParser(
        description=__doc__, formatter_class=argparse.RawDescriptionHelpFormatter
    )
    parser.add_argument("count", type=int, metavar="N")
    parser.add_argument("name", metavar="FILE")
    parser.add_argument("kind", nargs="?", choices=KINDS, default="dense", metavar="KIND")
    call = parser.parse_args()
    count, name, place = call.count, call.name, KINDS[call.kind]
    record = struct.Struct("<BHIB")
    state = 1
    with open(name, "wb") as out:
        out.write(b"PRDTRC01" + struct.pack("<QHH", 0, 8, 0))
        piece = bytearray()
        for _ in range(count):
            state = (state * 6364136223846793005 + 1442695040888963407) & 0xFFFFFFFFFFFFFFFF
            r = state >> 32
            hart = r & 7
            piece += record.pack(1 if r >> 10 & 3 == 0 else 2, hart, place(r, hart), 4)
            if len(piece) > 1 << 20:
                out.write(piece)
                piece.clear()
        out.write(piece)
        out.write(struct.pack("<BBBHIQQ", 6, 0, 0, 0, 0, count, count))


main()
