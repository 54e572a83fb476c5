#!/usr/bin/env python3
"""The answers to what the tries of native/ ask of a trace of version 1, 3 or 4. It judges: it reads the bytes by
docs/FORMATS.md alone, and shares no code with the program, with view/ and with tools/.

    judge.py end TRACE            the end of a complete trace: `exit CODE` or `part`
    judge.py accesses TRACE       the number of accesses
    judge.py whole TRACE          that of a filtered trace before it was filtered
    judge.py taken TRACE NAME     how many writes to the 64-byte line at a symbol found it in the cache of
                                  another hart
    judge.py word TRACE NAME AT   `READS WRITES HARTS` of the 4-byte word AT bytes after a symbol; an access
                                  counts once
    judge.py place TRACE NAME     the address of a symbol in the trace
    judge.py blocks TRACE NAME    the sizes of the blocks whose allocation a function of this name called,
                                  each with `live` or `freed`
    judge.py turns TRACE          the longest turn of a hart while another one has accesses before and after
    judge.py alike TRACE OTHER    `alike` where a trace of version 3 has, without its instructions, the
                                  records of one of version 1
    judge.py sites TRACE NAME AT  which instructions access the word, by the address map: for each its rows
                                  in TRACE.table as `FUNCTION LINE`, then the frames that are inlined
                                  there, the innermost first
    judge.py unnamed TRACE        how many distinct instructions have not exactly one row of their own in
                                  TRACE.table
    judge.py plain TRACE FILE     writes a filtered trace as one of version 3 to FILE
    judge.py each TRACE           bytes for each access, times 100
"""

import argparse
import os
import re
import struct
import sys
from itertools import zip_longest


def decode_distance(data, place, before):
    """What a number is that stands for the one before it, and the place behind."""
    number, start = 0, place
    while True:
        byte = data[place]
        number |= (byte & 127) << 7 * (place - start)
        place += 1
        if byte < 128:
            break
    if place - start > 5 or number >= 2**32 or (byte == 0 and place - start > 1):
        sys.exit(f"a wrong number at {start}")
    return (before + (-(number >> 1) - 1 if number & 1 else number >> 1)) % 2**32, place


def read_records(trace, all_of_it):
    with open(trace, "rb") as file:
        data = file.read()
    if data[:8] not in (b"PRDTRC01", b"PRDTRC03", b"PRDTRC04"):
        sys.exit("no trace of version 1, 3 or 4")
    place, accesses, access = 20, 0, struct.Struct("<HIB").unpack_from
    harts, whole, has_pcs = struct.unpack_from("<H", data, 16)[0], len(data), data[7:8] != b"1"
    end_size = 33 if data[7:8] == b"4" else 25
    if (struct.unpack_from("<H", data, 18)[0] in range(6, 17)) != (end_size == 33):
        sys.exit("a wrong header")
    last, pcs = 0, {}
    while place < whole:
        tag = data[place]
        if has_pcs and tag in (0x11, 0x12, 0x14, 0x21, 0x22, 0x24):
            hart = data[place + 1]
            last, behind = decode_distance(data, place + 2, last)
            if last % (tag % 16) or hart >= harts:
                sys.exit(f"a wrong access at {place}")
            pcs[hart], place = decode_distance(data, behind, pcs.get(hart, 0))
            accesses += 1
            if all_of_it:
                yield "access", hart, tag >= 0x20, last, tag % 16, pcs[hart]
        elif not has_pcs and tag in (1, 2):
            hart, addr, size = access(data, place + 1)
            if size not in (1, 2, 4) or addr % size or hart >= harts:
                sys.exit(f"a wrong access at {place}")
            accesses += 1
            if all_of_it:
                yield "access", hart, tag == 2, addr, size, None
            place += 8
        elif tag == 3:
            yield ("made", *struct.unpack_from("<II4I", data, place + 1))
            place += 25
        elif tag == 4:
            yield "freed", *struct.unpack_from("<I", data, place + 1)
            place += 5
        elif tag == 5:
            kind, addr, size, length = struct.unpack_from("<BIIH", data, place + 1)
            name = data[place + 12 : place + 12 + length]
            if kind not in (1, 2) or size == 0 or length > 1024 or 0 in name or len(name) < length:
                sys.exit(f"a wrong symbol at {place}")
            yield "symbol", kind, addr, size, name.decode(errors="replace")
            place += 12 + length
        elif tag == 6:
            outcome, cause, hart, value, steps, total = struct.unpack_from(
                "<BBHIQQ", data, place + 1
            )
            if (total, place + end_size) != (accesses, whole) or (cause, hart, steps) != (0, 0, 0):
                sys.exit(f"a wrong end at {place}")
            filtered = struct.unpack_from("<Q", data, whole - 8)[0] if end_size == 33 else accesses
            if filtered < accesses:
                sys.exit(f"a wrong end at {place}")
            yield "end", outcome, value, accesses, filtered
            return
        else:
            sys.exit(f"no record at {place}")
    sys.exit("the trace has no end")


def find_object(all_records, name):
    for record in all_records:
        if record[0] == "symbol" and record[1] == 1 and record[4] == name:
            return record[2]
    sys.exit(f"no symbol {name}")


def count_invalidations(all_records, name):
    line = find_object(all_records, name) // 64 * 64
    holders, count = set(), 0
    for record in all_records:
        if record[0] == "access" and line <= record[3] < line + 64:
            if record[2]:
                count += bool(holders - {record[1]})
                holders = set()
            holders.add(record[1])
    return count


def word_accesses(all_records, name, behind):
    at = find_object(all_records, name) + int(behind)
    own = [it for it in all_records if it[0] == "access" and at <= it[3] < at + 4]
    writes = sum(it[2] for it in own)
    return f"{len(own) - writes} {writes} {len({it[1] for it in own})}"


def list_blocks(all_records, name):
    functions = [it for it in all_records if it[0] == "symbol" and it[1] == 2 and it[4] == name]
    found = []
    for record in all_records:
        if record[0] == "made" and any(own[2] <= record[3] < own[2] + own[3] for own in functions):
            found.append([record[1], record[2], "live"])
        if record[0] == "freed":
            for own in found:
                if own[0] == record[1] and own[2] == "live":
                    own[2] = "freed"
    return " ".join(f"{size} {state}" for _, size, state in found)


def count_turns(all_records):
    harts = [it[1] for it in all_records if it[0] == "access"]
    longest, begin = 0, 0
    for at in range(1, len(harts)):
        if harts[at] != harts[at - 1]:
            longest, begin = max(longest, at - begin if begin else 0), at
    return longest


def are_alike(trace, other):
    with_pcs, without = read_records(trace, True), read_records(other, True)
    for number, (one, two) in enumerate(zip_longest(with_pcs, without)):
        if one is None or two is None or one[:5] != two[:5]:
            return f"record {number}: {one} and {two}"
    return "alike"


def parse_table(table):
    """The rows of the instructions, each by its place: of a site its function and its line, of a frame the
    same."""
    found = {}
    with open(table, errors="surrogateescape") as file:
        for row in file:
            own = re.match(r"site (0x\S+) 0x\S+ (\S+) (-|.*?:\d+) (.*)$", row) or re.match(
                r"(frame) (0x\S+) (-|.*?:\d+) (.*)$", row
            )
            if own and own[1] == "frame":
                found.setdefault(int(own[2], 16), []).append(("frame", own[4], own[3]))
            elif own:
                found.setdefault(int(own[1], 16), []).append(("site", own[2], own[3]))
    return found


def list_sites(trace, name, behind):
    all_records = list(read_records(trace, True))
    at = find_object(all_records, name) + int(behind)
    sites_by_pc = parse_table(f"{trace}.table")
    texts = []
    for pc in sorted({it[5] for it in all_records if it[0] == "access" and at <= it[3] < at + 4}):
        texts.append(
            " < ".join(
                f"{own[1]} {own[2].rpartition('/')[2]}"
                for own in sites_by_pc.get(pc, [("", "unknown", "unknown")])
            )
        )
    return "; ".join(sorted(set(texts)))


def count_unnamed(trace):
    sites_by_pc = parse_table(f"{trace}.table")
    pcs = {it[5] for it in read_records(trace, True) if it[0] == "access"}
    return sum(sum(own[0] == "site" for own in sites_by_pc.get(it, [])) != 1 for it in pcs)


def write_plain(trace, to):
    with open(trace, "rb") as file:
        data = file.read()
    with open(to, "wb") as file:
        file.write(b"PRDTRC03" + data[8:18] + bytes(2) + data[20:-8])


def main():
    parser = argparse.ArgumentParser(
        description=__doc__, formatter_class=argparse.RawDescriptionHelpFormatter
    )
    parser.add_argument("what", metavar="WHAT")
    parser.add_argument("trace", metavar="TRACE")
    parser.add_argument("names", nargs="*", metavar="NAME")
    call = parser.parse_args()
    what, trace, names = call.what, call.trace, call.names
    if what == "plain":
        write_plain(trace, *names)
    elif what in ("end", "accesses", "whole"):
        *_, (_, outcome, value, accesses, filtered) = read_records(trace, False)
        ends = {0: f"exit {value}", 4: "part"}[outcome]
        print({"end": ends, "accesses": accesses, "whole": filtered}[what])
    elif what in ("alike", "sites", "unnamed"):
        print(
            {"alike": are_alike, "sites": list_sites, "unnamed": count_unnamed}[what](trace, *names)
        )
    elif what == "each":
        accesses = [*read_records(trace, False)][-1][3]
        print(round(100 * os.path.getsize(trace) / accesses))
    else:
        all_records = list(read_records(trace, what not in ("blocks", "place")))
        if what == "place":
            print(f"{find_object(all_records, *names):#010x}")
            return
        print(
            {
                "taken": count_invalidations,
                "word": word_accesses,
                "blocks": list_blocks,
                "turns": count_turns,
            }[what](all_records, *names)
        )


main()
