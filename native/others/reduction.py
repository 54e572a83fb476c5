#!/usr/bin/env python3
"""Records programs of this machine whole, filters the traces for lines of several widths, and prints how
many accesses stay and how many bytes they take: the table of docs/STUDIES.md.

Under each layout whose lines are narrow enough a filtered trace has the misses of the whole one, line by
line, and the same sweep. The script compares them, and ends with 1 where two differ."""

import argparse
import os
import random
import re
import subprocess
import sys
import tempfile
from typing import NamedTuple, Sequence

HERE = os.path.dirname(os.path.abspath(__file__))
sys.path[:0] = [HERE, os.path.join(HERE, "..", "..", "guest", "studies")]
from report import markdown_table, renew_document  # noqa: E402
from run import FOLDER, PREDATOR, STUDIES, TEXT, Study, build_path, record_trace  # noqa: E402

# The bytes of the widest lines whose counts stay, and those that a recorder takes where no call says another
# number.
NEAR_BYTES = [1 << it for it in range(6, 17, 2)]
USUAL_NEAR = 4096
# Sizes and shifts under which misses are compared, and a size whose sweep is.
LAYOUTS = ((16, 0), (64, 0), (64, 36), (256, 132), (1024, 516), (1024, 0))
SWEPT = 64
# So many accesses of each program are recorded at most.
MAX_ACCESSES = 10_000_000
REFERENCE, READS = f"{FOLDER}/reference.fa", f"{FOLDER}/reads.fa"
# Programs that aren't in the table of run.py.
MORE = {
    "minimap2": Study(["minimap2"], ["-t4", "-a", REFERENCE, READS], is_debian=True),
    "pigz": Study(["pigz"], ["-p4", "-b128", "-c", TEXT], is_debian=True, text=2_300_000),
}
ALL = {**STUDIES, **MORE}


class Row(NamedTuple):
    """What is counted of a program: all accesses, the bytes of its whole and its filtered trace, how many
    accesses stay for each width of lines, and how many counts of lines were compared and differ."""

    program: str
    accesses: int
    whole_bytes: int
    filtered_bytes: int
    kept: dict[int, int]
    compared: int
    differing: int

    def cells(self) -> list[str]:
        shares = [f"{100 * it / self.accesses:.1f}" for it in self.kept.values()]
        sizes = [f"{it / self.accesses:.2f}" for it in (self.whole_bytes, self.filtered_bytes)]
        return [self.program, f"{self.accesses:,}", *shares, *sizes, f"{self.compared:,}"]


def write_genomes(folder: str, bases: int = 200_000, reads: int = 33, length: int = 5_000) -> None:
    """A made reference, and reads of it in which one base of twenty is another: the same each time."""
    made = random.Random(1)
    reference = "".join(made.choices("ACGT", k=bases))
    with open(os.path.join(folder, "reference.fa"), "w", encoding="ascii") as file:
        file.write(f">reference\n{reference}\n")
    with open(os.path.join(folder, "reads.fa"), "w", encoding="ascii") as file:
        for number in range(reads):
            at = made.randrange(bases - length)
            read = (
                made.choice("ACGT") if made.random() < 0.05 else base
                for base in reference[at : at + length]
            )
            file.write(f">read{number}\n{''.join(read)}\n")


def run_predator(*words: str) -> str:
    return subprocess.run([PREDATOR, *words], stdout=subprocess.PIPE, text=True, check=True).stdout


def read_misses(trace: str, size: int, shift: int) -> list[str]:
    """What `misses` prints of each line and in all. (Births of blocks are positions, and a block in whose life
    no access is kept has no row.)"""
    text = run_predator("misses", trace, "--size", str(size), "--shift", str(shift))
    return re.findall(r"^(?:line|total) .*", text, flags=re.M)


def read_sweep(trace: str) -> list[str]:
    text = run_predator("sweep", trace, "--size", str(SWEPT))
    return re.sub(r"^(accesses|whole) .*\n", "", text, flags=re.M).split("\n")


def count_differences(whole: Sequence[str], found: Sequence[str]) -> int:
    return sum(one != other for one, other in zip(whole, found)) + abs(len(whole) - len(found))


def widest_layout(near: int) -> tuple[int, int]:
    """The compared layout with the widest lines that a filtered trace keeps."""
    return max((it for it in LAYOUTS if it[0] <= near), key=lambda it: it[0])


def study_program(name: str, most: int) -> Row:
    """Records a program, and compares its whole trace with the filtered ones."""
    study = ALL[name]
    study = study._replace(most=min(study.most or most, most))
    program = study.builds[0]
    with tempfile.TemporaryDirectory(prefix="predator-others-") as folder:
        if REFERENCE in study.words:
            write_genomes(folder)
        trace, out = record_trace(study, program, folder), os.path.join(folder, "filtered")
        whole = {layout: read_misses(trace, *layout) for layout in LAYOUTS}
        swept = read_sweep(trace)
        accesses = compared = differing = filtered_bytes = 0
        kept = dict[int, int]()
        for near in NEAR_BYTES:
            numbers = run_predator("filter", trace, out, "--near", str(near)).split()
            accesses, kept[near] = int(numbers[1]), int(numbers[2])
            if near == USUAL_NEAR:
                filtered_bytes = os.path.getsize(out)
            for layout in LAYOUTS if near == USUAL_NEAR else [widest_layout(near)]:
                compared += len(whole[layout])
                differing += count_differences(whole[layout], read_misses(out, *layout))
            if near == USUAL_NEAR:
                differing += count_differences(swept, read_sweep(out))
        size = os.path.getsize(trace)
    return Row(program, accesses, size, filtered_bytes, kept, compared, differing)


def main() -> int:
    parser = argparse.ArgumentParser(description=__doc__.split("\n\n", 1)[0])
    parser.add_argument("--renew", action="store_true", help="put the table into docs/STUDIES.md")
    parser.add_argument("--most", type=int, default=MAX_ACCESSES, help="accesses of a program")
    parser.add_argument("studies", nargs="*", help="all of them, unless some are named")
    options = parser.parse_args()
    names = options.studies or list(ALL)
    unknown = [it for it in names if it not in ALL]
    if unknown:
        parser.error(f"{unknown[0]}: the studies are {', '.join(ALL)}")
    build_path([it for it in names if it in STUDIES])
    rows = []
    for name in names:
        rows.append(study_program(name, options.most))
        print(*rows[-1].cells(), flush=True)
    heads = ["Program", "Accesses", *map(str, NEAR_BYTES), "Whole", "Filtered", "Compared"]
    table = markdown_table(heads, [it.cells() for it in rows])
    print(table)
    if options.renew:
        renew_document({"filtered traces": table})
    for row in rows:
        if row.differing:
            print(f"{row.program}: {row.differing:,} lines differ", file=sys.stderr)
    return int(any(it.differing for it in rows))


if __name__ == "__main__":
    sys.exit(main())
