#!/usr/bin/env python3
"""Runs header-only C++ libraries of Debian as guests under drawn schedules, and prints the table of docs/STUDIES.md.

Each driver here uses one library as its package has it. `apt-get download` fetches the packages into out/.
`predator campaign` runs every driver under each quantum and seed, and every number of the table comes from its
tables or from `predator view`."""

import argparse
import csv
import json
import os
import subprocess
import sys
from dataclasses import dataclass
from typing import Iterable

HERE = os.path.dirname(os.path.abspath(__file__))
TOP = os.path.abspath(os.path.join(HERE, "..", "..", ".."))
OUT = os.path.join(HERE, "out")
INCLUDE = os.path.join(OUT, "root", "usr", "include")
QUANTA = (3, 10, 100)
LINE_SIZES = (64, 128)
# Some libraries ask for a Unix by its macro; all of them compile as C++17.
FLAGS = ["-std=c++17", "-D__unix__", "-I", INCLUDE]

sys.path.insert(0, os.path.join(TOP, "guest", "studies"))
from report import markdown_table, renew_document  # noqa: E402


@dataclass(frozen=True)
class Library:
    driver: str
    package: str
    title: str
    # the name of the variable whose lines the table shows
    variable: str


LIBRARIES = (
    Library("concurrent_queue", "libconcurrentqueue-dev", "moodycamel ConcurrentQueue", "queue"),
    Library(
        "reader_writer_queue", "libreaderwriterqueue-dev", "moodycamel ReaderWriterQueue", "queue"
    ),
    Library("boost_queue", "libboost1.81-dev", "Boost.Lockfree queue", "queue"),
    Library("boost_ring", "libboost1.81-dev", "Boost.Lockfree spsc_queue", "ring"),
    Library("atomic_queue", "libatomic-queue-dev", "atomic_queue AtomicQueue", "queue"),
    Library("cds_queue", "libcds-dev", "libcds VyukovMPMCCycleQueue", "queue"),
    Library("tbb_locks", "libtbb-dev", "oneTBB spin_mutex, spin_rw_mutex", "lock"),
)


@dataclass(frozen=True)
class ObjectRow:
    """A row of a campaign's objects.tsv, for lines as placed or a prediction."""

    program: str
    quantum: int
    line_size: int
    kind: str
    name: str
    invalidations: str
    false_sharing: str
    worst_seed: str

    def false_sharing_count(self) -> int:
        return int(self.false_sharing) if self.false_sharing.isdigit() else 0


def fetch_packages() -> None:
    """Downloads the packages that aren't there, and unpacks them."""
    os.makedirs(os.path.join(OUT, "packages"), exist_ok=True)
    for package in sorted({library.package for library in LIBRARIES}):
        mark = os.path.join(OUT, "packages", package)
        if os.path.exists(mark):
            continue
        folder = os.path.join(OUT, "packages", package + ".part")
        os.makedirs(folder, exist_ok=True)
        call = ["apt-get", "-q", "-q", "-o", "APT::Sandbox::User=root", "download", package]
        subprocess.run(call, cwd=folder, check=True)
        for name in os.listdir(folder):
            subprocess.run(
                ["dpkg-deb", "-x", os.path.join(folder, name), os.path.join(OUT, "root")],
                check=True,
            )
        os.rename(folder, mark)


def build_drivers(compiler: str) -> None:
    for library in LIBRARIES:
        source = os.path.join(HERE, library.driver + ".cpp")
        elf = os.path.join(OUT, library.driver + ".elf")
        subprocess.run([compiler, *FLAGS, source, "-o", elf], check=True)


def run_campaign(predator: str, seeds: int) -> str:
    """Runs all drivers, and returns the folder of the results."""
    plan, folder = os.path.join(OUT, "plan.yaml"), os.path.join(OUT, "libraries.campaign")
    programs = {library.driver: library.driver + ".elf" for library in LIBRARIES}
    with open(plan, "w") as file:
        json.dump(
            {
                "programs": programs,
                "settings": {"quantum": QUANTA},
                "seeds": [f"1-{seeds}"],
                "misses": LINE_SIZES,
            },
            file,
        )
    subprocess.run([predator, "campaign", plan, "--to", folder], check=True)
    return folder


def read_objects(folder: str) -> list[ObjectRow]:
    with open(os.path.join(folder, "objects.tsv"), newline="") as file:
        return [
            ObjectRow(
                row["program"],
                int(row["settings"].removeprefix("quantum=")),
                int(row["size"]),
                row["kind"],
                row["object"],
                row["inval median"],
                row["false median"],
                row["worst seed"],
            )
            for row in csv.DictReader(file, delimiter="\t", quoting=csv.QUOTE_NONE)
        ]


def failed_runs(folder: str) -> list[str]:
    """The runs that didn't end with exit code 0."""
    with open(os.path.join(folder, "runs.tsv"), newline="") as file:
        rows = csv.DictReader(file, delimiter="\t", quoting=csv.QUOTE_NONE)
        return [
            f"{row['program']} {row['settings']} seed {row['seed']}: {row['outcome']}"
            for row in rows
            if row["outcome"] != "exit 0"
        ]


def find_row(rows: Iterable[ObjectRow], size: int, kind: str, name: str) -> ObjectRow | None:
    """The row of an object with the most false-sharing misses."""
    found = [row for row in rows if (row.line_size, row.kind, row.name) == (size, kind, name)]
    return max(found, key=ObjectRow.false_sharing_count) if found else None


def tried_fix(predator: str, library: Library, row: ObjectRow) -> str:
    """The false-sharing misses of the variable before and after the fix that `view` tried under the worst seed."""
    shown = os.path.join(OUT, "view.json")
    settings = f"quantum={row.quantum},seed={row.worst_seed}"
    elf = os.path.join(OUT, library.driver + ".elf")
    call = [predator, "view", "run", elf, "--set", settings, "--json", shown]
    subprocess.run(call, check=True, stdout=subprocess.DEVNULL, stderr=subprocess.DEVNULL)
    with open(shown) as file:
        objects = json.load(file)["objects"]
    tried = next((it["tried"] for it in objects if it["name"] == library.variable), None)
    if not tried:
        return "-"
    return f"{tried['before']['false_sharing']} → {tried['after']['false_sharing']}"


def table_rows(predator: str, rows: list[ObjectRow]) -> list[list[object]]:
    table: list[list[object]] = []
    for library in LIBRARIES:
        for quantum in QUANTA:
            own = [row for row in rows if (row.program, row.quantum) == (library.driver, quantum)]
            placed = find_row(own, 64, "observed", library.variable)
            wide = find_row(own, 128, "observed", library.variable)
            predicted = find_row(own, 128, "doubled", library.variable)
            table.append(
                [
                    library.title,
                    quantum,
                    placed.false_sharing if placed else 0,
                    placed.invalidations if placed else "-",
                    wide.false_sharing if wide else 0,
                    predicted.invalidations if predicted else "-",
                    tried_fix(predator, library, placed)
                    if placed and quantum == QUANTA[0]
                    else "-",
                ]
            )
    return table


def main() -> int:
    parser = argparse.ArgumentParser(description=__doc__)
    parser.add_argument("--seeds", type=int, default=100, help="how many schedules (100)")
    parser.add_argument("--renew", action="store_true", help="put the table into docs/STUDIES.md")
    options = parser.parse_args()
    predator = os.environ.get("PREDATOR", os.path.join(TOP, "bin", "predator"))
    fetch_packages()
    build_drivers(os.path.join(TOP, "guest", "c++"))
    folder = run_campaign(predator, options.seeds)
    failures = failed_runs(folder)
    heads = [
        "Library",
        "Quantum",
        "False, 64-byte lines",
        "Invalidations",
        "False, 128-byte lines",
        "Predicted at 128",
        "Fix tried",
    ]
    table = markdown_table(heads, table_rows(predator, read_objects(folder)))
    print(table)
    print("\n".join(failures))
    if options.renew and not failures:
        renew_document({"libraries": table})
    return 1 if failures else 0


if __name__ == "__main__":
    sys.exit(main())
