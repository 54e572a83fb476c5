#!/usr/bin/env python3
"""Builds and records programs of this machine, each as it is and with its repair, and prints the table of
docs/STUDIES.md, and of each program the first three rows of its screen.

fetch.sh has fetched the sources; build.sh builds them. --renew puts the table into the page, but for the
programs of debian.py, and the rows of all into first_rows.txt; --rows puts only those of the named studies
there. What is counted is what `predator misses` prints, and an object's part of it what `predator view` puts
together. It ends with 1 where a program doesn't end as it should."""

import json
import os
import re
import shutil
import subprocess
import sys
import tempfile
import time
from typing import Sequence

HERE = os.path.dirname(os.path.abspath(__file__))
TOP = os.path.join(HERE, "..", "..")
PREDATOR = os.path.join(TOP, "bin", "predator")
sys.path[:0] = [HERE, os.path.join(TOP, "guest", "studies")]
from debian import LIBC, PROGRAMS  # noqa: E402
from report import markdown_table, parse_call, renew_document, study_parser  # noqa: E402
from study import CONFIG, FILM, FOLDER, OBJECTS, TEXT, TREE, Study, make_files  # noqa: E402

OUT = os.path.join(HERE, "out")
ROWS = os.path.join(HERE, "first_rows.txt")
# A row of a screen: its place, four numbers, and the object.
ROW = re.compile(r"^ *([123])(?: +[0-9,]+){4}  (.*(?:\n {30,}.*)*)$", re.MULTILINE)
# Four threads answer by themselves.
HAPROXY = """global
    nbthread 4
defaults
    mode http
    timeout client 60s
    timeout server 60s
    timeout connect 60s
frontend served
    bind 127.0.0.1:18461
    http-request return status 200 content-type text/plain string ok
"""
UNBOUND = """server:
    num-threads: 4
    interface: 127.0.0.1@18462
    do-daemonize: no
    username: ""
    chroot: ""
    directory: "/"
    pidfile: ""
    use-syslog: no
    so-reuseport: no
    module-config: iterator
    local-zone: "here." redirect
    local-data: "here. A 10.0.0.1"
remote-control:
    control-enable: no
"""


STUDIES = {
    "lmdb": Study(["lmdb", "lmdb-apart"], [FOLDER], ["mdb_env_create"]),
    "libevent": Study(["libevent", "libevent-once"], [], ["event_debug_mode_too_late"]),
    "queue": Study(["queue", "queue-apart"], [], ["concurrent_queue"]),
    "gomp": Study(["gomp", "gomp-apart"], [], ["counts"]),
    "haproxy": Study(
        ["haproxy", "haproxy-apart"],
        ["-f", CONFIG],
        ["listener.c:", "mux_stopping_data", "stopping", "jobs", "sleeping_thread_mask"],
        ["http", "18461", "8", "60", "--again"],
        status=143,
        config=HAPROXY,
    ),
    "unbound": Study(
        ["unbound"],
        ["-d", "-c", CONFIG],
        ["event_assign"],
        ["dns", "18462", "8", "40", "--again"],
        is_debian=True,
        config=UNBOUND,
    ),
    "rocksdb": Study(
        ["db_bench"],
        ["--benchmarks=fillrandom,readrandom", "--num=150", "--threads=4", f"--db={FOLDER}/db"],
        is_debian=True,
    ),
    "blas": Study(["blas"]),
    "xz": Study(["xz"], ["-0", "-T4", "--block-size=100000", "-c", TEXT], is_debian=True),
    "zstd": Study(
        ["zstd"], ["-1", "-T4", "-B131072", "-q", "-c", TEXT], is_debian=True, text=600_000
    ),
    "pbzip2": Study(
        ["pbzip2"],
        ["-1", "-p4", "-b1", "-k", "-c", TEXT],
        is_debian=True,
        text=250_000,
        most=20_000_000,
    ),
    "x264": Study(
        ["x264"],
        ["--quiet", "--threads", "4", "-o", "/dev/null", FILM],
        is_debian=True,
        most=40_000_000,
    ),
    "fzf": Study(
        ["fzf"], ["-f", "7 1"], is_debian=True, text=100_000, reads_text=True, most=40_000_000
    ),
    "caddy": Study(
        ["caddy"],
        ["respond", "--listen", "127.0.0.1:18463", "--body", "ok"],
        clients=["http", "18463", "8", "20", "--again"],
        is_debian=True,
        most=40_000_000,
    ),
    "ripgrep": Study(["rg"], ["-j4", "-c", "7 1", TREE], is_debian=True),
    "fd": Study(["fdfind"], ["-j4", "7", TREE], is_debian=True),
    "mold": Study(
        ["mold"],
        [
            "-m",
            "elf_x86_64",
            "--no-fork",
            "--thread-count=4",
            "-o",
            f"{FOLDER}/linked",
            OBJECTS,
            "-lc",
            LIBC,
        ],
        is_debian=True,
    ),
}


ALL = {**STUDIES, **PROGRAMS}


def build_path(names: Sequence[str]) -> None:
    own = [it for it in names if not ALL[it].is_debian]
    if own:
        subprocess.run([os.path.join(HERE, "build.sh"), *own], check=True)


def record_trace(study: Study, program: str, folder: str) -> str:
    """The trace of a program that has ended as it should."""
    trace, files = os.path.join(folder, "trace"), make_files(study, folder)
    path = shutil.which(program) if study.is_debian else os.path.join(OUT, program)
    if path is None:
        sys.exit(f"run.py: {program} isn't installed")
    most = ["--most", str(study.most)] if study.most else []
    words = [files.get(it, it.replace(FOLDER, folder)) for it in study.words]
    if study.before:
        before = [files.get(it, it) for it in study.before]
        subprocess.run(before, check=True, stdout=subprocess.DEVNULL, stderr=subprocess.DEVNULL)
    command = [PREDATOR, "native", *most, "--trace", trace, "--", path, *words]
    with (
        open(files[TEXT] if study.reads_text else os.devnull, "rb") as own,
        subprocess.Popen(command, stdin=own, stdout=subprocess.DEVNULL) as run,
    ):
        if study.clients:
            subprocess.run([os.path.join(TOP, "tools", "clients.py"), *study.clients], check=True)
            time.sleep(1)
            run.terminate()
    if run.returncode not in (study.status, -(study.status - 128)):
        sys.exit(f"run.py: {program} ended with {run.returncode}")
    return trace


def is_named(name: str) -> bool:
    """Whether an object is called by a name or a line of a source, and not by places alone, as `block made in
    fd+0x1e42e2 < fd+0x34231`. A place of a panic, an assertion and a class count, but for those of a library,
    and so does a text, but for that of a caller; that a file has the memory doesn't, where its own code alone
    uses that."""
    if re.match("memory at|block without", name):
        return False
    if re.search(
        (
            r"near (?:a panic|panics) at (?!library/)|near an assertion at |in a method of"
            r' (?!std::|tbb::)|\(near the text "'
        ),
        name,
    ):
        return True
    name = re.sub(r"^memory of (.+), used at (?=\1\+0x)", "memory used at ", name).replace(
        ", used at ", " and "
    )
    parts = re.split(
        r" < | and ",
        re.sub(
            r"^(?:block (?:of \S+ )?made|block used|memory used) (?:in|at) | \([^)]*\)", "", name
        ),
    )
    return not all(re.fullmatch(r"\S+\+0x[0-9a-f]+|0x[0-9a-f]+", it) for it in parts)


def object_name(name: str) -> str:
    """A row's object, without what distinguishes it from others of its name and without its neighbours."""
    name = re.sub(r" \([\d,]+ blocks\).*", "", " ".join(name.split()))
    return name if len(name) <= 200 else name[:200] + " .."


def table_row(study: Study, program: str) -> tuple[list[object], str]:
    """What is counted of a program: all, what is looked at, and how much of what is useless has a name or a
    line; and its first rows."""
    with tempfile.TemporaryDirectory(prefix="predator-others-") as folder:
        trace, kept = record_trace(study, program, folder), os.path.join(folder, "kept.json")
        words = [PREDATOR, "view", "replay", trace, "--no-predicted", "--json", kept]
        screen = subprocess.run(words, stdout=subprocess.PIPE, text=True, check=True).stdout
        with open(kept, encoding="utf-8") as file:
            found = json.load(file)
        size = os.path.getsize(trace)
    total, objects = found["total"], found["objects"]
    own = [
        label
        for label in objects
        if any(what in label["name"] + json.dumps(label["sites"]) for what in study.looked_at)
    ]
    known = sum(it["false_sharing"] for it in objects if is_named(it["name"]))
    is_clean = "no change is worth it" in screen
    rows = "".join(f"  {place}  {object_name(name)}\n" for place, name in ROW.findall(screen))
    cells = [
        os.path.basename(program),
        f"{found['accesses']:,}",
        f"{size / found['accesses']:.1f}",
        total["true_sharing"],
        total["false_sharing"],
        sum(it["false_sharing"] for it in own) if own else "-",
        f"{100 * known // total['false_sharing']} %" if total["false_sharing"] else "-",
    ]
    return cells, f"{cells[0]}{': no change is worth it' if is_clean else ''}\n{rows}"


def renew_rows(rows: dict[str, str]) -> None:
    """Puts the rows of some programs into first_rows.txt, in the place of their former ones or behind all."""
    with open(ROWS, encoding="utf-8") as file:
        head, _, rest = file.read().partition("\n\n")
    known = {block.partition("\n")[0].partition(":")[0]: block for block in blocks_of(rest)}
    with open(ROWS, "w", encoding="utf-8") as file:
        file.write(head + "\n\n" + "".join({**known, **rows}.values()))


def blocks_of(text: str) -> list[str]:
    """The text of each program in first_rows.txt: a line with its name, and its rows, which begin with blanks."""
    return re.findall(r"^\S.*\n(?:  .*\n)*", text, re.MULTILINE)


def main() -> int:
    parser = study_parser(__doc__)
    parser.add_argument("--rows", action="store_true", help="put the rows of these studies there")
    call = parse_call(parser, ALL)
    names: list[str] = call.names
    build_path(names)
    heads = ["Program", "Accesses", "Bytes each", "True", "False", "Of the object", "Named"]
    cells: dict[str, list[list[object]]] = {}
    rows: dict[str, str] = {}
    for name in names:
        for build in ALL[name].builds:
            own, screen = table_row(ALL[name], build)
            cells.setdefault(name, []).append(own)
            rows[str(own[0])] = screen
    print(markdown_table(heads, sum(cells.values(), [])), *rows.values(), sep="\n")
    if call.renew:
        tabled = sum((cells[it] for it in STUDIES), list[list[object]]())
        renew_document({"others of this machine": markdown_table(heads, tabled)})
    if call.renew or call.rows:
        renew_rows(rows)
    return 0


if __name__ == "__main__":
    sys.exit(main())
