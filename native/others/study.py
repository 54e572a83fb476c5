"""A program of this machine that run.py records, and what its words name: small inputs that are the same each time."""

import os
import random
import subprocess
from typing import Iterator, NamedTuple, Sequence

# What stands for a new folder, for a text in it, a folder of a thousand texts, sixty objects to be linked, a
# short film, and a server's settings.
FOLDER, TEXT, TREE, OBJECTS, FILM, CONFIG = "FOLDER", "TEXT", "TREE", "OBJECTS", "FILM", "CONFIG"
# The same for a genome, for what a machine may have read of it, for that with its places, and for lines.
GENOME, READS, ALIGNED, LINES = "GENOME", "READS", "ALIGNED", "LINES"


class Study(NamedTuple):
    """A program's builds or Debian's command, its words, and what is looked at in it; `status` is what it
    ends with, `text` how many bytes its text has, `reads_text` whether that is its input, `most` how many
    accesses are recorded at most, and `before` a command that makes more of its inputs. Of a server `clients`
    are the words of tools/clients.py, and `config` its settings."""

    builds: Sequence[str]
    words: Sequence[str] = ()
    looked_at: Sequence[str] = ()
    clients: Sequence[str] = ()
    status: int = 0
    is_debian: bool = False
    text: int = 400_000
    reads_text: bool = False
    most: int = 0
    config: str = ""
    before: Sequence[str] = ()


def make_text(size: int) -> bytes:
    """A text that is the same each time, and that can be made smaller."""
    words = [f"{it * 7919 % 1009:o}" for it in range(4096)]
    return " ".join(words[it * it % 4096] for it in range(size // 4)).encode()[:size]


def make_film(count: int) -> bytes:
    """So many pictures of 176 times 144 points, in which a text wanders."""
    size, line = 176 * 144, make_text(1 << 16)
    pictures = (
        b"FRAME\n" + line[2 * number : 2 * number + size] + bytes([128]) * (size // 2)
        for number in range(count)
    )
    return b"YUV4MPEG2 W176 H144 F25:1 Ip A1:1 C420jpeg\n" + b"".join(pictures)


GENOME_BASES, READ_BASES, READ_COUNT = 50_000, 400, 300


def genome_bases() -> str:
    return "".join(random.Random(1).choices("ACGT", k=GENOME_BASES))


def make_genome() -> bytes:
    return f">genome\n{genome_bases()}\n".encode()


def reads_of_genome() -> Iterator[tuple[int, str]]:
    """What was read, each with its place in the genome, with one base of fifty wrong."""
    dice, bases = random.Random(2), genome_bases()
    for _ in range(READ_COUNT):
        place = dice.randrange(GENOME_BASES - READ_BASES)
        own = bases[place : place + READ_BASES]
        yield place, "".join(dice.choice("ACGT") if dice.random() < 0.02 else it for it in own)


def make_reads() -> bytes:
    rows = (
        f"@read{at}\n{bases}\n+\n{'I' * len(bases)}\n"
        for at, (_, bases) in enumerate(reads_of_genome())
    )
    return "".join(rows).encode()


def make_aligned() -> bytes:
    """Many of them as text of the format SAM, in no order."""
    head = f"@HD\tVN:1.6\n@SQ\tSN:genome\tLN:{GENOME_BASES}\n"
    rows = (
        f"read{again}-{at}\t0\tgenome\t{place + 1}\t60\t{len(bases)}M\t*\t0\t0\t{bases}\t{'I' * len(bases)}\n"
        for again in range(20)
        for at, (place, bases) in enumerate(reads_of_genome())
    )
    return (head + "".join(rows)).encode()


def make_files(study: Study, folder: str) -> dict[str, str]:
    """The files that a study's words stand for."""
    names = (TEXT, TREE, CONFIG, GENOME, READS, ALIGNED, LINES)
    found = {it: os.path.join(folder, it.lower()) for it in names}
    found |= {
        OBJECTS: "@" + os.path.join(folder, "objects"),
        FILM: os.path.join(folder, "film.y4m"),
    }
    for name, data in (
        (TEXT, make_text(study.text)),
        (CONFIG, study.config.replace(FOLDER, folder).encode()),
        (FILM, make_film(8) if FILM in study.words else b""),
        (GENOME, make_genome() if GENOME in study.words else b""),
        (READS, make_reads() if READS in study.words else b""),
        (ALIGNED, make_aligned() if ALIGNED in study.words else b""),
        (LINES, make_text(study.text).replace(b" ", b"\n") if LINES in study.words else b""),
    ):
        with open(found[name], "wb") as file:
            file.write(data)
    for own in range(40) if TREE in study.words else ():
        os.makedirs(os.path.join(found[TREE], f"folder{own}"))
        for at in range(25):
            with open(os.path.join(found[TREE], f"folder{own}", f"file{at}.txt"), "wb") as file:
                file.write(make_text(60_000)[own * 1000 + at * 37 :][:8192])
    if OBJECTS in study.words:
        compile_all(folder, found[OBJECTS][1:])
    return found


def compile_all(folder: str, listed: str) -> None:
    """Compiles sixty sources, and lists their objects."""
    names = [f"m{it}.c" for it in range(60)]
    for program, name in enumerate(names):
        with open(os.path.join(folder, name), "w") as file:
            for own in range(30):
                other = f"f{(program * 7 + 1) % 60}_{own * 3 % 30}"
                file.write(
                    f"int {other}(int);\nint f{program}_{own}(int x) {{ return x > 1 ? {other}(x -"
                    f" {own + 1}) + {program * own} : x; }}\n"
                )
            file.write("int main(void) { return f0_0(3); }\n" if program == 0 else "")
    subprocess.run(["gcc", "-c", "-g", "-O1", *names], cwd=folder, check=True)
    with open(listed, "w") as file:
        file.write(
            "\n".join(
                [
                    "/usr/lib/x86_64-linux-gnu/crt1.o",
                    *(os.path.join(folder, it[:-2] + ".o") for it in names),
                ]
            )
            + "\n"
        )
