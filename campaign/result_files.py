"""Files of results: gzipped lines of JSON, one for each run of a finished batch, and a journal for one that
is under way.

A finished file appears under its name only when it is complete. A journal ends with a broken line where its
job was killed."""

import contextlib
import gzip
import io
import json
import os
import re
from typing import Iterable, Iterator

from campaign.campaign_file import Record

FOLDER = "results"
# A batch by its least and greatest seed, and the sum of its inputs; `failed` holds calls that the next
# campaign tries again.
NAME = re.compile(r"(\d+)-(\d+)\.[0-9a-f]{12}(\.part|(\.failed)?\.jsonl\.gz)")


def finished_path(batch: str) -> str:
    return f"{FOLDER}/{batch}.jsonl.gz"


def journal_path(batch: str) -> str:
    return f"{FOLDER}/{batch}.part"


def failed_path(batch: str) -> str:
    return f"{FOLDER}/{batch}.failed.jsonl.gz"


def write_whole(path: str, data: bytes) -> None:
    """Writes a file that is there completely or not at all, also after a loss of power."""
    beside = f"{path}.new-{os.uname().nodename}-{os.getpid()}"
    with open(beside, "wb") as file:
        file.write(data)
        file.flush()
        os.fsync(file.fileno())
    os.replace(beside, path)


def record_text(record: Record) -> str:
    return json.dumps(record, sort_keys=True, separators=(",", ":")) + "\n"


def pack_records(records: Iterable[Record]) -> bytes:
    """The bytes of a finished batch: equal records give equal bytes."""
    out = io.BytesIO()
    with gzip.GzipFile(filename="", mode="wb", fileobj=out, compresslevel=6, mtime=0) as file:
        for record in records:
            file.write(record_text(record).encode())
    return out.getvalue()


def read_records(path: str) -> Iterator[Record]:
    """The records of a finished batch."""
    with gzip.open(path, "rt", encoding="utf-8") as file:
        for line in file:
            yield json.loads(line)


def parse_journal(data: bytes) -> tuple[list[Record], int]:
    """The records of a journal's complete lines, and where these end; a loss of power may leave anything
    after them."""
    records: list[Record] = []
    end = 0
    for line in data.splitlines(keepends=True):
        with contextlib.suppress(ValueError):
            if line.endswith(b"\n"):
                records.append(json.loads(line))
                end += len(line)
                continue
        break
    return records, end


def read_older_records(batch: str) -> Iterator[Record]:
    """The records of other files with seeds in this batch's range: those of another plan, or with calls that
    failed."""
    folder, own = os.path.split(finished_path(batch))
    own = own.removesuffix(".jsonl.gz")
    first, last = (int(it) for it in own.partition(".")[0].split("-"))
    for name in sorted(os.listdir(folder)):
        match = NAME.fullmatch(name)
        if not match or int(match[1]) > last or int(match[2]) < first:
            continue
        if name.startswith(own + ".part"):
            continue
        path = os.path.join(folder, name)
        if name.endswith(".part"):
            with open(path, "rb") as file:
                yield from parse_journal(file.read())[0]
        else:
            yield from read_records(path)
