"""One job of a campaign: batch.py FOLDER NAME, as the workflow calls it, makes the runs of a batch and counts
their traces.

Results that other files have of the same runs are taken over. Each run goes into a journal as soon as it is
done, so that a job that was killed goes on after it. A call that fails is tried twice more, and then noted as
failed; the batch goes on."""

import fcntl
import os
import subprocess
import sys
import tempfile
from typing import IO, Iterable, Sequence

sys.path.insert(0, os.path.dirname(os.path.dirname(os.path.abspath(__file__))))

from campaign import result_files  # noqa: E402
from campaign.block_numbers import named_blocks, number_blocks  # noqa: E402
from campaign.campaign_file import (  # noqa: E402
    Record,
    group_inputs,
    read_campaign,
    seeds_of_batch,
    short_sum,
)
from campaign.rerun_commands import needs_pcs, run_command, settings_text  # noqa: E402

MAX_TRIES = 3
# The statuses of calls that printed a result: a run and a replay also where the program came to no exit.
GOOD_STATUSES = {"run": (0, 10, 11, 12), "replay": (0, 10, 11, 12)}
# (the launcher asks for large pages as well: a short run takes half the time with them)
LARGE_PAGES = "glibc.malloc.hugetlb=1"


class CallFailed(Exception):
    """A call that printed no result, three times."""

    def __init__(self, status: int, message: str) -> None:
        super().__init__(message)
        self.status, self.message = status, message


class Caller:
    """Calls of predator. Its texts go through two files, since a short run takes a third longer with pipes.
    The output of the program that it runs is lost."""

    def __init__(self, predator: str, folder: str) -> None:
        self.predator = predator
        self.out, self.errors = (
            open(os.path.join(folder, name), "w+b", 0) for name in ("out", "errors")
        )
        self.env = {
            **os.environ,
            "GLIBC_TUNABLES": os.environ.get("GLIBC_TUNABLES", LARGE_PAGES),
        }

    def call_once(self, words: Sequence[str], errors: IO[bytes] | int) -> int:
        for file in (self.out, self.errors):
            file.seek(0)
            file.truncate()
        return subprocess.run(
            [self.predator, *words],
            stdin=subprocess.DEVNULL,
            stdout=self.out,
            stderr=errors,
            env=self.env,
        ).returncode

    def read(self, file: IO[bytes]) -> str:
        file.seek(0)
        return file.read().decode("latin-1")

    def call(self, words: Sequence[str]) -> tuple[int, str]:
        """The status of a call, and the text that it prints."""
        good = GOOD_STATUSES.get(words[0], (0,))
        for _ in range(MAX_TRIES - 1):
            status = self.call_once(words, subprocess.DEVNULL)
            if status in good:
                return status, self.read(self.out)
        # (the last try keeps the reason, without the output of the program that runs)
        last = [*words, "--output", os.devnull] if words[0] == "run" else words
        status = self.call_once(last, self.errors)
        if status in good:
            return status, self.read(self.out)
        lines = self.read(self.out).strip().split("\n")[:1]
        lines += self.read(self.errors).strip().split("\n")
        raise CallFailed(status, "; ".join(line for line in lines if line))


class Batch:
    """The runs of a batch: those that there are, and those that are still to make."""

    def __init__(self, campaign: Record, name: str) -> None:
        self.campaign, self.name = campaign, name
        self.batch = next(it for it in campaign["batches"] if it["name"] == name)
        self.group = campaign["groups"][self.batch["group"]]
        self.program = campaign["programs"][self.group["program"]]
        self.inputs = group_inputs(campaign, self.group)
        self.calls = [" ".join(words) for words in self.group["calls"]]
        self.has_pcs = any(needs_pcs(call) for call in self.calls)

    def has_same_inputs(self, record: Record) -> bool:
        """Whether a record depends on the same inputs, except for its seed."""
        schedule = record["schedule"]["sha256"] if record["schedule"] else None
        own = {
            "predator": record["predator"]["sha256"],
            "program": record["program"]["sha256"],
            "schedule": schedule,
        }
        return {**own, "settings": record["settings"]} == self.inputs

    def empty_record(self, seed: int) -> Record:
        return {
            "program": {
                "name": self.group["program"],
                "file": self.program["file"],
                "sha256": self.program["sha256"],
            },
            "schedule": self.program["schedule"],
            "settings": self.group["settings"],
            "seed": seed,
            "predator": {key: self.campaign["predator"][key] for key in ("version", "sha256")},
            "results": {},
            "blocks": {},
            "failed": [],
        }

    def run_words(self, settings: str, trace: str | None) -> list[str]:
        words = ["run", self.program["file"], "--settings", settings]
        if self.program["schedule"]:
            words += ["--schedule", self.program["schedule"]["file"]]
        if trace:
            words += ["--trace", trace, *(["--pcs"] if self.has_pcs else [])]
        return words

    def make_record(self, seed: int, known: Record | None, folder: str) -> Record:
        """The record of a run: the results that are known of it, and the others."""
        record = self.empty_record(seed)
        results = known["results"] if known else {}
        record["results"] = {
            call: results[call] for call in ["run", *self.calls] if call in results
        }
        record["blocks"] = known["blocks"] if known else {}
        missing = [call for call in self.calls if call not in record["results"]]
        if "run" in record["results"] and not missing:
            return record
        trace = self.trace_path(seed, folder) if self.calls else None
        try:
            if not (trace and os.path.exists(trace) and "run" in record["results"]):
                self.run(record, folder, trace)
            for call in missing:
                self.count_trace(record, call, trace)
            if trace and os.path.exists(trace):
                blocks = named_blocks(record["results"])
                if blocks:
                    record["blocks"] = number_blocks(trace, blocks)
        finally:
            if trace and self.campaign["traces"] == "lost" and os.path.exists(trace):
                os.remove(trace)
        return record

    def trace_path(self, seed: int, folder: str) -> str:
        """The path of a run's trace: by its inputs where traces are kept."""
        if self.campaign["traces"] == "lost":
            return os.path.join(folder, "trace")
        kept = os.path.join("traces", os.path.dirname(self.name))
        os.makedirs(kept, exist_ok=True)
        kind = "pcs" if self.has_pcs else "trace"
        return os.path.join(kept, f"{seed}.{short_sum(self.inputs)}.{kind}")

    def run(self, record: Record, folder: str, trace: str | None) -> None:
        settings = os.path.join(folder, "settings")
        with open(settings, "w", encoding="utf-8") as file:
            file.write(settings_text(record["settings"], record["seed"]))
        beside = f"{trace}.new-{os.uname().nodename}-{os.getpid()}" if trace else None
        try:
            status, text = self.caller.call(self.run_words(settings, beside))
        except CallFailed as failed:
            note_failed_call(record, "run", failed)
            return
        if beside and trace:
            os.replace(beside, trace)
        before = record["results"].get("run")
        if before and before["text"] != text:
            raise SystemExit(
                f"batch.py: {run_command(record)}: this run printed a different report before"
            )
        record["results"]["run"] = {"status": status, "text": text}

    def count_trace(self, record: Record, call: str, trace: str | None) -> None:
        if trace is None or "run" not in record["results"]:
            return
        try:
            status, text = self.caller.call([*call.split(), "--", trace])
        except CallFailed as failed:
            note_failed_call(record, call, failed)
            return
        record["results"][call] = {"status": status, "text": text}

    def best_records(self, own: Iterable[Record]) -> dict[int, Record]:
        """The record with the most results of each seed that a file has."""
        best: dict[int, Record] = {}
        for record in [*own, *result_files.read_older_records(self.name)]:
            seed, count = record["seed"], len(record["results"])
            is_better = seed not in best or count >= len(best[seed]["results"])
            if is_better and self.has_same_inputs(record):
                best[seed] = record
        return best

    def work(self) -> None:
        """Makes all runs of the batch. A job that a killed call left at the same batch is waited for."""
        path, journal_path = (
            result_files.finished_path(self.name),
            result_files.journal_path(self.name),
        )
        os.makedirs(os.path.dirname(path), exist_ok=True)
        with open(journal_path, "a+b") as journal, tempfile.TemporaryDirectory(
            prefix="predator-campaign-"
        ) as folder:
            self.caller = Caller(self.campaign["predator"]["file"], folder)
            fcntl.flock(journal, fcntl.LOCK_EX)
            if os.path.exists(path):
                return
            records = self.fill_journal(journal, folder)
            result_files.write_whole(path, result_files.pack_records(records))
            for old in (journal_path, result_files.failed_path(self.name)):
                if os.path.exists(old):
                    os.remove(old)

    def fill_journal(self, journal: IO[bytes], folder: str) -> list[Record]:
        """The records of all runs, each written into the journal once it is made."""
        journal.seek(0)
        own, end = result_files.parse_journal(journal.read())
        journal.truncate(end)
        known = self.best_records(own)
        journaled = {record["seed"] for record in own if not record["failed"]}
        records = []
        for seed in seeds_of_batch(self.batch):
            record = self.make_record(seed, known.get(seed), folder)
            records.append(record)
            if seed not in journaled:
                journal.write(result_files.record_text(record).encode())
                journal.flush()
        return records


def note_failed_call(record: Record, call: str, failed: CallFailed) -> None:
    # (`said` is a key of the files of results, which older versions wrote too)
    record["failed"].append(
        {
            "call": call,
            "command": run_command(record, call),
            "status": failed.status,
            "said": failed.message,
        }
    )


def main(words: list[str]) -> None:
    os.chdir(words[0])
    Batch(read_campaign("."), words[1]).work()


if __name__ == "__main__":
    main(sys.argv[1:])
