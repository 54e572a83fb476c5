"""Campaigns from the command line: `predator campaign PLAN ..`. docs/CAMPAIGNS.md describes them."""

import argparse
import fcntl
import json
import os
import shlex
import shutil
import subprocess
import sys
import tempfile
import threading
from typing import TYPE_CHECKING, Any, NoReturn, Sequence

HERE = os.path.dirname(os.path.abspath(__file__))
sys.path.insert(0, os.path.dirname(HERE))

from campaign import result_files  # noqa: E402
from campaign.campaign_file import (  # noqa: E402
    CAMPAIGN,
    Record,
    campaign_text,
    read_campaign,
    seeds_of_batch,
)
from campaign.rerun_commands import settings_text  # noqa: E402
from view.faults import Fault, plain  # noqa: E402
from view.reading.program import call_program  # noqa: E402

if TYPE_CHECKING:
    # (which needs packages that may be missing)
    from campaign.plan import Check


USAGE = """\
usage: predator campaign PLAN [--to DIR] [--profile P] [--cores N] [--html F] [--check]
                              [-- OPTIONS-OF-SNAKEMAKE]"""
HELP = f"""{USAGE}

Runs the programs of a plan under each of its settings and seeds, counts the traces, and writes
tables. A row is a line, named by its object: in how many seeds it is contended, the least, median
and greatest number of its invalidations and false-sharing misses, and the worst seed. Snakemake
distributes the work over this machine's processors or a cluster. A call that was killed continues
where it stopped. docs/CAMPAIGNS.md has more.

Options:
  --to DIR      write the results to DIR (default: PLAN without its extension, plus `.campaign`)
  --profile P   start jobs by the profile P: slurm, ssh, or a profile of Snakemake's own
  --cores N     run at most N jobs at once on this machine (default: all processors)
  --html F      also write a page to F that draws the numbers of each object over the seeds
  --check       check the plan, print how many runs and jobs it makes, and stop
  --help, -h    print this page

Status: 0 everything was made; 1 something failed: standard error has its command, and the tables
have the rest; 2 refused: standard error has the reason, with the plan's line; 127 a package or the
program is missing."""
PACKAGES = "apt-get install snakemake"
PROFILES = os.path.join(HERE, "profiles")
MAX_LISTED_FAILURES = 20
PROGRESS_SECONDS = 5
# Options of Snakemake with which it makes nothing.
DRY_OPTIONS = (
    *("-n", "--dry-run", "--dryrun", "--version", "--help", "--list", "--summary", "--dag"),
)


class CallParser(argparse.ArgumentParser):
    """The grammar of a call, whose faults are messages of campaign."""

    def __init__(self) -> None:
        super().__init__(add_help=False, allow_abbrev=False)
        self.add_argument("plans", nargs="*")
        self.add_argument("--help", "-h", action="store_true")
        self.add_argument("--check", action="store_true")
        for name in ("--to", "--profile", "--cores", "--html"):
            self.add_argument(name, action=StoreOnce)

    def error(self, message: str) -> NoReturn:
        raise Fault(f"{message}\n{USAGE}")


class StoreOnce(argparse.Action):
    """An option that may be given once."""

    def __call__(
        self, parser: Any, namespace: argparse.Namespace, values: Any, option: Any = None
    ) -> None:
        if getattr(namespace, self.dest) is not None:
            raise Fault(f"the option '{option}' is given twice")
        setattr(namespace, self.dest, values)


class Call:
    """A call's plan, folder and options, and the words for Snakemake."""

    def __init__(self, words: Sequence[str]) -> None:
        own = list(words)
        at = own.index("--") if "--" in own else len(own)
        self.snakemake_words = own[at + 1 :]
        options, unknown = CallParser().parse_known_args(own[:at])
        if unknown:
            raise Fault(
                f"unknown option '{unknown[0]}'; put options of Snakemake after `--`\n{USAGE}"
            )
        self.wants_help, self.wants_check = options.help, options.check
        self.profile, self.html = options.profile, options.html
        if self.wants_help:
            return
        if not options.plans:
            raise Fault(f"a plan is required\n{USAGE}")
        if len(options.plans) > 1:
            raise Fault(f"unexpected argument '{options.plans[1]}'\n{USAGE}")
        self.plan: str = options.plans[0]
        self.folder: str = options.to or os.path.splitext(self.plan)[0] + ".campaign"
        self.cores: str = "all" if options.cores is None else options.cores
        if self.cores != "all" and not (self.cores.isdigit() and int(self.cores)):
            raise Fault(f"'--cores' must be a number from 1 on, not '{self.cores}'")

    def command(self) -> list[str]:
        """The command of Snakemake. A result that is there is complete, and this call holds the lock of the
        folder itself."""
        words = ["snakemake", "--snakefile", os.path.join(HERE, "Snakefile")]
        words += ["--nolock", "--ignore-incomplete", "--rerun-triggers", "mtime"]
        words += ["--keep-going", "--scheduler", "greedy", "--directory", self.folder]
        if self.profile:
            own = os.path.join(PROFILES, self.profile)
            words += ["--profile", own if os.path.isdir(own) else self.profile]
        else:
            words += ["--cores", self.cores, "--quiet", "all"]
        return words + self.snakemake_words

    def is_dry(self) -> bool:
        """Whether Snakemake only prints what it would do."""
        return any(word in DRY_OPTIONS for word in self.snakemake_words)


def describe_predator() -> Record:
    """The program that is called: its file, its sum, and the version that the launcher prints."""
    from campaign.plan import file_sum

    launcher, program = os.environ["PREDATOR"], os.environ["PREDATOR_CAMPAIGN"]
    if not os.access(program, os.X_OK):
        raise Fault(f"there is no program {program}", 127)
    version = call_program([launcher], ["--version"], stderr=subprocess.PIPE).text.strip()
    # (the launcher's version is that of its own program)
    if os.environ.get("PREDATOR_PROGRAM"):
        version = "unknown, named by PREDATOR_PROGRAM"
    return {
        "file": os.path.abspath(program),
        "sha256": file_sum(program),
        "version": version or "unknown",
    }


def checker_of(predator: str) -> "Check":
    """A function that says why predator refuses a program under settings, if it does."""

    def check(path: str, settings: Record) -> str | None:
        with tempfile.NamedTemporaryFile("w", suffix=".toml") as file:
            file.write(settings_text(settings, 0))
            file.flush()
            words = ["check", path, "--settings", file.name]
            answer = call_program([predator], words, stderr=subprocess.PIPE)
        return (answer.refusal() or answer.reason()) if answer.status else None

    return check


def lock_folder(folder: str) -> int:
    """The lock of a folder, which this call and its Snakemake hold until both have ended, however they
    end."""
    try:
        os.makedirs(folder, exist_ok=True)
        lock = os.open(os.path.join(folder, "lock"), os.O_RDWR | os.O_CREAT, 0o666)
    except OSError as error:
        raise Fault(f"{folder}: {error.strerror}") from error
    try:
        fcntl.flock(lock, fcntl.LOCK_EX | fcntl.LOCK_NB)
    except OSError as error:
        raise Fault(f"{folder}: another call is using this folder") from error
    return lock


def prepare_folder(folder: str, campaign: Record) -> None:
    """Writes campaign.json unless it is there already, removes tables of an older format, and renames batches
    in which a call had failed, so that all of these are made again."""
    path, text = os.path.join(folder, CAMPAIGN), campaign_text(campaign)
    try:
        with open(path, encoding="utf-8") as file:
            is_new = file.read() != text
    except OSError:
        is_new = True
    if is_new:
        result_files.write_whole(path, text.encode())
    tables = os.path.join(folder, "table.json")
    if os.path.exists(tables) and not has_current_tables(folder):
        os.remove(tables)
    for batch in read_json(os.path.join(folder, "failed.json"), []):
        before = os.path.join(folder, result_files.finished_path(batch))
        if os.path.exists(before):
            os.replace(before, os.path.join(folder, result_files.failed_path(batch)))


def read_json(path: str, default: Any) -> Any:
    """The value of a file of JSON, or the default where there is none."""
    try:
        with open(path, encoding="utf-8") as file:
            return json.load(file)
    except (OSError, ValueError):
        return default


def has_current_tables(folder: str) -> bool:
    from campaign.tables import FORMAT

    table = read_json(os.path.join(folder, "table.json"), {})
    return bool(table.get("format") == FORMAT)


def note_failed_batches(folder: str, campaign: Record, table: Record) -> None:
    """Notes the batches with calls that failed: the next call tries those again."""
    failed = {
        (call["program"], json.dumps(call["settings"]), call["seed"]) for call in table["failed"]
    }
    names = []
    for batch in campaign["batches"] if failed else []:
        group = campaign["groups"][batch["group"]]
        own = group["program"], json.dumps(group["settings"])
        if any((*own, seed) in failed for seed in seeds_of_batch(batch)):
            names.append(batch["name"])
    result_files.write_whole(os.path.join(folder, "failed.json"), json.dumps(names).encode())


def report_failures(folder: str, table: Record) -> None:
    for call in table["failed"][:MAX_LISTED_FAILURES]:
        warn(f"failed three times with status {call['status']}: {call['command']}")
        warn(f"  {call['message']}" if call["message"] else "  it printed no message")
    more = len(table["failed"]) - MAX_LISTED_FAILURES
    if more > 0:
        warn(f"{more} more failed calls are in {folder}/table.json")
    script = shlex.quote(os.path.join(HERE, "batch.py"))
    for name in table["missing"][:MAX_LISTED_FAILURES]:
        command = f"/usr/bin/python3 {script} {shlex.quote(folder)} {shlex.quote(name)}"
        warn(f"a job has no result: {command}")
        warn(f"  its output is in {folder}/logs/{name}.log")


def warn(text: object) -> None:
    print(f"predator campaign: {plain(text)}", file=sys.stderr)


class Progress:
    """The number of finished jobs, printed every few seconds on a terminal."""

    def __init__(self, folder: str, campaign: Record) -> None:
        self.files = [
            os.path.join(folder, result_files.finished_path(batch["name"]))
            for batch in campaign["batches"]
        ]
        self.ended = threading.Event()

    def __enter__(self) -> None:
        if sys.stderr.isatty():
            threading.Thread(target=self.print_progress, daemon=True).start()

    def __exit__(self, *_: object) -> None:
        self.ended.set()

    def print_progress(self) -> None:
        left = self.files
        while not self.ended.wait(PROGRESS_SECONDS):
            left = [path for path in left if not os.path.exists(path)]
            warn(f"{len(self.files) - len(left)} of {len(self.files)} jobs are done")


def load_tables(folder: str) -> Record:
    """The tables: those that the workflow wrote, or else those of the results that there are."""
    path, plan = os.path.join(folder, "table.json"), os.path.join(folder, CAMPAIGN)
    if not os.path.exists(path) or os.path.getmtime(path) < os.path.getmtime(plan):
        from campaign import tables

        before = os.getcwd()
        os.chdir(folder)
        try:
            tables.write_tables(read_campaign("."))
        finally:
            os.chdir(before)
    with open(path, encoding="utf-8") as file:
        table: Record = json.load(file)
        return table


def run_workflow(call: Call, campaign: Record) -> int:
    """Has the workflow make what is missing, and reports how it went."""
    lock = lock_folder(call.folder)
    prepare_folder(call.folder, campaign)
    with Progress(call.folder, campaign):
        status = subprocess.run(call.command(), pass_fds=(lock,)).returncode
    has_results = os.path.isdir(os.path.join(call.folder, "results"))
    if status and not has_results or call.is_dry():
        return 2 if status else 0
    path = os.path.join(call.folder, "table.json")
    if status and os.path.exists(path):
        os.remove(path)
    table = load_tables(call.folder)
    note_failed_batches(call.folder, campaign, table)
    report_failures(call.folder, table)
    if call.html is not None:
        write_page(call.folder, campaign, call.html)
    failed, missing = len(table["failed"]), len(table["missing"])
    counts = f"{table['runs']} runs, {failed} failed calls, {missing} missing jobs"
    print(f"{counts}: {call.folder}/table.tsv")
    return 1 if failed or missing else 2 if status else 0


def write_page(folder: str, campaign: Record, path: str) -> None:
    """Writes the page of all results that there are."""
    from campaign import campaign_page, tables

    before = os.getcwd()
    os.chdir(folder)
    try:
        text = campaign_page.campaign_page(campaign, *tables.read_results(campaign))
    finally:
        os.chdir(before)
    try:
        with open(path, "w", encoding="utf-8", errors="backslashreplace") as file:
            file.write(text)
    except OSError as error:
        raise Fault(f"{path}: {error.strerror}") from error


def check_page_path(call: Call) -> None:
    """Refuses a page that can't be written, before anything runs."""
    path = call.html
    if path is None:
        return
    from view.output.drawings import templates

    templates()
    if os.path.exists(path) and os.path.samefile(path, call.plan):
        raise Fault(f"{path}: the page would overwrite the plan")
    if os.path.isdir(path):
        raise Fault(f"{path}: Is a directory")
    if not os.path.isdir(os.path.dirname(path) or "."):
        raise Fault(f"{path}: No such file or directory")


def print_counts(campaign: Record) -> int:
    """Prints how many programs, runs, counts and jobs a plan makes."""
    runs = counts = 0
    for batch in campaign["batches"]:
        seeds = len(seeds_of_batch(batch))
        runs += seeds
        counts += seeds * len(campaign["groups"][batch["group"]]["calls"])
    jobs = len(campaign["batches"])
    print(
        f"{len(campaign['programs'])} programs, {runs} runs, {counts} counts of traces, {jobs} jobs"
    )
    return 0


def missing_package() -> str | None:
    """The name of a Debian package that is missing, if one is."""
    try:
        import jsonschema  # noqa: F401
        import yaml  # noqa: F401
    except ImportError as error:
        return f"python3-{error.name}"
    return None if shutil.which("snakemake") else "snakemake"


def run_call(words: Sequence[str]) -> int:
    call = Call(words)
    if call.wants_help:
        print(HELP)
        return 0
    if missing_package():
        raise Fault(f"{missing_package()} is missing: {PACKAGES}", 127)
    from campaign.plan import expand_plan

    check_page_path(call)
    predator = describe_predator()
    campaign = expand_plan(call.plan, predator, checker_of(predator["file"]))
    return print_counts(campaign) if call.wants_check else run_workflow(call, campaign)


def main(words: Sequence[str]) -> int:
    try:
        return run_call(words)
    except Fault as fault:
        for line in f"predator campaign: {fault}".split("\n"):
            print(plain(line), file=sys.stderr)
        return fault.status
    except OSError as error:
        warn(f"{error.filename or 'a file'}: {error.strerror}")
    except KeyboardInterrupt:
        return 130
    return 2


if __name__ == "__main__":
    sys.exit(main(sys.argv[1:]))
