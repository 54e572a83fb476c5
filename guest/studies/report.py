"""What the scripts of the studies share: a run of the program, its report, the recount of its trace, and
tables in a document."""

import argparse
import os
import subprocess
import sys
import tempfile
import time

TOP = os.path.abspath(os.path.join(os.path.dirname(os.path.abspath(__file__)), "..", ".."))
BUILT = os.path.join(TOP, "guest", "built", "studies")
PROGRAM = os.environ.get("PREDATOR", os.path.join(TOP, "bin", "predator"))
PAGE = os.path.join(TOP, "docs", "STUDIES.md")
# Settings of a study other than the usual ones.
SETTINGS = {"bounded_queue": "quantum = 10\n"}

sys.path.insert(0, os.path.join(TOP, "tools"))
from recount import recount_lines  # noqa: E402
from traces import read_accesses  # noqa: E402


def study_parser(description):
    """A parser of a script's words: studies, and whether it renews the document."""
    parser = argparse.ArgumentParser(
        description=description, formatter_class=argparse.RawDescriptionHelpFormatter
    )
    parser.add_argument(
        "--renew", action="store_true", help="put the tables into the document: of all studies"
    )
    parser.add_argument("names", nargs="*", metavar="STUDY", help="the studies (all)")
    return parser


def parse_call(parser, studies):
    """The words of a call, whose `names` are the studies that it names, or all."""
    call = parser.parse_args()
    unknown = [it for it in call.names if it not in studies]
    if unknown:
        parser.error(f"{unknown[0]}: the studies are {', '.join(studies)}")
    if call.renew and call.names:
        parser.error("--renew is for all studies")
    call.names = call.names or list(studies)
    return call


def parse_studies(description, studies):
    """The studies that a call names, or all, and whether it renews the document, which is for all."""
    call = parse_call(study_parser(description), studies)
    return call.names, call.renew


def study_builds():
    """Of each study its builds in order: their names, and the words of their sources and flags."""
    found = {}
    with open(os.path.join(TOP, "guest", "studies", "builds.txt")) as file:
        for words in (it.split() for it in file):
            if words and words[0] != "#":
                found.setdefault(words[0].split("-")[0], {})[words[0]] = words[1:]
    return found


def address_text(addr):
    return f"{'-' if addr < 0 else ''}0x{abs(addr):08x}"


class Line:
    """A listed line of a report."""

    def __init__(self, text):
        words = text.split()
        self.text, self.kind, self.base = text, words[1], int(words[2], 16)
        self.size, self.start, self.count = (int(words[it]) for it in (3, 5, 7))


class Report:
    def __init__(self, text):
        self.text, self.lines = text, []
        for line in text.split("\n"):
            words = line.split()
            if words[:1] == ["line"]:
                self.lines.append(Line(line))
            elif words[:1] == ["outcome"]:
                self.outcome = line
            elif words[:1] == ["steps"]:
                self.steps = int(words[1])

    def lines_of_kind(self, *kinds):
        return [it for it in self.lines if it.kind in kinds]

    def sum_counts(self, *kinds):
        return sum(it.count for it in self.lines_of_kind(*kinds))


def counts_since(trace, lines):
    """The counts of lines since their starts, whatever opened them, by caches that are simulated over the
    whole list."""
    on = {}
    for at, line in enumerate(lines):
        for word in range(line.base // 4, (line.base + line.size) // 4):
            on.setdefault(word, []).append(at)
    held, counts = [set() for _ in lines], [0] * len(lines)
    for position, (hart, addr, is_write) in enumerate(read_accesses(trace)):
        for at in on.get(addr // 4, ()):
            counts[at] += is_write and position > lines[at].start and bool(held[at] - {hart})
            held[at] = {hart} if is_write else held[at] | {hart}
    return counts


def report_of_call(words, trace):
    """The report of a call that has a trace, written or read."""
    ran = subprocess.run([PROGRAM, *words], stdout=subprocess.PIPE, text=True, check=False)
    if "\nend\n" not in ran.stdout or not os.path.exists(trace):
        sys.exit(
            f"{' '.join(words)}: no report with a trace, and status {ran.returncode} (the built"
            f" program is wanted)\n{ran.stdout}"
        )
    return Report(ran.stdout)


class Run:
    """A run of a built program under settings: its report, that of its trace under words of 4 bytes, its
    output, and what is wrong: an end other than exit 0, and what the recount of the trace says otherwise.
    """

    def __init__(self, path, settings=""):
        if not os.path.exists(path):
            sys.exit(f"{path} isn't there: `guest/build.sh studies` builds it")
        with tempfile.TemporaryDirectory() as work:
            names = {it: os.path.join(work, it) for it in ("settings", "trace", "output")}
            with open(names["settings"], "w") as file:
                file.write(settings)
            began = time.monotonic()
            self.report = report_of_call(
                ["run", path, *(it for name in names for it in (f"--{name}", names[name]))],
                names["trace"],
            )
            self.seconds = time.monotonic() - began
            self.by_word = report_of_call(["replay", names["trace"], "--size", "4"], names["trace"])
            with open(names["trace"], "rb") as file:
                trace = file.read()
            with open(names["output"]) as file:
                self.output = file.read()
        self.wrong = [] if self.report.outcome == "outcome exit 0" else [self.report.outcome]
        self.wrong += recount_differences(trace, 64, self.report) + recount_differences(
            trace, 4, self.by_word
        )
        predicted = self.report.lines_of_kind("shifted", "doubled")
        for line, again in zip(predicted, counts_since(trace, predicted)):
            if again != line.count:
                self.wrong.append(f"{line.text}: recounted {again}")

    def excerpt_title(self):
        return "differs" if self.wrong else "equal"


def recount_differences(trace, size, report):
    """The observed lines that a report and its recount disagree on, from both."""
    counted = {base: (start, count) for base, start, count in recount_lines(trace, size)}
    observed = {it.base: (it.start, it.count) for it in report.lines_of_kind("observed")}
    return [
        f"line {address_text(key)} of {size}: reported {observed.get(key)}, recounted"
        f" {counted.get(key)}"
        for key in sorted(counted.keys() | observed.keys())
        if counted.get(key) != observed.get(key)
    ]


def markdown_table(heads, rows):
    """A table of a document; numbers stand to the right."""
    rows = [[str(it) for it in row] for row in rows]
    right = ["-:" if all(row[at].isdigit() for row in rows) else "-" for at in range(len(heads))]
    return "\n".join(f"| {' | '.join(row)} |" for row in [heads, right, *rows])


def commit_name():
    words = ["git", "-C", TOP, "describe", "--always", "--dirty", "--abbrev=12"]
    try:
        ran = subprocess.run(words, stdout=subprocess.PIPE, text=True, check=False)
    except FileNotFoundError:
        return "unknown"
    return ran.stdout.strip() or "unknown"


def renew_document(parts):
    """Puts texts into the document, each between its mark `<!-- NAME -->` and the next `<!-- end -->`."""
    with open(PAGE) as file:
        page = file.read()
    for name, text in parts.items():
        mark = f"<!-- {name} -->\n"
        if mark not in page:
            sys.exit(f"{PAGE}: there is no {mark}")
        before, rest = page.split(mark, 1)
        page = f"{before}{mark}\n{text}\n\n<!-- end -->{rest.split('<!-- end -->', 1)[1]}"
    with open(PAGE, "w") as file:
        file.write(page)
