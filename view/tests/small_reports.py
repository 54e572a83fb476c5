"""Reports of a few lines as texts, and what view makes of them."""

import os
import sys

HERE = os.path.dirname(os.path.abspath(__file__))
sys.path[:0] = [os.path.join(HERE, "..", ".."), os.path.join(HERE, "..", "..", "tools")]

from view.reading.calls import Call  # noqa: E402
from view.model.view import View  # noqa: E402
from view.names.naming import Naming  # noqa: E402
from view.reading.reports import Misses, Report  # noqa: E402

HEAD = (
    "predator report 1\noutcome exit 0\nsteps 9\naccesses 900\nlayout 64 0\nthresholds 16 64 100\n"
)

ALIGNED = "`__attribute__((aligned(64)))`"


def report_of(rows):
    lines = sum(it.startswith("line ") for it in rows)
    return Report(HEAD + f"lines {lines}\n" + "".join(f"{it}\n" for it in rows) + "end\n")


def view_of(rows, misses=None, memory=None, each=None, by_word=None, program=None):
    """What is seen of a report of these rows."""
    report = report_of(rows)
    view = View(Call(["r"]), report, Naming(report, program, memory=memory))
    view.misses = Misses(misses) if misses else None
    view.every_line = report_of(each) if each else None
    view.word_misses = Misses(by_word) if by_word else None
    view.group_by_objects()
    return view


def word(addr, reads, writes, hart):
    return f"word 0x{addr:08x} reads {reads} writes {writes} {hart}"
