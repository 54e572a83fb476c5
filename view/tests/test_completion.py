"""Completion offers exactly the options that a call of view takes."""

import os
import subprocess
import sys
import unittest

from calling import HERE, TOP, built

sys.path.insert(0, os.path.dirname(os.path.dirname(HERE)))

from view.reading.calls import FLAGS, FORMER, LISTS, MARKS, RECORDS, VALUES, Call  # noqa: E402
from view.faults import Fault  # noqa: E402
from view.reading.settings import OPTIONS  # noqa: E402

# What each way to look takes besides an option.
WAYS = {"run": (), "replay": (), "native": (), "sweep": ("--size", "64"), "caches": ()}
# Values with which an option is no fault.
GOOD = {"--type": "a.c:7=node", "--by": "invalidations", "--sources": HERE}
# Options that need another one, or something that a call names.
BESIDE = {
    "--by": ("--fail-above", "1"),
    "--json-version": ("--json", "f"),
    "--live": ("--html", "f"),
    "--type": ("--map", "map"),
}


def takes(way, option, has_value):
    """Whether a call takes an option."""
    more = BESIDE.get(option, ())
    # (a program has its types)
    more = () if option == "--type" and way in ("run", "native") else more
    words = [
        way,
        built("ring.elf") if way == "run" else "subject",
        option,
        *([GOOD.get(option, "1")] if has_value else []),
        *more,
    ]
    try:
        Call([*words, *(() if option == "--size" else WAYS[way])])
    except Fault:
        return False
    return True


class Completion(unittest.TestCase):
    def offered(self, *words):
        script = '. "$0/bin/predator.bash"; COMP_WORDS=(predator "$@"); COMP_CWORD=$#; _predator; printf "%s\\n" "${COMPREPLY[@]}"'
        ran = subprocess.run(
            ["bash", "-c", script, TOP, *words], capture_output=True, text=True, check=True
        )
        return set(ran.stdout.split()) - {"--help"}

    def test_all_options(self):
        bare = {*(f"--{it}" for it in (*FLAGS, *MARKS))} - {"--help"}
        valued = {
            *(f"--{it}" for it in (*VALUES, *LISTS)),
            *RECORDS,
            *(it for own in OPTIONS.values() for it in own),
        } - {*bare, *(f"--{it}" for it in FORMER)}
        for way in WAYS:
            taken = {
                option
                for own, has_value in ((bare, False), (valued, True))
                for option in own
                if takes(way, option, has_value)
            }
            self.assertEqual(sorted(self.offered("view", way, "subject", "--")), sorted(taken), way)

    def test_by_what_a_file_is(self):
        self.assertEqual(
            self.offered("view", built("ring.elf"), "--"),
            self.offered("view", "run", "subject", "--"),
        )


if __name__ == "__main__":
    unittest.main()
