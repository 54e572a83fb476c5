"""Tests of plans: their meaning, and the message and line of each fault."""

import contextlib
import json
import os
import sys
import unittest

from campaign_case import HERE, CampaignCase

sys.path.insert(0, os.path.join(HERE, "..", ".."))

from campaign.plan import expand_plan  # noqa: E402
from view.faults import Fault  # noqa: E402

GOOD = "programs:\n  one: one\nseeds: 1-3\n"
PLAN_KEYS = "programs, settings, seeds, batch, misses, replays, blame, sweeps, caches, traces"
SETTINGS = "harts, memory, stack, tracking, prediction, report, quantum, budget, line"
SEEDS = "give a number, a range such as 1-100, or a list of these; 0 is the usual schedule"
# Plans with a fault, each with the line and the message.
FAULTS = {
    "programs:\n  one: one\n": "1: a plan lacks the key 'seeds'",
    f"{GOOD}sedes: 1\n": f"4: 'sedes' is no key of a plan; known keys: {PLAN_KEYS}",
    f"{GOOD}settings:\n  quantum: 3\n  colour: 1\n": "6: 'colour' is no key of 'settings'; "
    f"known keys: {SETTINGS}",
    f"{GOOD}settings: {{seed: 4}}\n": "4: 'seed' is no key of 'settings'; give seeds in the plan's `seeds`",
    f"{GOOD}settings:\n  quantum: many\n": "5: 'settings.quantum' can't be \"many\": "
    "give a number from 0 on, or a list of these",
    f"{GOOD}batch: 0\n": "4: 'batch' can't be 0: give the number of runs in a job, from 1 to 10000 (default: 100)",
    f"{GOOD}misses:\n- 64\n- 65\n": "6: 'misses.1' must be one of 4, 8, 16, 32, 64, 128, 256, 512, 1024, not 65",
    f"{GOOD}misses:\n- {{size: 64, shift: 64}}\n": "5: a shift must be smaller than the line: 64 isn't below 64",
    f"{GOOD}caches:\n- {{size: 64, sets: 1}}\n": "5: 'caches.0' lacks the key 'ways'",
    f"{GOOD}caches:\n- {{size: 64, sets: 3, ways: 1}}\n": "5: sets must be a power of two, "
    "and sets times ways at most 4096",
    f"{GOOD}blame:\n- {{size: 64, shift: 2}}\n": "5: 'blame.0.shift' can't be 2: give a multiple of 4, or all",
    f"{GOOD}traces: never\n": "4: 'traces' must be one of lost, kept, not \"never\"",
    "programs:\n  one: one\nseeds:\n- 1\n- 7-3\n": "5: '7-3' is no range of seeds: "
    "write FIRST-LAST, at most 4294967295",
    "programs:\n  one: one\nseeds:\n- 1\n- x\n": "5: 'seeds.1' can't be \"x\": give a number or FIRST-LAST",
    "programs:\n  one: gone\nseeds: 1\n": "2: gone: No such file or directory",
    "programs:\n  one:\n    file: one\n    shedule: s\nseeds: 1\n": "4: 'shedule' is no key of 'programs.one'; "
    "known keys: file, schedule, settings",
    "programs:\n  one: one\n  o/e: one\nseeds: 1\n": "3: 'o/e' is no name for a program: "
    "use letters, digits, '.', '_' and '-'",
    "programs:\n  one: one\n  one: two\nseeds: 1\n": "3: 'one' is given twice",
    "programs: [\nseeds: 1\n": "3: invalid YAML: expected ',' or ']', but got '<stream end>'",
    "- 1\n": "1: a plan can't be [1]: [1] is not of type 'object'",
    "": "1: a plan lacks the key 'programs'",
}


class Plans(CampaignCase):
    def expand(self, *check):
        """The campaign of the plan, or its fault."""
        with contextlib.chdir(self.work):
            return expand_plan("plan.yaml", {"sha256": ""}, *check)

    def test_each_fault_has_a_message_and_a_line(self):
        for text, message in FAULTS.items():
            self.write_plan(text)
            with self.assertRaises(Fault) as found:
                self.expand()
            self.assertEqual(str(found.exception), f"plan.yaml:{message}", text)
        status, out, errors = self.call_campaign("--check")
        self.assertEqual((status, out, errors), (2, "", f"predator campaign: {found.exception}\n"))

    def test_what_predator_refuses_has_a_line(self):
        programs = "programs:\n  one: {file: one}\n  two: two\n"
        self.write_plan(f"{programs}settings:\n  harts: 8\n  quantum: 0\nseeds: 1\n")
        messages = {"quantum": "settings OutOfRange quantum", "two": "elf TooShort"}
        for path, wrong, line in (("one", "quantum", 6), ("two", "two", 3)):
            with self.assertRaises(Fault) as found:
                self.expand(lambda file, settings: messages[wrong] if file.endswith(path) else None)
            message = f"predator refuses {path} under these settings: {messages[wrong]}"
            self.assertEqual(str(found.exception), f"plan.yaml:{line}: {message}")

    def test_check_counts_runs_and_jobs(self):
        counts = "misses: [{size: 16, shift: all}, 64]\nsweeps: [64]\nblame: [64]\nbatch: 2\n"
        self.write_plan(f"{GOOD}settings:\n  quantum: [1, 10]\n  report: 5\n{counts}")
        status, out, _ = self.call_campaign("--check")
        self.assertEqual((status, out), (0, "1 programs, 6 runs, 42 counts of traces, 4 jobs\n"))

    def test_settings_and_seeds(self):
        """Seeds are each taken once and in order; a program's own settings precede the others; the line of
        the settings has its misses counted."""
        self.write("list", "0 10\n")
        programs = "programs:\n  one: {file: one, schedule: list, settings: {quantum: 3}}\n"
        self.write_plan(f"{programs}settings: {{line: [32, 128]}}\nseeds: [5, 2-4, 3]\n")
        self.assertEqual(self.call_campaign("--", "-n")[0], 0)
        campaign = json.loads(self.read("plan.campaign", "campaign.json"))
        self.assertEqual(
            [it["settings"] for it in campaign["groups"]],
            [{"quantum": 3, "line": 32}, {"quantum": 3, "line": 128}],
        )
        self.assertEqual(
            [it["calls"] for it in campaign["groups"]],
            [[["misses", "--size", size, "--shift", "0"]] for size in ("32", "128")],
        )
        self.assertEqual([it["seeds"] for it in campaign["batches"]], [[[5, 5], [2, 4]]] * 2)
        self.assertEqual(campaign["programs"]["one"]["schedule"]["file"], self.path("list"))
        name = campaign["batches"][0]["name"]
        self.assertEqual(name.partition(".")[0], "one/quantum-3_line-32/2-5")

    def test_words(self):
        self.write_plan(GOOD)
        usage = self.call_campaign("--help")[1].partition("\n\n")[0]
        for words, message in {
            ("--cores", "none"): "'--cores' must be a number from 1 on, not 'none'",
            ("--cores=",): "'--cores' must be a number from 1 on, not ''",
            ("--cores",): f"argument --cores: expected one argument\n{usage}",
            ("--to", "a", "--to=b"): "the option '--to' is given twice",
            (
                "--profil=x",
            ): f"unknown option '--profil=x'; put options of Snakemake after `--`\n{usage}",
            ("again",): f"unexpected argument 'again'\n{usage}",
        }.items():
            status, out, errors = self.call_campaign(*words)
            self.assertEqual(
                (status, out, errors), (2, "", f"predator campaign: {message}\n"), words
            )
        status, out, _ = self.call_campaign("--help")
        self.assertEqual((status, out.startswith("usage: predator campaign PLAN [")), (0, True))


if __name__ == "__main__":
    unittest.main()
