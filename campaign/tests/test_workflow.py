"""Tests of what is made again after a kill, a failure and a change: on this machine, over Slurm and over
ssh."""

import glob
import gzip
import json
import os
import shutil
import signal
import subprocess
import sys
import time
import unittest

from campaign_case import COMMAND, HERE, TOP, CampaignCase, environment

sys.path.insert(0, TOP)

from campaign.tables import FORMAT, LINE_HEADS, OBJECT_HEADS, PAIR_HEADS, RUN_HEADS  # noqa: E402

PLAN = "programs: {one: one}\nseeds: 1-12\nbatch: 3\nmisses: []\n"


def is_running(number):
    """Whether a process is there and no zombie."""
    try:
        with open(f"/proc/{number}/stat", encoding="ascii") as file:
            return file.read().rpartition(") ")[2][0] != "Z"
    except OSError:
        return False


class Workflow(CampaignCase):
    def take_runs(self):
        return [call for call in self.take_calls() if call.startswith("run")]

    def read_tables(self):
        names = ("table.tsv", "objects.tsv", "runs.tsv", "table.json")
        return [self.read("plan.campaign", name) for name in names]

    def start_and_kill(self, after):
        """Kills a call, with all that it started, once so many runs have begun."""
        env = environment(STAND_IN_LOG=self.log, STAND_IN_SLEEP="0.3")
        words = [*COMMAND, "plan.yaml", "--cores", "2"]
        call = subprocess.Popen(
            words,
            env=env,
            cwd=self.work,
            stdout=subprocess.DEVNULL,
            stderr=subprocess.DEVNULL,
            start_new_session=True,
        )
        while call.poll() is None and not (
            os.path.exists(self.log) and self.read("log").count("run") >= after
        ):
            time.sleep(0.05)
        os.killpg(call.pid, signal.SIGKILL)
        call.wait()

    def test_a_killed_call_continues(self):
        self.write_plan(PLAN)
        self.start_and_kill(7)
        begun = self.take_runs()
        self.assertEqual(self.call_campaign("--cores", "2")[::2], (0, ""))
        again = [it for it in self.take_runs() if it in begun]
        self.assertLessEqual(len(again), 2, "only what two processors were at")
        self.assertEqual(json.loads(self.read("plan.campaign", "table.json"))["runs"], 12)
        tables = self.read_tables()
        shutil.rmtree(self.path("plan.campaign"))
        self.assertEqual(self.call_campaign()[0], 0)
        self.assertEqual(self.read_tables(), tables, "the same bytes without a kill")

    def test_a_failed_call_is_reported_and_tried_again(self):
        self.write_plan(PLAN)
        status, out, errors = self.call_campaign(STAND_IN_FAILS="5")
        self.assertEqual(
            (status, out), (1, "11 runs, 1 failed calls, 0 missing jobs: plan.campaign/table.tsv\n")
        )
        self.assertIn(
            "predator campaign: failed three times with status 9: "
            f"predator run {self.path('one')} --settings <(printf 'seed = 5\\n')\n"
            "predator campaign:   predator: no memory\n",
            errors,
        )
        self.assertEqual(self.take_runs().count("run 5"), 3)
        self.assertEqual(self.call_campaign()[0], 0)
        self.assertEqual(self.take_runs(), ["run 5"])
        # A job that dies takes none of the others with it.
        self.write_plan(PLAN.replace("1-12", "[1-12, 20-22]"))
        status, out, errors = self.call_campaign(STAND_IN_KILLS="21")
        self.assertEqual(
            (status, out), (1, "12 runs, 0 failed calls, 1 missing jobs: plan.campaign/table.tsv\n")
        )
        self.assertIn("batch.py plan.campaign one/usual/20-22.", errors)
        self.assertEqual(
            self.take_runs(), ["run 20", "run 21", "run 21", "run 21"], "what came before is kept"
        )

    def test_a_page(self):
        self.write_plan(PLAN)
        for name, said in (
            ("plan.yaml", "the page would overwrite the plan"),
            ("none/p.html", "No such file or directory"),
            (self.work, "Is a directory"),
        ):
            status, _, errors = self.call_campaign("--html", name)
            self.assertEqual((status, errors), (2, f"predator campaign: {name}: {said}\n"))
            self.assertFalse(os.path.exists(self.path("plan.campaign")))
        self.assertEqual(self.call_campaign("--html", "p.html")[::2], (0, ""))
        text = self.read("p.html")
        title = "counters of one, usual is contended in 12 of 12 seeds; worst is seed 12, with 112 invalidations; "
        title += "1 more object contended"
        self.assertIn(f"<h1>{title}</h1>", text)
        self.assertEqual(text.count("<svg"), 2)
        self.assertIn(f"predator view run {self.path('one')} --set seed=12", text)
        # (a page that can't be written is reported, and the tables are there)
        status, _, errors = self.call_campaign("--html", "/dev/full")
        self.assertEqual(
            (status, "predator campaign: /dev/full: No space left on device\n" in errors),
            (2, True),
            errors,
        )
        self.assertTrue(os.path.exists(self.path("plan.campaign", "table.tsv")))

    def test_a_change_repeats_what_depends_on_it(self):
        self.write_plan("programs: {one: one, two: two}\nseeds: 1-4\nbatch: 2\n")
        self.assertEqual(self.call_campaign()[0], 0)
        self.assertEqual(len(self.take_calls()), 16)
        os.utime(self.path("one"))
        self.assertEqual(
            (self.call_campaign()[0], self.take_calls()),
            (0, []),
            "the same bytes are the same program",
        )
        self.write("one", "changed")
        self.write_plan("programs: {one: one, two: two}\nseeds: 1-5\nbatch: 2\n")
        self.assertEqual(self.call_campaign()[0], 0)
        self.assertEqual(
            self.take_calls(),
            sorted(f"{call} {seed}" for call in ("run", "misses") for seed in (1, 2, 3, 4, 5, 5)),
        )
        self.write_plan(
            "programs: {two: two}\nseeds: 1-5\nbatch: 5\nmisses: [64, 128]\nreplays: [32]\nsweeps: [64]\n"
            "caches: [{size: 64, sets: 1, ways: 1}]\ntraces: kept\n"
        )
        self.assertEqual(self.call_campaign()[0], 0)
        wanted = [
            f"{call} {seed}"
            for call in ("run", "misses", "replay", "sweep", "caches")
            for seed in range(1, 6)
        ]
        self.assertEqual(
            self.take_calls(),
            sorted(wanted),
            "a run again for its trace, and of the counts those that weren't there",
        )
        self.write_plan(
            "programs: {two: two}\nseeds: 1-5\nbatch: 5\nmisses: [64, 128, 256]\ntraces: kept\n"
        )
        self.assertEqual(self.call_campaign()[0], 0)
        self.assertEqual(
            self.take_calls(),
            [f"misses {seed}" for seed in range(1, 6)],
            "kept traces serve what is asked later",
        )

    def test_a_trace_has_pcs_where_blame_needs_them(self):
        self.write_plan(PLAN.replace("1-12", "1-3") + "traces: kept\nreplays: [64]\n")
        self.assertEqual(self.call_campaign()[0], 0)
        self.assertEqual(len(self.take_calls()), 6)
        self.write_plan(PLAN.replace("1-12", "1-3") + "traces: kept\nreplays: [64]\nblame: [64]\n")
        self.assertEqual(self.call_campaign()[::2], (0, ""))
        wanted = [f"{call} {seed}" for call in ("run", "blame") for seed in (1, 2, 3)]
        self.assertEqual(
            self.take_calls(), sorted(wanted), "a trace without pcs is kept, and doesn't serve"
        )
        heads, *rows = self.read("plan.campaign", "pairs.tsv").splitlines()
        self.assertEqual(heads.split("\t"), list(PAIR_HEADS))
        rows = [row.split("\t")[4:] for row in rows]
        self.assertEqual(rows[0], "counters 0 0x00010044 0x00010044 3 3 41 42 43 0 0 0 3".split())
        self.assertEqual(rows[1], "counters 0 0x0001003c 0x00010044 3 2 1 1 3 1 1 3 3".split())
        self.assertEqual(rows[2], "0x00012000 0 0x00010004 0x00010008 3 3 1 1 1 1 1 1 1".split())
        (group,) = json.loads(self.read("plan.campaign", "table.json"))["groups"]
        self.assertEqual(
            group["blame"][0]["pairs"][0]["invalidations"], {"min": 41, "median": 42, "max": 43}
        )

    def test_each_result_has_its_inputs(self):
        self.write_plan(
            "programs: {one: one}\nseeds: 3\nsettings: {quantum: 10}\nsweeps: [64]\n"
            "caches: [{size: 64, sets: 1, ways: 1}]\n"
        )
        self.assertEqual(self.call_campaign()[0], 0)
        (path,) = glob.glob(self.path("plan.campaign", "results", "one", "*", "*.jsonl.gz"))
        with gzip.open(path, "rt") as file:
            (found,) = (json.loads(it) for it in file)
        campaign = json.loads(self.read("plan.campaign", "campaign.json"))
        self.assertEqual(
            (found["seed"], found["settings"], found["program"]["sha256"]),
            (3, {"quantum": 10}, campaign["programs"]["one"]["sha256"]),
        )
        self.assertEqual(
            found["predator"], {it: campaign["predator"][it] for it in ("sha256", "version")}
        )
        self.assertEqual(found["blocks"], {"0x00020100 2": 2}, "the second block of its call site")
        (group,) = json.loads(self.read("plan.campaign", "table.json"))["groups"]
        self.assertEqual(
            group["sweeps"][0]["shifts"][0],
            {"shift": 0, "min": 3, "median": 3, "max": 3, "best": 1},
        )
        self.assertEqual(group["caches"][0]["unbounded"], {"min": 4, "median": 4, "max": 4})
        again = group["layouts"][0]["lines"][0]["worst_command"]
        self.assertEqual(
            again,
            f"predator run {self.path('one')} --settings <(printf 'quantum = 10\\nseed = 3\\n')",
        )

    def test_tables_of_the_older_format_are_made_again(self):
        """Without a run, and even where they are newer than all that they are made of."""
        self.write_plan(PLAN)
        self.assertEqual(self.call_campaign()[0], 0)
        tables = self.read_tables()
        old = {
            "table.tsv": "program\tcount least\n",
            "objects.tsv": "program\tuseless least\n",
            "runs.tsv": "program\tuseless\n",
            "pairs.tsv": "program\ttaken least\n",
            "table.json": json.dumps({"format": "predator campaign table 1", "runs": 12}),
        }
        later = time.time() + 1000
        for name, text in old.items():
            self.write(f"plan.campaign/{name}", text)
            os.utime(self.path("plan.campaign", name), (later, later))
        self.take_calls()
        status, out, errors = self.call_campaign()
        self.assertEqual(
            (status, out, errors),
            (0, "12 runs, 0 failed calls, 0 missing jobs: plan.campaign/table.tsv\n", ""),
        )
        self.assertEqual((self.read_tables(), self.take_calls()), (tables, []))
        self.assertEqual(json.loads(tables[3])["format"], FORMAT)
        for name, heads in (
            ("table.tsv", LINE_HEADS),
            ("objects.tsv", OBJECT_HEADS),
            ("pairs.tsv", PAIR_HEADS),
            ("runs.tsv", RUN_HEADS),
        ):
            first = self.read("plan.campaign", name).partition("\n")[0]
            self.assertEqual(first.split("\t"), list(heads))

    def test_two_calls_at_once(self):
        self.write_plan(PLAN)
        words = [*COMMAND, "plan.yaml"]
        first = subprocess.Popen(
            words,
            env=environment(STAND_IN_SLEEP="0.2"),
            cwd=self.work,
            stdout=subprocess.DEVNULL,
            stderr=subprocess.DEVNULL,
        )
        while not os.path.exists(self.path("plan.campaign", "campaign.json")):
            time.sleep(0.05)
        status, _, errors = self.call_campaign()
        self.assertEqual(
            (status, errors),
            (2, "predator campaign: plan.campaign: another call is using this folder\n"),
        )
        self.assertEqual(first.wait(), 0)

    def test_plain_machines(self):
        """Over a stand-in for ssh: one machine that can't be reached, and one with two places."""
        self.write(
            "ssh",
            'while [[ $1 == -o* ]]; do shift; done; [ "$1" = gone ] && exit 255\n'
            'echo "$1" >>"$MACHINES"; exec bash -c "$2"\n',
        )
        self.write_plan(PLAN)
        os.mkdir(self.path("plan.campaign"))
        self.write("plan.campaign/machines", "gone 3\nnear 2   # two jobs at once\n")
        status, out, errors = self.call_campaign(
            "--profile", "ssh", PREDATOR_SSH=f"bash {self.path('ssh')}", MACHINES=self.path("used")
        )
        self.assertEqual(
            (status, out),
            (0, "12 runs, 0 failed calls, 0 missing jobs: plan.campaign/table.tsv\n"),
            errors,
        )
        self.assertEqual(self.read("used"), "near\n" * 4)

    def test_slurm(self):
        """Over a Slurm of this machine, with a job that fails in the middle."""
        path = os.environ["PATH"] + ":/usr/sbin"
        commands = ("slurmctld", "slurmd", "munged")
        lacks = [name for name in commands if not shutil.which(name, path=path)]
        if lacks or os.geteuid():
            self.skipTest(
                f"{lacks[0]} isn't installed" if lacks else "a Slurm of one machine needs root"
            )
        started = subprocess.run(
            [os.path.join(HERE, "slurm_of_one.sh"), self.path("slurm")],
            capture_output=True,
            text=True,
        )
        self.addCleanup(self.end_slurm)
        self.assertEqual(started.returncode, 0, started.stderr)
        self.write_plan(PLAN)
        status, out, errors = self.call_campaign(
            "--profile", "slurm", SLURM_CONF=started.stdout.strip(), STAND_IN_KILLS="5"
        )
        self.assertEqual(
            (status, out),
            (1, "9 runs, 0 failed calls, 1 missing jobs: plan.campaign/table.tsv\n"),
            errors,
        )
        status, out, errors = self.call_campaign(
            "--profile", "slurm", SLURM_CONF=started.stdout.strip()
        )
        self.assertEqual(
            (status, out),
            (0, "12 runs, 0 failed calls, 0 missing jobs: plan.campaign/table.tsv\n"),
            errors,
        )

    def end_slurm(self):
        """Ends those of Slurm's processes that run, the last begun first, and waits for each: it writes its
        state before it ends."""
        has_pids = os.path.exists(self.path("slurm", "pids"))
        pids = self.read("slurm", "pids").split() if has_pids else []
        for pid in filter(is_running, reversed(pids)):
            os.kill(int(pid), signal.SIGTERM)
            deadline = time.monotonic() + 20
            while is_running(pid):
                if time.monotonic() > deadline:
                    os.kill(int(pid), signal.SIGKILL)
                time.sleep(0.05)


if __name__ == "__main__":
    unittest.main()
