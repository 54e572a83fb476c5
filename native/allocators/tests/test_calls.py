"""Calls of `predator allocators` over small allocators that are built here: tables, refusals, failures."""

import json
import os
import re
import signal
import subprocess
import sys
import tempfile
import time
import unittest

TOP = os.path.dirname(os.path.dirname(os.path.dirname(os.path.dirname(os.path.abspath(__file__)))))
PREDATOR = os.path.join(TOP, "bin", "predator")
JUDGE = os.path.join(TOP, "tools", "judge_allocators.py")
PLANTED = os.path.join(TOP, "guest", "allocators", "planted")
FLAGS = ["-O2", "-w", "-fPIC", "-shared", "-fno-builtin", "-ftls-model=initial-exec", "-pthread"]
# An allocator that does something wrong after some blocks.
WRONG = r"""
#include <stddef.h>
#include <stdlib.h>
#include <string.h>
#include <sys/mman.h>
static char area[1 << 24];
static size_t now;
static int count;
void *malloc(size_t size)
{
    if (__atomic_add_fetch(&count, 1, 5) > 60) {
        AFTER;
    }
    return area + __atomic_fetch_add(&now, (size + 31) & ~(size_t)15, 5);
}
void free(void *block) {}
void *calloc(size_t count, size_t each) { return malloc(count * each); }
void *realloc(void *old, size_t size) { return old ? memcpy(malloc(size), old, size) : malloc(size); }
"""
MAPS = (
    "mmap(0, {} << 30, PROT_READ | PROT_WRITE, MAP_PRIVATE | MAP_ANONYMOUS | MAP_NORESERVE, -1, 0)"
)
FAILURES = {
    "crashes": ("*(volatile int *)0 = 1", r"it was ended by SIGSEGV \(at malloc .*\)"),
    "hangs": ('for (;;) __asm__ volatile("pause")', r"it ran for more than 5 seconds"),
    "empty": ("return NULL", r"it ended with status 3 \(the allocator gave no memory\)"),
    "reserves": (
        f"if ({MAPS.format('128UL')} == MAP_FAILED) abort()",
        r"it was ended by SIGABRT \(the program asks for 128 GiB of addresses at once.*64 GiB\)",
    ),
    "touches": (
        f"char *own = {MAPS.format('6UL')}; for (size_t it = 0; it < 6000; it++) own[it << 20] = 1",
        r"it maps more than the 4080 MiB of addresses that the recorder has",
    ),
}


class Calling(unittest.TestCase):
    """Calls in a folder of their own."""

    @classmethod
    def setUpClass(cls):
        cls.folder = tempfile.TemporaryDirectory()
        cls.addClassCleanup(cls.folder.cleanup)

    def path(self, name):
        return os.path.join(self.folder.name, name)

    def build(self, source, name, *flags):
        subprocess.run(["gcc", *FLAGS, *flags, source, "-o", self.path(name)], check=True)
        return name

    def call(self, *words):
        ran = subprocess.run(
            [PREDATOR, "allocators", *words], cwd=self.folder.name, capture_output=True, text=True
        )
        return ran.returncode, ran.stdout, ran.stderr

    def read_runs(self, name):
        with open(self.path(name), encoding="utf-8") as file:
            return {it["run"]: it for it in json.load(file)["runs"]}

    def judge(self, folder, name, run, *words):
        trace = os.path.join(self.folder.name, folder, run.replace(" ", "-") + ".trace")
        ran = subprocess.run(
            [sys.executable, JUDGE, trace, *words, "--against", self.path(name), run],
            capture_output=True,
            text=True,
        )
        self.assertEqual((ran.returncode, ran.stdout), (0, ""), run)


class Natively(Calling):
    def test_planted_defects(self):
        """Each defect is seen in its column, the judge counts the same, and the table is gated and written."""
        for name in ("pools", "neighbours", "keeps_foreign"):
            self.build(os.path.join(PLANTED, f"{name}.c"), f"{name}.so")
        words = ["pools.so", "neighbours.so", "keeps_foreign.so", "--to", "kept", "--traces"]
        words += [
            "--drivers",
            "cache-thrash,cache-scratch",
            "--json",
            "all.json",
            "--html",
            "all.html",
        ]
        status, text, said = self.call(*words, "--fail-above", "50")
        self.assertEqual(status, 1, said)
        runs = self.read_runs("all.json")
        self.assertEqual(len(runs), 8)
        for run in runs:
            self.judge("kept", "all.json", run)
        shared = {run: (it["active"], it["passive"]) for run, it in runs.items()}
        for driver in ("cache-thrash 4 8", "cache-scratch 4 8"):
            self.assertEqual(shared[f"pools.so {driver}"], (0, 0))
            self.assertEqual(runs[f"pools.so {driver}"]["in_blocks"], 0)
            self.assertGreater(shared[f"neighbours.so {driver}"][0], 0)
            self.assertEqual(shared[f"neighbours.so {driver}"][1], 0)
            self.assertGreater(runs[f"neighbours.so {driver}"]["in_blocks"], 50)
        self.assertEqual(shared["keeps_foreign.so cache-thrash 4 8"], (0, 0))
        self.assertGreater(shared["keeps_foreign.so cache-scratch 4 8"][1], 0)
        self.assertEqual(
            {it.partition(": ")[2].partition(":")[0] for it in said.splitlines()},
            {
                "neighbours.so cache-thrash 4 8",
                "neighbours.so cache-scratch 4 8",
                "keeps_foreign.so cache-scratch 4 8",
            },
        )
        rows = [it.split() for it in text.splitlines() if it.startswith("keeps_foreign.so ")]
        own = runs["keeps_foreign.so cache-scratch 4 8"]
        numbers = [own["active"], own["passive"], own["in_blocks"], own["in_own_data"]]
        self.assertEqual(rows[1][4:8], [f"{it:,}" for it in numbers])
        with open(self.path("all.html"), encoding="utf-8") as file:
            page = file.read()
        self.assertIn(f">{own['in_blocks']}<", page)
        # (all is there, so the same call is quick and prints the same)
        self.assertEqual(self.call(*words, "--fail-above", "300")[1], text)
        self.assertEqual(self.call(*words, "--by", "passive", "--fail-above", "0")[0], 1)
        self.assertEqual(self.call("pools.so", *words[3:], "--fail-above", "0")[0], 0)

    def test_operator_new(self):
        """The blocks of an allocator's own operator new are seen, as are those of the C library's."""
        source = self.path("new.c")
        with open(source, "w", encoding="utf-8") as file:
            file.write(f'#include "{PLANTED}/pools.c"\n')
            file.write(
                "static __attribute__((noinline)) void *own(size_t n) { return malloc(n); }\n"
            )
            file.write("void *_Znwm(size_t size) { return own(size); }\n")
            file.write("void _ZdlPv(void *block) { free(block); }\n")
            file.write("void _ZdlPvm(void *block, size_t size) { free(block); }\n")
        # (malloc is called by another name, which no wrapper has)
        self.build(source, "new.so", "-fvisibility=default", "-Wl,-Bsymbolic", "-Wl,-soname,new.so")
        status, _, said = self.call(
            "new.so", "--drivers", "containers", "--to", "new", "--json", "new.json"
        )
        self.assertEqual(status, 0, said)
        runs = self.read_runs("new.json")
        self.assertEqual(
            runs["new.so containers 4 8"]["calls"], runs["libc containers 4 8"]["calls"]
        )

    def test_interrupted(self):
        self.build(os.path.join(PLANTED, "pools.c"), "again.so")
        words = [
            PREDATOR,
            "allocators",
            "again.so",
            "--drivers",
            "cache-thrash,trees",
            "--to",
            "half",
        ]
        # (a shell has what it starts in the background ignore Ctrl-C)
        ran = subprocess.Popen(
            ["env", "--default-signal=INT", *words],
            cwd=self.folder.name,
            stdout=subprocess.PIPE,
            stderr=subprocess.PIPE,
            text=True,
        )
        half = self.path("half")
        while ran.poll() is None and not list_results(half):
            time.sleep(0.05)
        ran.send_signal(signal.SIGINT)
        said = ran.communicate()[1]
        self.assertEqual(ran.returncode, 130, said)
        self.assertRegex(said, r"interrupted after [123] of 4 runs: the same call goes on")
        done = {it: os.stat(os.path.join(half, it)).st_mtime_ns for it in list_results(half)}
        status, text, said = self.call(*words[2:])
        self.assertEqual(status, 0, said)
        for name, when in done.items():
            self.assertEqual(os.stat(os.path.join(half, name)).st_mtime_ns, when)
        self.assertEqual(text, self.call(*words[2:-1], "whole")[1])

    def test_refusals(self):
        """Each call is refused before anything runs, with the reason."""
        self.build(os.path.join(PLANTED, "pools.c"), "good.so")
        with open(self.path("half.c"), "w", encoding="utf-8") as file:
            file.write("void *malloc(unsigned long n) { return 0; }\nvoid free(void *b) {}\n")
        self.build(self.path("half.c"), "half.so")
        with open(self.path("text.so"), "w", encoding="utf-8") as file:
            file.write("text\n")
        with open(self.path("good.so"), "rb") as file, open(self.path("cut.so"), "wb") as cut:
            cut.write(file.read(2000))
        libm, elf = "/lib/x86_64-linux-gnu/libm.so.6", os.path.join(TOP, "guest/built/counters.elf")
        lacking = "it lacks malloc, free, calloc and realloc"
        for words, reason in (
            (["none.so"], "none.so: No such file or directory"),
            (
                ["none"],
                "none: there is no such file; the words are jemalloc, tcmalloc and mimalloc",
            ),
            (["text.so"], "text.so: this is no shared library"),
            (["cut.so"], "cut.so: this is no shared library"),
            (["/usr/bin/env"], "/usr/bin/env: this is a program and no shared library"),
            ([elf], f"{elf}: this is no shared library for x86-64"),
            ([libm], f"{libm}: the library defines no malloc: {lacking}"),
            (
                ["half.so"],
                "half.so: the library defines no whole allocator: it lacks calloc and realloc",
            ),
            (
                ["good.so", "--drivers", "x"],
                "there is no driver 'x'; the drivers are cache-thrash, .*",
            ),
            (["good.so", "--threads", "1"], "'--threads' must be from 2 to 64, not '1'"),
            (["good.so", "--sizes", "8,"], "'--sizes' must be from 1 to 4096, not ''"),
            (
                ["good.so", "--by", "x"],
                "'--by' must be false, blocks, own, active or passive, not 'x'",
            ),
            (
                ["good.so", "--limit", "0"],
                "'--limit' must be a number of seconds up to 86400, not '0'",
            ),
            (["good.so", "--to", "a", "--to", "b"], "the option '--to' is given twice"),
            (["good.so", "--json", "good.so"], "good.so: the output would overwrite an input"),
            (["good.so", "--html", "x/y"], "x/y: No such file or directory"),
            (["good.so", "--guest", "x.c"], "'--guest' runs no library, so 'good.so' has no use"),
            (["--guest", "none.c"], "none.c: No such file or directory"),
            (
                ["--guest", "text.so"],
                "text.so: --guest wants a source file of C, C\\+\\+ or assembly",
            ),
        ):
            status, text, said = self.call(
                *words, *([] if "--to" in words else ["--to", "refused"])
            )
            self.assertEqual((status, text), (2, ""), words)
            self.assertRegex(said.partition("\n")[0], f"^predator allocators: {reason}$")

    def test_without_valgrind(self):
        """What is missing is named."""
        text = "from native.allocators import recording as it; it.VALGRIND = '/none'; it.check_recorder()"
        ran = subprocess.run([sys.executable, "-c", text], cwd=TOP, capture_output=True, text=True)
        self.assertIn("Fault: valgrind isn't installed: apt-get install gcc g++", ran.stderr)


class Failures(Calling):
    def test_failures(self):
        names = [f"{it}.so" for it in FAILURES]
        with open(self.path("wrong.c"), "w", encoding="utf-8") as file:
            file.write(WRONG)
        for name, (after, _) in FAILURES.items():
            self.build(self.path("wrong.c"), f"{name}.so", f"-DAFTER={after}")
        status, text, said = self.call(
            *names, "--drivers", "trees,lines", "--limit", "5", "--to", "failures"
        )
        self.assertEqual(status, 1)
        for name, (_, reason) in FAILURES.items():
            self.assertRegex(said, rf"{name}\.so, driver trees \(4 threads of 8 bytes\): {reason}")
            self.assertRegex(text, rf"{name}\.so +trees +4 +8  failed: {reason}")
            self.assertRegex(text, rf"{name}\.so +lines +4 +-  left out: it lacks aligned_alloc")
        left = os.listdir(self.path("failures"))
        self.assertFalse([it for it in left if not it.endswith(".json") and it != "lock"])


def list_results(folder):
    names = os.listdir(folder) if os.path.isdir(folder) else []
    return [it for it in names if it.endswith(".json")]


class AsGuests(Calling):
    def test_planted_defects(self):
        """The same defects under several schedules, each of which the judge counts too."""
        names = ("pools", "neighbours", "keeps_foreign")
        sources = [os.path.join(PLANTED, f"{it}.c") for it in names]
        words = ["--guest", *sources, "--drivers", "cache-thrash,cache-scratch,lines"]
        words += ["--seeds", "3", "--to", "guests", "--json", "guests.json", "--traces"]
        status, text, said = self.call(*words)
        self.assertEqual(status, 0, said)
        runs = self.read_runs("guests.json")
        self.assertRegex(text, r"pools +lines +4 +-  left out: it lacks aligned_alloc")
        for name in names:
            for driver in ("cache-thrash", "cache-scratch"):
                own = runs[f"{name} {driver} 4 8"]
                seeds = own["by_seed"]
                self.assertEqual([it["seed"] for it in seeds], [1, 2, 3])
                is_active = name == "neighbours" or name + driver == "keeps_foreigncache-scratch"
                is_passive = name + driver == "keeps_foreigncache-scratch"
                self.assertEqual([it["active"] > 0 for it in seeds], 3 * [is_active], own["run"])
                self.assertEqual([it["passive"] > 0 for it in seeds], 3 * [is_passive], own["run"])
                self.assertEqual(own["in_blocks"] > 100, is_active, own["run"])
                self.assertEqual(own["calls"], sorted(it["calls"] for it in seeds)[1])
                self.assertEqual(len(own["predicted"]["by_shift"]), 32)
                last = f"{own['run']} seed {seeds[-1]['seed']}"
                self.judge("guests", "guests.json", last, "--noted-by", "__wrap_")
        left = os.listdir(self.path("guests"))
        self.assertFalse([it for it in left if it.startswith("campaign-")])

    def test_refusals(self):
        for name, text, reason in (
            ("broken", "void *malloc(", r"broken\.c doesn't build: .*broken\.c:1:\d+: error: .*"),
            ("none", "int x;", r"none\.c: it defines no malloc: it lacks malloc and free"),
        ):
            with open(self.path(f"{name}.c"), "w", encoding="utf-8") as file:
                file.write(text)
            status, _, said = self.call("--guest", f"{name}.c", "--to", "refused")
            self.assertEqual(status, 2, said)
            self.assertTrue(re.search(reason, said), said)

    def test_failures(self):
        """A guest that traps, or gives no memory, is a failed run with its seeds."""
        with open(self.path("ends.c"), "w", encoding="utf-8") as file:
            file.write(f'#define malloc own_malloc\n#include "{PLANTED}/pools.c"\n#undef malloc\n')
            file.write("#include <stdatomic.h>\nstatic _Atomic int count;\n")
            file.write("void *malloc(size_t n) { return count++ > 20 ? NULL : own_malloc(n); }\n")
        status, text, said = self.call(
            *("--guest", "ends.c", "--drivers", "cache-thrash", "--seeds", "2", "--to", "ends")
        )
        self.assertEqual(status, 1, said)
        reason = "it gave no memory under seed 1; 2 of 2 seeds failed"
        self.assertIn(f"predator allocators: ends cache-thrash 4 8: {reason}", said)
        self.assertIn(f"failed: {reason}", text)


if __name__ == "__main__":
    unittest.main()
