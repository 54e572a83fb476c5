"""Where each hart is when a run ends by a deadlock or by its budget."""

import os
import shutil
import subprocess
import sys
import tempfile
import unittest

from calling import HERE, PROGRAM, TOP, has, joined, view

sys.path[:0] = [os.path.join(HERE, "..", ".."), os.path.join(HERE, "..", "..", "tools")]

import traces  # noqa: E402
from judge_report import Access, Case, Ending, trace_bytes  # noqa: E402
from view.model.waiting_harts import (  # noqa: E402
    END_FUNCTIONS,
    decode_instructions,
    last_positions,
    name_harts,
)

LACKS = [it for it in ("clang", "ld.lld", "llvm-symbolizer") if shutil.which(it) is None]
# Two threads lock two mutexes in two orders, and one ends; with SPINS one spins for ever.
SOURCE = """#include <pthread.h>
static pthread_mutex_t one = PTHREAD_MUTEX_INITIALIZER, other = PTHREAD_MUTEX_INITIALIZER;
static volatile unsigned ready;
static void *first(void *unused)
{
    pthread_mutex_lock(&one);
    while (ready < 1)
        ;
    pthread_mutex_lock(&other);
    return unused;
}
static void *second(void *unused)
{
    pthread_mutex_lock(&other);
    ready = 1;
#ifdef SPINS
    while (ready)
        ;
#endif
    pthread_mutex_lock(&one);
    return unused;
}
static void *ends(void *unused)
{
    return unused;
}
int main(void)
{
    pthread_t threads[3];
    pthread_create(&threads[0], 0, ends, 0);
    pthread_create(&threads[1], 0, first, 0);
    pthread_create(&threads[2], 0, second, 0);
    pthread_join(threads[0], 0);
    pthread_join(threads[1], 0);
    return 0;
}
"""


class Last(unittest.TestCase):
    def setUp(self):
        self.folder = tempfile.mkdtemp()
        self.addCleanup(shutil.rmtree, self.folder)

    def test_instructions(self):
        accesses = [Access(it % 3, bool(it % 2), 0x1000 + 4 * it, 4) for it in range(99)]
        trace = trace_bytes(
            Case(accesses, [], Ending("exit 0", 9, (0, 0, 0, 0)), 8, 16, 64, 9, 64, None)
        )
        own = traces.add_pcs(trace, lambda access, before: (before * 5 + access.addr) % 2**32)
        wanted = [(it.hart, it.pc) for it in traces.read_accesses_with_pcs(own)]
        self.assertEqual(list(decode_instructions(own)), wanted)
        # (as far as a piece goes that was cut)
        self.assertEqual(list(decode_instructions(own[:-25])), wanted)
        path = os.path.join(self.folder, "trace")
        with open(path, "wb") as file:
            file.write(trace)
        self.assertEqual(last_positions(path), {0: 96, 1: 97, 2: 98})

    def test_names(self):
        self.assertEqual(
            [name_harts([1]), name_harts([1, 2]), name_harts([0, 4, 7])],
            ["hart 1", "harts 1 and 2", "harts 0, 4 and 7"],
        )

    def test_the_kit_has_its_ends(self):
        with open(
            os.path.join(TOP, "guest", "pthread", "pthread_create.c"), encoding="utf-8"
        ) as file:
            self.assertIn(f"{END_FUNCTIONS[0]}(run(argument))", file.read())

    @unittest.skipIf(LACKS, f"{' '.join(LACKS)} missing")
    @unittest.skipUnless(has(PROGRAM, "blame"), "the program isn't built, or has no blame")
    def test_runs(self):
        source = os.path.join(self.folder, "waits.c")
        with open(source, "w", encoding="utf-8") as file:
            file.write(SOURCE)
        for flags, outcome, wanted in (
            (
                [],
                "deadlock",
                (
                    r"after waits\.c:[789] \(first\)",
                    r"after waits\.c:15 \(second\)",
                    r"after waits\.c:34 \(main\)",
                ),
            ),
            (
                ["-DSPINS"],
                "budget",
                (
                    r"at waits\.c:1[78] \(second\)",
                    r"after waits\.c:[789] \(first\)",
                    r"after waits\.c:34 \(main\)",
                ),
            ),
        ):
            out = os.path.join(self.folder, outcome)
            subprocess.run(
                [os.path.join(TOP, "guest", "build.sh"), out, source, "--", *flags], check=True
            )
            words = (
                "run",
                out,
                "--set",
                "quantum=3,budget=300000",
                "--explain",
                "0",
                "--no-predicted",
            )
            status, text, _ = view(*words, program=PROGRAM)
            self.assertEqual(status, 0)
            text = joined(text)
            said = (
                f"note: {'waiting' if outcome == 'deadlock' else 'running'} at the end: hart 0 at "
            )
            self.assertIn(said, text)
            for pattern in wanted:
                self.assertRegex(text, pattern)
            self.assertNotIn("hart 1 ", text.partition(said)[2].partition(" false ")[0])


if __name__ == "__main__":
    unittest.main()
