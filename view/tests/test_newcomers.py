"""Small programs as their screens show them: names by the program's own lines, rows in order, and no fix where there is none."""

import json
import os
import re
import resource
import shutil
import struct
import subprocess
import tempfile
import unittest

import test_followed
from calling import PROGRAM, TOP, has, joined, view
from test_followed import FOLLOWED, LACKS
from view.main import fold_help
from view.names.callers import calls_in
from view.reading.calls import HELP

KNOWN = os.path.join(os.path.dirname(FOLLOWED), "known")
# LLVM's headers of the standard library, of the versions that the kit takes.
HEADERS = [f"/usr/lib/llvm-{version}/include/c++/v1" for version in (14, 15, 16)]
RECORDER = os.path.join(TOP, "native", "out", "predator-amd64-linux")


MANY_PARTS = """
#include <pthread.h>
#include <stdint.h>
static DECLARED;
static void *work(void *argument) {
    for (int turn = 0; turn < 3; turn++)
        for (int i = (int)(intptr_t)argument; i < 10000; i += 4) USE;
    return 0;
}
int main(void) {
    pthread_t threads[4];
    for (int i = 0; i < 4; i++) pthread_create(&threads[i], 0, work, (void *)(intptr_t)i);
    for (int i = 0; i < 4; i++) pthread_join(threads[i], 0);
    return 0;
}
"""


def children_seconds():
    """The processor time of all processes that have ended."""
    return sum(resource.getrusage(resource.RUSAGE_CHILDREN)[:2])


@unittest.skipIf(LACKS, f"{' '.join(LACKS)} missing")
@unittest.skipUnless(has(PROGRAM, "misses", "move"), "the program isn't built, or has no move")
class OfGuests(test_followed.Following):
    def test_an_office(self):
        """Variables of a stack, a counter beside numbers of single threads, nodes that are written once, and calls of the kit."""
        found = self.look(self.build("office", self.source("office")), "--explain", "4")
        objects = {it["name"].partition(" made")[0]: it for it in found["objects"]}
        numbers = [(-it["false_sharing"], -it["true_sharing"]) for it in found["objects"][:4]]
        self.assertEqual(numbers, sorted(numbers))
        self.assertEqual(next(iter(objects)), "tasks")
        self.assertIn("each element of tasks its own line", objects["tasks"]["fix"])
        self.assertIn("(in main, on the stack of hart 0)", found["screen"])
        own = re.search(r"who .*?(hart 1: .*?)(?:; on the same lines.*?)? fix ", found["screen"])
        self.assertNotIn("hart 0", own[1])
        # (the numbers of single threads on the counter's line aren't named for it)
        self.assertNotIn("tries", objects)
        alone = "none: all its misses are true sharing; write next less often"
        self.assertIn(alone, objects["next"]["fix"])
        # (a line for each of many small blocks costs more cold misses than it saves)
        self.assertNotIn("aligned", objects["block"]["fix"])
        self.assertRegex(found["screen"], r"office\.c:\d+ \(pthread_mutex_lock < work\)")
        self.assertNotIn("pthread.c", found["screen"])

    def test_blocks_that_became_variables(self):
        found = self.look(self.build("blocks", self.source("blocks")))
        first = found["objects"][0]
        fields = "volatile uint32_t sent; volatile uint32_t lost;"
        wrapper = f"struct {test_followed.LINE} sent_lost {{ {fields} }};"
        fix = first["fix"].replace("`", "")
        self.assertIn(f"join sent and lost to one array of 4 elements of {wrapper}, alloc", fix)
        self.assertIn("each thread writes its own element: hart 1: [0]", found["screen"])
        self.assertLess(sum(first["tried"]["after"][it] for it in test_followed.MISSES), 40)

    @unittest.skipUnless(any(map(os.path.isdir, HEADERS)), "libc++-14-dev isn't installed")
    def test_a_block_of_an_aligned_type(self):
        """Its site is the program's line, and not the kit's `new`; its type names the words."""
        shutil.copy(os.path.join(KNOWN, "wide.cpp"), self.folder)
        build = os.path.join(TOP, "guest", "build.sh")
        subprocess.run([build, "wide.elf", "wide.cpp"], cwd=self.folder, check=True)
        found = self.look("wide.elf")
        self.assertEqual(found["objects"][0]["name"], "block made at wide.cpp:11 < main")
        self.assertIn("block made at wide.cpp:11 < main: Wide", found["screen"])
        self.assertIn("hart 1: .hits (2,000 writes); hart 2: .misses", found["screen"])

    def known(self, name):
        with open(os.path.join(KNOWN, f"{name}.c"), encoding="utf-8") as file:
            return file.read()

    def test_an_instruction_of_several_lines(self):
        """Where debug information has line 0 the line is that of the nearest instruction that runs before, not of one that lies before."""
        text = self.known("outcomes")
        found = self.look(self.build("outcomes", text), "--explain", "1")
        where = re.search(r"where (.*?) invalidates (.*?):? \d+ times", found["screen"])
        for place in where.groups():
            line = re.fullmatch(r"(?:near )?outcomes\.c:(\d+) \(work\)", place.removesuffix(":"))
            source = text.splitlines()[int(line[1]) - 1]
            self.assertRegex(source, r"outcomes\[me\]|draw & 0x10000", place)
        self.assertIn("near outcomes.c:", where[0])

    def test_a_trace_of_another_program(self):
        """Its names aren't taken, though no line of the report names a variable."""
        self.build("folded", self.known("folded"))
        self.build("outcomes", self.known("outcomes"))
        subprocess.run(
            [PROGRAM, "run", "folded.elf", "--trace", "trace"],
            cwd=self.folder,
            stdout=subprocess.DEVNULL,
            check=True,
        )
        call = ("replay", "trace", "--program", "outcomes.elf")
        status, text, said = view(*call, program=PROGRAM, cwd=self.folder)
        self.assertEqual(status, 0)
        self.assertIn("outcomes.elf isn't the program of this report and isn't used", said)
        self.assertNotIn("outcomes", text)

    def test_objects_of_many_parts(self):
        """The search of an array of 10,000 elements and of a structure of 10,000 fields ends, and says what it left out."""
        fields = ", ".join(f"f{at}" for at in range(10_000))
        for name, declared, use in (
            ("cells", "struct { volatile uint32_t used, value; } all[10000]", "all[i].used++"),
            ("fields", f"struct wide {{ volatile uint32_t {fields}; }} all", "(&all.f0)[i]++"),
        ):
            text = MANY_PARTS.replace("DECLARED", declared).replace("USE", use)
            program, began = self.build(name, text), children_seconds()
            found = self.look(program)
            self.assertLess(children_seconds() - began, 60)
            (first,) = (it for it in found["objects"] if it["tried"])
            self.assertLess(sum(first["tried"]["after"][it] for it in test_followed.MISSES), 3000)
            if name == "fields":
                left_out = "left out: fields of struct wide, which are more than 256"
                self.assertIn(left_out, found["screen"])

    def test_a_loop_that_the_compiler_removed(self):
        found = self.look(self.build("folded", self.known("folded")))
        self.assertLess(found["accesses"], 1000)
        self.assertEqual(found["total"]["false_sharing"], 0)
        fixes = {it["fix"] for it in found["objects"]}
        seen = f"only {found['accesses']:,} accesses were seen; did the compiler remove a loop?"
        self.assertEqual(fixes, {f"none: {seen}"})
        self.assertNotIn("tried", found["screen"])
        self.assertNotIn("aligned", found["screen"])


@unittest.skipUnless(
    os.path.exists(RECORDER) and has(PROGRAM, "misses", "move"),
    "the recorder of native/ or the program isn't built",
)
class OfThisMachine(unittest.TestCase):
    def setUp(self):
        self.folder = tempfile.mkdtemp()
        self.addCleanup(shutil.rmtree, self.folder)

    def build(self, source, *words):
        out = os.path.join(self.folder, source.partition(".")[0])
        shutil.copy(os.path.join(FOLLOWED, source), self.folder)
        subprocess.run([*words, source, "-o", out], cwd=self.folder, check=True)

    def look(self, program, *words):
        call = ("native", f"./{program}", "--explain", "1", *words, "--json", "json")
        status, text, _ = view(*call, program=PROGRAM, cwd=self.folder)
        self.assertEqual(status, 0)
        with open(os.path.join(self.folder, "json"), encoding="utf-8") as file:
            return json.load(file)["objects"], joined(text)

    def test_what_a_library_makes(self):
        """Containers and lambdas have the program's lines, and one fix covers what is of one type."""
        if shutil.which("g++") is None:
            self.skipTest("g++ is missing")
        self.build("pool.cpp", "g++", "-g", "-O2", "-std=c++17", "-pthread")
        found, text = self.look("pool", "--type", "pool.cpp:19=app::Worker")
        names = [it["name"] for it in found]
        self.assertIn("vector<app::Worker> made at pool.cpp:19 < main", names)
        self.assertIn("make_unique<app::Worker> made at pool.cpp:18 < main", names)
        self.assertIn("lambda at pool.cpp:", text)
        self.assertNotIn("new_allocator", text)
        self.assertNotIn("()()", text)
        fixes = [it["fix"].replace("`", "") for it in found if it["tried"]]
        self.assertTrue(any("struct alignas(64) Worker (pool.cpp:8)" in it for it in fixes), fixes)

    def test_a_ring(self):
        """What threads contend for only in short turns has its fix by another recording of the same program."""
        self.build("spsc.c", "gcc", "-g", "-O2", "-pthread")
        call = ("native", "./spsc", "--explain", "0", "--fine")
        status, text, _ = view(*call, program=PROGRAM, cwd=self.folder)
        self.assertEqual(status, 0)
        usual, _, fine = joined(text).partition("only at fine interleaving (quantum 3), typical")
        self.assertNotIn("group the fields", usual)
        self.assertIn("group the fields of struct spsc (spsc.c:9)", fine)

    def test_variables_of_a_stack(self):
        """They have their names by the instructions of the trace, and the fix that is tried comes out; without pcs they have none."""
        self.build("contexts.c", "gcc", "-g", "-O2", "-pthread")
        for words in ((), ("--filtered",)):
            found, text = self.look("contexts", "--no-fine", *words)
            self.assertEqual(found[0]["name"], "contexts", words)
            self.assertIn("(in main, on the stack of thread 0)", text)
            self.assertIn("each element of contexts its own line", found[0]["fix"])
            self.assertLess(found[0]["tried"]["after"]["false_sharing"], 30)
        _, text = self.look("contexts", "--fine")
        self.assertNotIn("stack of thread 0, used", text)
        without_pcs = ("--whole", "--no-fine", "--explain", "0")
        call = ("native", "./contexts", *without_pcs, "--object", "contexts")
        status, _, said = view(*call, program=PROGRAM, cwd=self.folder)
        self.assertEqual(status, 2)
        self.assertIn("'contexts' may lie on a stack, where nothing has a name without pcs", said)

    def test_variables_of_a_frame_that_is_aligned(self):
        """Where a function aligns the stack pointer anew they have their names too."""
        for compiler, level in (("gcc", "-O0"), ("gcc", "-O2"), ("clang", "-O1")):
            if shutil.which(compiler) is not None:
                flags = ("-gdwarf-4", level, "-fno-inline", "-pthread")
                self.build("aligned.c", compiler, *flags)
                found, text = self.look("aligned", "--no-fine")
                self.assertEqual(found[0]["name"], "sums", (compiler, level))
                self.assertIn("struct pair, aligned.c:24 (in run, on the stack of", text)
                self.assertIn("thread 1: .first; thread 2: .second", text)
                fix = found[0]["fix"].replace("`", "")
                self.assertIn(f"put {test_followed.LINE} after second", fix)
                self.assertLess(found[0]["tried"]["after"]["false_sharing"], 10)

    def test_a_hash_table(self):
        """The arrays of locks, counts and buckets that are indexed alike become one."""
        self.build("buckets.c", "gcc", "-g", "-O2", "-pthread")
        found, _ = self.look("buckets", "--no-fine")
        self.assertIn("join table.locks, table.counts and table.buckets", found[0]["fix"])
        self.assertIn("struct entry *buckets[4];", found[0]["fix"])
        before, after = (found[0]["tried"][it]["false_sharing"] for it in ("before", "after"))
        self.assertLess(after * 4, before)

    @unittest.skipIf(shutil.which("rustc") is None, "rustc is missing")
    def test_rust(self):
        """A vector has its types' names and its fields; the fix that is named comes out once it is made."""
        self.build("counts.rs", "rustc", "-g", "-O")
        found, text = self.look("counts", "--no-fine")
        self.assertEqual(
            found[0]["name"], "Vec<counts::Counts> made at counts.rs:19 (counts::main)"
        )
        self.assertIn("thread 1: [0]; thread 2: [1]", text)
        self.assertRegex(text, r"\[0\]\.taken +thread 1 .*\[1\]\.dropped +thread 2 ")
        self.assertIn("counts.rs:14 (counts::count < closure at counts.rs:22)", text)
        self.assertIn("give each element its own line: `#[repr(align(64))]", found[0]["fix"])
        source = os.path.join(self.folder, "counts.rs")
        with open(source, encoding="utf-8") as file:
            aligned = file.read().replace("struct Counts", "#[repr(align(64))] struct Counts", 1)
        with open(source, "w", encoding="utf-8") as file:
            file.write(aligned)
        command = ["rustc", "-g", "-O", "counts.rs", "-o", "counts"]
        subprocess.run(command, cwd=self.folder, check=True)
        self.look("counts", "--no-fine")
        with open(os.path.join(self.folder, "json"), encoding="utf-8") as file:
            total = json.load(file)["total"]
        missed, foretold = (
            sum(it[own] for own in test_followed.MISSES)
            for it in (total, found[0]["tried"]["after"])
        )
        self.assertLessEqual(abs(missed - foretold) * 10, foretold)

    def test_a_run_of_which_nothing_was_recorded(self):
        words = ("native", shutil.which("true"), "--fail-above", "0")
        status, _, said = view(*words, program=PROGRAM, cwd=self.folder)
        self.assertEqual(status, 3)
        self.assertIn("nothing was recorded, so there is nothing to test", said)


class Calls(unittest.TestCase):
    def test_calls_in_code(self):
        """A near call, a far one by two instructions, a jump, and what is none: an address that no call takes, a return."""
        words = (0x008000EF, 0x00001097, 0x82C080E7, 0x00C0006F, 0x00001097, 0x00000013, 0x00008067)
        found = calls_in(struct.pack("<7I", *words), 0x10294)
        self.assertEqual([*found], [(0x10294, 0x1029C), (0x1029C, 0x10AC4), (0x102A0, 0x102AC)])


class Streams(unittest.TestCase):
    def test_a_closed_output(self):
        command = f"exec {TOP}/bin/predator view nothing >&-"
        own = {**os.environ, "PREDATOR_BUILD": "no"}
        ran = subprocess.run(["sh", "-c", command], stderr=subprocess.PIPE, text=True, env=own)
        self.assertEqual(ran.returncode, 2)
        self.assertEqual(ran.stderr, "predator view: standard output is closed\n")


class Help(unittest.TestCase):
    def test_the_page_of_a_terminal(self):
        """No word is lost, and no row has more columns than the terminal."""
        text = fold_help(HELP, 80)
        self.assertLessEqual(max(map(len, text.split("\n"))), 80)
        self.assertEqual(text.split(), HELP.split())
        self.assertIn("\n  --top N            show N objects (10)\n", text)


class Folders(unittest.TestCase):
    def test_recorders_without_a_home(self):
        """Without HOME the recorders are kept in a folder that is this user's, and in none that another user made."""
        with tempfile.TemporaryDirectory() as folder:
            text = f"native={TOP}/native; . $native/places; places | tail -n +2"
            own = {"PATH": os.environ["PATH"], "TMPDIR": folder}
            below = os.path.join(folder, f"predator-{os.getuid()}")
            for is_foreign in (False, True):
                if is_foreign and os.getuid():
                    self.skipTest("another user's folder is made by root alone")
                if is_foreign:
                    os.mkdir(below)
                    os.chown(below, 65534, 65534)
                ran = subprocess.run(
                    ["bash", "-c", text], stdout=subprocess.PIPE, text=True, env=own, check=True
                )
                found = ran.stdout.strip()
                self.assertEqual(found[: len(below) + 1], "" if is_foreign else f"{below}/")


if __name__ == "__main__":
    unittest.main()
