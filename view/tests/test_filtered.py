"""Filtered traces: what stays of a whole one's screen, what isn't shown, and what is refused."""

import json
import os
import re
import shutil
import struct
import subprocess
import sys
import tempfile
import unittest
from unittest import mock

import jsonschema
from calling import HERE, PROGRAM, STAND_IN, TOP, TURNS, built, has, joined, view

sys.path[:0] = [TOP]

from filtered import filtered_bytes  # noqa: E402
from view.faults import Fault  # noqa: E402
from view.reading import recording, trace_prefix  # noqa: E402
from view.reading.calls import Call  # noqa: E402
from view.reading.filtered_traces import Filter, read_filter, write_plain  # noqa: E402
from view.reading.trace_files import WordUses  # noqa: E402
from view.repairs.far_parts import FAR_LAYOUTS, keep_far_apart  # noqa: E402
from view.repairs.layouts import MovedRange  # noqa: E402

RECORDER = os.path.join(TOP, "native", "out", "predator-amd64-linux")
PROGRAMS = ("ring", "shards", "arena", "anderson")
# Three of the four accesses of a program, by docs/FORMATS.md.
SMALL = bytes.fromhex(
    "5052445452433034000000000000000008000600240080408801140140900124003f10060000000000000000"
    "000000000000000003000000000000000400000000000000"
)


def knows_filtered_traces(program):
    """Whether a program is there that replays and moves filtered traces."""
    if not has(program, "misses", "move"):
        return False
    with tempfile.TemporaryDirectory() as folder:
        trace, table, out = (os.path.join(folder, it) for it in ("trace", "table", "out"))
        for path, content in ((trace, SMALL), (table, b"")):
            with open(path, "wb") as file:
                file.write(content)
        calls = (["replay", "--size", "16", "--shift", "0", trace], ["move", trace, table, out])
        return all(
            subprocess.run([program, *call], capture_output=True).returncode == 0 for call in calls
        )


KNOWS = knows_filtered_traces(PROGRAM)


class Traces(unittest.TestCase):
    # (whether the stand-in moves words, which takes long)
    program, moves = STAND_IN, ""

    def setUp(self):
        self.folder = tempfile.mkdtemp()
        self.addCleanup(shutil.rmtree, self.folder)

    def path(self, name):
        return os.path.join(self.folder, name)

    def view(self, *words, **more):
        more = {"STAND_IN_HAS": self.moves, **more}
        return view(*words, program=self.program, cwd=self.folder, **more)

    def record(self, name, near=4096):
        """A guest's whole trace with pcs, and the same filtered."""
        words = [self.program, "run", built(f"{name}.elf"), *TURNS, "--pcs", "--trace"]
        subprocess.run([*words, self.path("whole")], check=True, stdout=subprocess.DEVNULL)
        with open(self.path("whole"), "rb") as file:
            trace = file.read()
        with open(self.path("filtered"), "wb") as file:
            file.write(filtered_bytes(trace, near))

    def found(self, *words):
        """What a call writes as JSON, with its screen."""
        status, text, said = self.view(*words, "--json", self.path("json"))
        # (the recorder says that it has recorded a part of the run)
        said = re.sub(
            r"predator native: (?:a part of the run was recorded|that many acc.*):.*\n", "", said
        )
        self.assertEqual((status, said), (0, ""), words)
        with open(self.path("json"), encoding="utf-8") as file:
            return {**json.load(file), "screen": joined(text)}

    def same(self, whole, filtered):
        """Compares what stays: all misses and invalidations, names, threads, rates, and what the fixes come to."""
        for name in ("total", "accesses", "outcome", "time"):
            self.assertEqual(whole[name], filtered[name], name)
        kept = ("name", "type", "false_sharing", "true_sharing", "invalidations", "rate", "harts")
        rows = [
            {it["key"]: [it[name] for name in kept] for it in found["objects"]}
            for found in (whole, filtered)
        ]
        self.assertEqual(*rows)
        self.assertTrue(rows[0])
        lines = [
            sorted(
                (line["base"], line["false_sharing"], line["true_sharing"], line["invalidations"])
                for obj in found["objects"]
                for line in obj["lines"]
            )
            for found in (whole, filtered)
        ]
        self.assertEqual(*lines)


class OfGuests(Traces):
    def test_the_same_numbers_and_names(self):
        for name in PROGRAMS:
            with self.subTest(name):
                self.record(name)
                words = ("--program", built(f"{name}.elf"))
                whole = self.found("replay", self.path("whole"), *words)
                found = self.found("replay", self.path("filtered"), *words)
                self.same(whole, found)
                self.assertEqual(whole["recorded_accesses"], whole["accesses"])
                self.assertLess(found["recorded_accesses"], found["accesses"])
                self.assertEqual((whole["filtered"], found["filtered"]), (None, 4096))
                expected = (
                    f"it has {found['recorded_accesses']:,} of {found['accesses']:,} accesses"
                )
                self.assertIn(f"note: the trace is filtered: {expected}", found["screen"])
                self.assertNotIn("filtered", whole["screen"])

    def test_a_fix_comes_to_the_same(self):
        self.moves = "move"
        self.record("ring")
        words = ("--program", built("ring.elf"))
        found = [self.found("replay", self.path(it), *words) for it in ("whole", "filtered")]
        fixes = [[(it["fix"], it["tried"]) for it in own["objects"]] for own in found]
        self.assertEqual(*fixes)
        self.assertTrue(any(tried for _, tried in fixes[1]))

    def test_what_a_filtered_trace_does_not_say(self):
        self.record("ring")
        words = ("--program", built("ring.elf"), "--predicted")
        whole = self.found("replay", self.path("whole"), *words)
        found = self.found("replay", self.path("filtered"), *words)
        for text in ("always different words", "in all ", " writes, ", " writes)"):
            self.assertIn(text, whole["screen"])
            self.assertNotIn(text, found["screen"])
        self.assertIn(
            "invalidates ring.c:34 (note < producer): 150 times (write after", found["screen"]
        )
        self.assertIn("longer (found by the recorded accesses):", found["screen"])
        first = found["objects"][0]
        self.assertEqual({it["same_word"] for it in first["conflicts"]}, {None})
        self.assertIsNone(first["invalidation_kinds"])
        unknown = {(it["start"], it["verdict"]) for it in (*first["lines"], *found["predicted"])}
        self.assertEqual(unknown, {(None, None)})
        self.assertEqual({it["invalidations"] for it in found["predicted"]}, {None})
        self.assertEqual(found["thresholds"], {"tracking": 1, "prediction": 64, "report": 1})
        _, text, _ = self.view("replay", self.path("filtered"), "--words")
        self.assertIn("reads and writes of words are those of the ", joined(text))

    def test_json_by_its_schemas(self):
        self.record("shards")
        for version, schema in (("2", "schema"), ("1", "schema-1")):
            found = self.found("replay", self.path("filtered"), "--json-version", version)
            del found["screen"]
            with open(os.path.join(TOP, "view", "output", f"{schema}.json"), "rb") as file:
                jsonschema.validate(found, json.load(file))

    def test_bytes_of_words_are_not_known(self):
        self.moves = "move"
        self.record("flags")
        found = self.found("replay", self.path("filtered"), "--program", built("flags.elf"))
        self.assertIn("threads may use different bytes of words on 1 lines", found["screen"])
        self.assertIn("--whole counts them by bytes", found["screen"])
        self.assertNotIn("so by bytes alone", found["screen"])

    def test_a_page_says_so(self):
        self.record("ring")
        for name, says in (("whole", False), ("filtered", True)):
            _, text, _ = self.view("replay", self.path(name), "--html", "-")
            self.assertEqual("of the recorded accesses: those that change no cache" in text, says)

    def test_refused(self):
        self.record("ring")
        trace = self.path("filtered")
        with open(self.path("report"), "w", encoding="utf-8") as file:
            file.write(self.view_report())
        for words, says in (
            (("caches", trace), "finite caches need all accesses; record it with `--whole`"),
            (("replay", trace, "--set", "tracking=16"), "has no thresholds above 1; record it"),
            (("replay", trace, "--live", "--html", "-"), "has too few accesses for '--live'"),
            (("replay", trace, "--fail-above=1", "--by=count"), "few accesses for '--by count'"),
            (("replay", trace, "--against", self.path("report")), "a kept report has other counts"),
            (("replay", trace, "--whole"), "'--whole' applies to native programs only"),
            (("run", built("ring.elf"), "--filtered"), "'--filtered' applies to native programs"),
        ):
            status, text, said = self.view(*words)
            self.assertEqual((status, text), (2, ""), words)
            self.assertIn(says, said)
        status, _, _ = self.view("replay", trace, "--set", "tracking=1,report=1,prediction=70")
        self.assertEqual(status, 0)

    def view_report(self):
        words = [self.program, "replay", self.path("whole")]
        return subprocess.run(words, check=True, capture_output=True, text=True).stdout

    def test_lines_that_are_too_wide(self):
        self.record("ring", 64)
        status, _, said = self.view("replay", self.path("filtered"))
        self.assertEqual((status, "and takes lines of at most 32 bytes" in said), (2, True))
        status, text, _ = self.view("replay", self.path("filtered"), "--size", "32")
        self.assertEqual((status, "; 32-byte lines" in text), (0, True))
        # (`sweep` looks at no line of twice the size; the objects do)
        status, text, said = self.view("sweep", self.path("filtered"), "--size", "64")
        self.assertEqual((status, said, "object (and its" in text), (0, "", False))
        self.record("ring")
        status, text, _ = self.view("sweep", self.path("filtered"), "--size", "64")
        self.assertEqual((status, "object (and its" in text), (0, True))
        self.assertEqual(text, self.view("sweep", self.path("whole"), "--size", "64")[1])
        self.moves = "move"
        status, text, _ = self.view(
            *("replay", self.path("filtered"), "--size", "512", "--program", built("ring.elf"))
        )
        self.assertIn("no fixes were tried: on a filtered trace they need lines of", joined(text))

    def test_a_pipe(self):
        self.record("ring")
        words = [os.path.join(TOP, "bin", "predator"), "view", "replay", "-"]
        for name, status in (("whole", 0), ("filtered", 2)):
            with open(self.path(name), "rb") as trace:
                ran = subprocess.run(
                    words,
                    stdin=trace,
                    capture_output=True,
                    text=True,
                    env={**os.environ, "PREDATOR_PROGRAM": self.program, "PREDATOR_BUILD": "no"},
                )
            self.assertEqual(ran.returncode, status, ran.stderr)
        self.assertIn("a filtered trace is read several times: write it to a file", ran.stderr)

    def test_a_cut_trace(self):
        self.record("ring")
        with open(self.path("filtered"), "rb") as file:
            trace = file.read()
        kept = read_filter(self.path("filtered")).accesses
        end = struct.pack("<BBBHIQQQ", 6, 4, 0, 0, 0, 0, kept, kept)
        with open(self.path("filtered"), "wb") as file:
            file.write(trace[:-33] + end)
        _, text, _ = self.view("replay", self.path("filtered"))
        self.assertIn("how many accesses it leaves out isn't known", joined(text))


@unittest.skipUnless(KNOWS, "the program isn't built, or doesn't know filtered traces")
class OfGuestsByTheProgram(OfGuests):
    program = PROGRAM


class Files(Traces):
    def test_what_a_trace_says(self):
        self.record("ring")
        found = read_filter(self.path("filtered"))
        self.assertEqual((found.near, read_filter(self.path("whole"))), (4096, None))
        self.assertLess(found.accesses, found.whole)
        self.assertEqual(trace_prefix.trace_accesses(self.path("filtered")), found.accesses)
        self.assertEqual(found.whole, trace_prefix.trace_accesses(self.path("whole")))
        with open(self.path("filtered"), "rb") as file:
            trace = file.read()
        for cut in (0, 8, 19, 20, 60, len(trace) - 1):
            with open(self.path("cut"), "wb") as file:
                file.write(trace[:cut])
            says = None if cut < 20 else Filter(4096, 0, 0)
            self.assertEqual(read_filter(self.path("cut")), says, cut)
        self.assertIsNone(read_filter(self.path("missing")))

    def test_a_part_is_filtered_too(self):
        self.record("ring")
        many = trace_prefix.write_prefix(self.path("filtered"), 1000, self.path("part"))
        self.assertEqual(read_filter(self.path("part")), Filter(4096, many, many))
        self.assertGreaterEqual(many, 1000)

    def test_the_same_accesses_in_version_3(self):
        self.record("ring")
        write_plain(self.path("filtered"), self.path("plain"))
        with open(self.path("filtered"), "rb") as one, open(self.path("plain"), "rb") as other:
            trace, plain = one.read(), other.read()
        self.assertEqual(plain[:20], b"PRDTRC03" + trace[8:18] + bytes(2))
        self.assertEqual(plain[20:], trace[20:-8])
        self.assertRaises(ValueError, write_plain, self.path("whole"), self.path("plain"))

    def test_bytes_are_unknown(self):
        # (two harts, each of which writes a byte of its own in one word)
        accesses = [struct.pack("<BHIB", 2, hart, 0x1000 + hart, 1) for hart in (0, 1, 0, 1)]
        end = struct.pack("<BBBHIQQ", 6, 0, 0, 0, 0, 0, 4)
        with open(self.path("bytes"), "wb") as file:
            file.write(b"PRDTRC01" + struct.pack("<QHH", 0, 2, 0) + b"".join(accesses) + end)
        for is_part in (False, True):
            uses = WordUses(self.path("bytes"), is_part)
            self.assertEqual(uses.is_mixed(0x1000), not is_part)
            self.assertTrue(uses.may_be_mixed(0x1000))


class Options(unittest.TestCase):
    def flags(self, *words):
        with mock.patch.object(recording.Predator, "has_command", return_value=True):
            return recording.recorder_flags(Call(["native", *words, "./no_such_program"]))

    def test_what_is_recorded(self):
        self.assertEqual(self.flags(), ["--filtered"])
        self.assertEqual(self.flags("--whole"), [])
        self.assertEqual(self.flags("--filtered"), ["--filtered"])
        self.assertEqual(self.flags("--filtered=512"), ["--filtered=512"])
        self.assertEqual(self.flags("--no-pcs"), ["--no-pcs"])
        self.assertEqual(self.flags("--explain", "0"), ["--filtered"])
        self.assertEqual(self.flags("--explain", "0", "--whole"), ["--no-pcs"])
        self.assertEqual(self.flags("--windows", "1M/100M", "--all"), ["--all", "--filtered"])
        self.assertEqual(self.flags("--size", "1024"), ["--filtered"])

    def test_what_needs_all_accesses(self):
        for words in (
            ("--set", "tracking=16"),
            ("--set=report=1", "--set=harts=8"),
            ("--settings", "settings"),
            ("--live", "--html", "page"),
            ("--fail-above", "1", "--by", "count"),
        ):
            self.assertEqual(self.flags(*words), [], words)
        self.assertEqual(self.flags("--set", "harts=8"), ["--filtered"])
        with tempfile.TemporaryDirectory() as folder:
            for text, found in (("predator report 1\n", []), ('{"format": 1}', ["--filtered"])):
                old = os.path.join(folder, "old")
                with open(old, "w", encoding="utf-8") as file:
                    file.write(text)
                self.assertEqual(self.flags("--against", old), found)

    def test_refused(self):
        for words, says in (
            (("--whole", "--filtered"), "'--whole' and '--filtered' exclude each other"),
            (("--filtered=1024", "--no-pcs"), "'--filtered' and '--no-pcs' exclude each other"),
            (("--filtered=100",), "a power of two from 64 to 65536, not '100'"),
            (("--filtered=",), "a power of two from 64 to 65536, not ''"),
            (("--filtered=64",), "'--filtered=64' takes lines of at most 32 bytes"),
            (("--filtered=256", "--size", "256"), "takes lines of at most 128 bytes"),
        ):
            with self.assertRaises(Fault) as raised:
                Call(["native", *words, "./server"])
            self.assertIn(says, str(raised.exception))
        Call(["native", "--filtered=64", "--size=32", "./server"])


class FarParts(unittest.TestCase):
    def test_what_is_near_stays(self):
        parts = [MovedRange(0x1000 + 8 * at, 8, 64 * at) for at in range(64)]
        self.assertEqual(keep_far_apart(parts, 4096, 64), (parts, 4096))

    def test_what_is_far_comes_apart(self):
        parts = [MovedRange(0x1000, 8, 0), MovedRange(0x9000, 8, 64), MovedRange(0x9040, 8, 128)]
        found, room = keep_far_apart(parts, 192, 64)
        self.assertEqual([it.to for it in found], [0, 64 + 1024, 128 + 1024])
        self.assertEqual(room, 192 + 1024)
        self.assertEqual([it._replace(to=0) for it in found], [it._replace(to=0) for it in parts])

    def test_a_line_stays_whole(self):
        parts = [MovedRange(0x1000, 8, 0), MovedRange(0x9000, 8, 8)]
        self.assertEqual(keep_far_apart(parts, 64, 64), (parts, 64))


# Two threads count in words of one line each in four variables, two of which are far from the others.
FAR = """
#include <pthread.h>
#include <stdint.h>
struct pair { volatile uint64_t mine, yours; };
static struct { struct pair one; char gap[40000]; struct pair other; } all __attribute__((aligned(64)));
static volatile long hits[2] __attribute__((aligned(64)));
static pthread_barrier_t barrier;
static void *work(void *own)
{
    long me = (long)own;
    pthread_barrier_wait(&barrier);
    for (int i = 0; i < 300; i++) {
        if (me) { all.one.mine++; all.other.mine++; } else { all.one.yours++; all.other.yours++; }
        hits[me]++;
    }
    return 0;
}
int main(void)
{
    pthread_t threads[2];
    pthread_barrier_init(&barrier, 0, 2);
    for (long i = 0; i < 2; i++) pthread_create(&threads[i], 0, work, (void *)i);
    for (int i = 0; i < 2; i++) pthread_join(threads[i], 0);
    return 0;
}
"""

# Two threads count in neighbouring bytes.
BYTES = """
#include <pthread.h>
static volatile char hits[2] __attribute__((aligned(64)));
static void *work(void *own)
{
    for (int i = 0; i < 1000; i++)
        hits[(long)own]++;
    return 0;
}
int main(void)
{
    pthread_t threads[2];
    for (long i = 0; i < 2; i++) pthread_create(&threads[i], 0, work, (void *)i);
    for (int i = 0; i < 2; i++) pthread_join(threads[i], 0);
    return 0;
}
"""
# Three threads add to all of many blocks, each in an order of its own.
NODES = """
#include <pthread.h>
#include <stdlib.h>
struct node { volatile long count, own[3]; };
static struct node *nodes[600];
static void *work(void *own)
{
    long me = (long)own;
    for (int i = 0; i < 3000; i++) {
        struct node *it = nodes[(i * 7 + me * 13) % 600];
        it->count++;
        it->own[me]++;
    }
    return 0;
}
int main(void)
{
    pthread_t threads[3];
    for (int i = 0; i < 600; i++) nodes[i] = calloc(1, sizeof *nodes[i]);
    for (long i = 0; i < 3; i++) pthread_create(&threads[i], 0, work, (void *)i);
    for (int i = 0; i < 3; i++) pthread_join(threads[i], 0);
    return 0;
}
"""


@unittest.skipUnless(
    os.path.exists(RECORDER) and KNOWS,
    "the recorder of native/ isn't built, or no program that knows filtered traces",
)
class OfThisMachine(Traces):
    program = PROGRAM

    def compile(self, name, source):
        with open(self.path(f"{name}.c"), "w", encoding="utf-8") as file:
            file.write(source)
        words = ["gcc", "-g", "-O1", "-pthread", f"{name}.c", "-o", name]
        subprocess.run(words, cwd=self.folder, check=True)
        return f"./{name}"

    def both(self, *words):
        return [self.found("native", option, *words) for option in ("--whole", "--filtered")]

    def test_a_program_that_repeats(self):
        with open(os.path.join(HERE, "..", "..", "examples", "hits.c"), encoding="utf-8") as file:
            program = self.compile("hits", file.read().replace("10000", "1000"))
        for words in ((), ("--quantum", "7"), ("--all",), ("--windows", "2K/4K")):
            with self.subTest(words):
                whole, found = self.both(*words, program)
                self.same(whole, found)
                self.assertLess(found["recorded_accesses"], whole["recorded_accesses"])
                self.assertEqual(found["objects"][0]["name"], "hits")
        # (the call that records says nothing of it, but for the words)
        self.assertNotIn("note", found["screen"])
        first = [own["objects"][0] for own in (whole, found)]
        self.assertEqual(*(it["tried"] for it in first))

    def test_what_is_usual(self):
        """Without an option the trace is filtered, and so is the one that is kept."""
        with open(os.path.join(HERE, "..", "..", "examples", "hits.c"), encoding="utf-8") as file:
            program = self.compile("hits", file.read().replace("10000", "1000"))
        whole, found = (self.found("native", *it, program) for it in (("--whole",), ()))
        self.same(whole, found)
        self.assertEqual((whole["filtered"], found["filtered"]), (None, 4096))
        # (a part of the run, and what needs all accesses)
        found = self.found("native", "--skip", "2K", "--for", "2K", program)
        self.assertEqual((found["filtered"], found["accesses"]), (4096, 2000))
        found = self.found("native", "--set", "tracking=2", program)
        self.assertEqual(found["filtered"], None)
        found = self.found("native", "--trace", self.path("trace"), program)
        again = self.found("replay", self.path("trace"))
        self.same(found, again)
        self.assertEqual(read_filter(self.path("trace")).whole, found["accesses"])

    def test_bytes_of_words(self):
        """Where threads use different bytes of a word, the program is recorded again with all accesses, if it may be run again."""
        program = self.compile("bytes", BYTES)
        whole = self.found("native", "--whole", program)
        self.assertGreater(whole["total"]["false_sharing"], 20)
        found = self.found("native", "--fine", program)
        self.same(whole, found)
        self.assertEqual(found["filtered"], None)
        fix = "give each element of hits its own line"
        for own in (whole, found):
            self.assertIn(fix, own["objects"][0]["fix"])
        for words in ((), ("--filtered", "--fine"), ("--fine", "--trace", self.path("trace"))):
            found = self.found("native", *words, program)
            self.assertEqual(found["filtered"], 4096)
            self.assertLess(found["total"]["false_sharing"], 5, words)
            self.assertIn("on 1 lines, whose misses are counted by words", found["screen"])
            fixes = {it["name"]: it["fix"] for it in found["objects"]}
            self.assertIn("unknown: threads may use different bytes of hits", fixes["hits"])

    def test_separated_words_from_far_apart(self):
        """What separating all words comes to is known where they are blocks from all over the heap."""
        found = self.both(self.compile("nodes", NODES))
        self.same(*found)
        fixes = [[it["fix"] for it in own["objects"]] for own in found]
        self.assertEqual(*fixes)
        for own in found:
            self.assertNotIn(FAR_LAYOUTS, own["screen"])

    def test_a_smaller_range(self):
        program = self.compile("far", FAR)
        whole, found = (self.found("native", it, program) for it in ("--whole", "--filtered=128"))
        self.same(whole, found)
        self.assertEqual(found["filtered"], 128)

    def test_far_data(self):
        whole, found = self.both("--quantum", "20", self.compile("far", FAR))
        self.same(whole, found)
        fixes = [
            {it["name"]: (it["fix"], it["tried"]) for it in own["objects"]}
            for own in (whole, found)
        ]
        self.assertTrue(fixes[0]["all"][1])
        self.assertEqual(fixes[0]["all"], fixes[1]["all"])
        self.assertEqual(
            (FAR_LAYOUTS in whole["screen"], FAR_LAYOUTS in found["screen"]), (False, True)
        )
        # (both fixes together: what is far stays apart)
        together = r"all fixes together: misses \S+ → \S+ \(false \S+ → \S+ true"
        self.assertEqual(*(re.findall(together, own["screen"]) for own in (whole, found)))
        self.assertRegex(found["screen"], together)


if __name__ == "__main__":
    unittest.main()
