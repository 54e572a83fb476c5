"""Repairs that are tried before they are named: whose words are, where they would lie, and the fix as a sentence."""

import contextlib
import importlib.util
import io
import os
import re
import shutil
import subprocess
import sys
import tempfile
import unittest
from types import SimpleNamespace
from unittest import mock

from calling import HERE, PROGRAM, STAND_IN, TURNS, built, has, joined, view

sys.path[:0] = [os.path.join(HERE, "..", ".."), os.path.join(HERE, "..", "..", "tools")]

from view import main  # noqa: E402
from view.repairs import patches  # noqa: E402
from view.reading.trace_prefix import trace_accesses, write_prefix  # noqa: E402
from view.names.fields import Program  # noqa: E402
from judge_report import Access, Case, Ending, trace_bytes  # noqa: E402
from view.repairs.layouts import (  # noqa: E402
    LayoutChange,
    MovedRange,
    Shape,
    Unmovable,
    arrays_in,
    to_whole_words,
    lay_out,
    record_members,
)
from view.repairs.repair import Repair  # noqa: E402
from view.reading.trace_files import WordUses  # noqa: E402
from view.repairs.subjects import UNUSED, Sharing, sharing_of  # noqa: E402
from traces import Access as Accessed  # noqa: E402
from traces import Alloc, Symbol, located_records, read_records, add_pcs  # noqa: E402
from view.repairs.trial_results import TrialCount, Trial  # noqa: E402
from view.repairs.trials import (  # noqa: E402
    free_places,
    join_repairs,
    move_table,
    note_same_repairs,
)


class Folder(unittest.TestCase):
    def setUp(self):
        self.folder = tempfile.mkdtemp()
        self.addCleanup(shutil.rmtree, self.folder)

    def path(self, name, text=None):
        path = os.path.join(self.folder, name)
        if text is not None:
            with open(path, "wb" if isinstance(text, bytes) else "w") as file:
                file.write(text)
        return path

    def uses(self, *accesses, others=()):
        case = Case(
            [Access(*it) for it in accesses],
            list(others),
            Ending("exit 0", 9, (0, 0, 0, 0)),
            8,
            16,
            64,
            100,
            64,
            None,
        )
        return WordUses(self.path("trace", trace_bytes(case)))


W, R = True, False


class Used(Folder):
    def test_only_what_is_done_while_threads_run_counts(self):
        before, after = [(0, W, 0x1000, 4)] * 50, [(0, R, 0x1000, 4)] * 50
        uses = self.uses(
            *before,
            (1, W, 0x1000, 4),
            (1, R, 0x1000, 4),
            (0, W, 0x2000, 4),
            (1, W, 0x1000, 4),
            *after,
        )
        self.assertEqual(
            {hart: tuple(it) for hart, it in uses.users_of(0x1000).items()}, {1: (1, 2, 15)}
        )
        self.assertEqual(list(uses.users_of(0x2000)), [0])
        self.assertEqual(sharing_of(uses, 0x1000, 4), Sharing("own", frozenset({1})))
        self.assertEqual(sharing_of(uses, 0x3000, 64), UNUSED)

    def test_one_hart_alone_is_no_thread(self):
        self.assertEqual(self.uses(*[(0, W, 0x1000, 4)] * 9).kinds, {})

    def test_other_records_lie_between(self):
        sites = (0x100, 0, 0, 0)
        others = [
            (0, Symbol(1, 0x1000, 64, b"name")),
            (2, Alloc(0x2000, 16, sites)),
            (70, Alloc(0x3000, 16, sites)),
        ]
        uses = self.uses(*([(0, W, 0x1000, 4), (1, R, 0x1004, 4)] * 100), others=others)
        self.assertEqual(
            (uses.users_of(0x1000)[0].writes, uses.users_of(0x1004)[1].reads), (99, 100)
        )

    def test_a_look_is_no_use(self):
        uses = self.uses((1, W, 0x1000, 4), *[(2, R, 0x1000, 4)] * 300, *[(3, R, 0x1000, 4)] * 300)
        self.assertEqual(sharing_of(uses, 0x1000, 4), Sharing("read", frozenset()))
        uses = self.uses(*[(1, W, 0x1000, 4), (2, R, 0x1000, 4)] * 40)
        self.assertEqual(sharing_of(uses, 0x1000, 4), Sharing("shared", frozenset({1})))

    def test_the_front_of_a_long_trace(self):
        accesses = [(0, W, 0x2000, 4)] * 9 + [(1, W, 0x1000, 4), (2, W, 0x1004, 4)] * 200
        with mock.patch.multiple("view.reading.trace_files", PART=16, FEW=4, MANY=4):
            front = self.uses(*accesses).front
            self.assertEqual(self.uses(*accesses[:40]).front, b"")
        self.assertEqual(self.uses(*accesses).front, b"")
        own = list(read_records(front))
        self.assertEqual(
            own, [(hart, addr, writes) for hart, writes, addr, _ in accesses[: len(own)]]
        )
        self.assertTrue(25 <= len(own) < 40)
        self.assertEqual(
            (front[-25], front[-24], int.from_bytes(front[-8:], "little")), (6, 4, len(own))
        )

    def test_bytes_of_a_word(self):
        uses = self.uses(
            *[(1, W, 0x1000, 1), (2, W, 0x1001, 1), (1, W, 0x1004, 4), (2, W, 0x1004, 4)] * 9
        )
        self.assertEqual([uses.is_mixed(it) for it in (0x1000, 0x1004)], [True, False])

    def test_free_places(self):
        self.assertEqual(
            list(free_places([0x1000, 0x12FFC], 64)),
            [0xC0000000, 0x80000000, 0x40000000, 0x13000, 0],
        )
        self.assertEqual(
            list(free_places([0, 0x5000, 0x40000FFC, 0x80000000, 0xC0001000, 0xFFFFFFFC], 0x4000)),
            [0x1000],
        )
        self.assertEqual(list(free_places(range(0, 1 << 32, 4096), 4096)), [])
        self.assertEqual(
            move_table([MovedRange(8, 4, 64), MovedRange(4, 4, 0)], 0x1000),
            "0x4 4 0x1000\n0x8 4 0x1040\n",
        )


class Cut(Folder):
    def test_the_first_part_of_a_trace(self):
        accesses = [
            Access(number % 3, bool(number % 2), 0x1000 + 4 * (number * number % 999), 4)
            for number in range(5000)
        ]
        others = [
            (0, Symbol(1, 0x1000, 64, b"n\x11\x24")),
            *((at, Alloc(at * 16, 16, (at, 0, 0, 0))) for at in (0x811, 0xF21)),
        ]
        first = trace_bytes(
            Case(accesses, others, Ending("exit 0", 9, (0, 0, 0, 0)), 8, 16, 64, 100, 64, None)
        )
        third = add_pcs(first, lambda access, before: (before * 5 + access.addr) % 2**32)
        for trace in (first, third):
            path, out = self.path("whole", trace), self.path("part")
            self.assertEqual(trace_accesses(path), 5000)
            for most in (1, 1024, 2000, 9999):
                found = write_prefix(path, most, out)
                self.assertTrue(min(most, 5000) <= found <= min(most + 1024, 5000))
                with open(out, "rb") as file:
                    own = file.read()
                moved, whole = list(located_records(own)), list(located_records(trace))
                self.assertEqual(moved, whole[: len(moved)])
                self.assertEqual(sum(isinstance(it, Accessed) for *_, it in moved), found)
                self.assertEqual(own[-25:-8], b"\6\4" + bytes(15))
                self.assertEqual(trace_accesses(out), found)
        self.assertEqual(trace_accesses(self.path("none", b"PRDTRC01")), 0)

    @unittest.skipUnless(has(PROGRAM, "misses", "move"), "the program isn't built, or has no move")
    def test_a_screen_of_a_long_trace(self):
        """Of the first part of a trace that is taken for a long one the misses before and after are those that the program counts."""
        trace, part = self.path("trace"), self.path("part")
        subprocess.run(
            [PROGRAM, "run", built("ring.elf"), *TURNS, "--trace", trace],
            capture_output=True,
            check=True,
        )
        text = io.StringIO()
        words = [
            "replay",
            trace,
            "--program",
            built("ring.elf"),
            "--sources",
            os.path.join(HERE, "programs"),
        ]
        own = {"PREDATOR_PROGRAM": PROGRAM, "PREDATOR_BUILD": "no"}
        with mock.patch("view.reading.passes.LONG_TRACE_ACCESSES", 1000), mock.patch.multiple(
            "view.repairs.trials", PART_ACCESSES=900, FRONT_ACCESSES=500
        ), mock.patch.dict(os.environ, own):
            with contextlib.redirect_stdout(text):
                self.assertEqual(main.main(words), 0)
        shown = joined(text.getvalue())
        found = re.search(
            r"tried misses \d+ → \d+ \(false (\d+) → (\d+), true (\d+) → \d+, cold \d+ → \d+\),"
            r" 64 → 256 bytes \(first (\d+(?:,\d+)?) accesses\)",
            shown,
        )
        useless, after, useful, accesses = (int(it.replace(",", "")) for it in found.groups())
        self.assertEqual(write_prefix(trace, accesses, part), accesses)
        total = subprocess.run(
            [PROGRAM, "misses", part], capture_output=True, text=True, check=True
        ).stdout
        self.assertIn(f" useful {useful} useless {useless}\n", total)
        self.assertTrue(1000 < accesses < 2111 and after < useless / 5, shown)
        said = "note: the trace is long: fixes were tried on its first part, predicted lines weren't counted; --words does both in full "
        said += "note: the trace is long and has no program counters: --explain N finds the instructions of N objects, with a run each "
        self.assertIn(said, shown)


SOURCE = """#include <stdint.h>
union value { uint64_t whole; uint32_t half[2]; };
struct inner { char tag; uint32_t count; };
struct all {
    uint32_t first;
    union value value; // what is kept
    /* a number */
    uint64_t sum;
    struct inner inner[3];
    void *next;
    char marks[4];
    uint32_t last;
};
struct all all[4];
int32_t grid[6][21];
struct odd { unsigned a : 3, b : 5; };
struct odd odd;
int main(void) { return all[0].first + grid[0][0] + odd.a; }
"""


@unittest.skipUnless(
    shutil.which("clang") and shutil.which("llvm-dwarfdump"), "clang or llvm isn't installed"
)
class LaidOut(Folder):
    def program(self, text):
        source, out = self.path("all.c", text), self.path("all")
        subprocess.run(["clang", "-g", "-gdwarf-4", "-O0", source, "-o", out], check=True)
        return Program(out)

    def test_as_the_compiler_lays_it_out(self):
        shape = Shape(self.program(SOURCE).type_named("struct all"))
        record = shape.record()
        members = {it.name: it for it in record_members(record)}
        # (a number of eight bytes is one field, and so is a union)
        self.assertEqual([*members], ["first", "value", "sum", "inner", "next", "marks", "last"])
        groups = [
            [members[it] for it in own]
            for own in (("sum", "first"), ("inner", "value", "marks"), ("next", "last"))
        ]
        change = LayoutChange(64)
        change.grouped_fields[record.offset] = groups
        found = lay_out(shape, change)
        place = SimpleNamespace(file=self.path("all.c"), line=4)
        edits = [patches.OrderFields(place, "all", groups, 64)]
        ((_, (_, text)),) = patches.apply_edits(edits, patches.read_source).items()
        after = Shape(self.program(text).type_named("struct all"))
        self.assertEqual(found.size, after.size())
        wanted = {members[it.name].begin: it.begin for it in record_members(after.record())}
        self.assertEqual({it.begin: it.to for it in found.parts if it.begin in wanted}, wanted)
        self.assertIn("/* a number */\n    uint64_t sum;\n", text)

    def test_elements_that_fill_lines(self):
        program = self.program(SOURCE)
        variable = next(it for it in self.variables(program) if it.name == "all")
        change = LayoutChange(64)
        change.aligned_records.add(Shape(program.type_named("struct all")).record().offset)
        found = lay_out(Shape(variable.type), change)
        text = SOURCE.replace("struct all {", "struct __attribute__((aligned(64))) all {")
        self.assertEqual(
            found.size,
            Shape(
                next(it for it in self.variables(self.program(text)) if it.name == "all").type
            ).size(),
        )

    def variables(self, program):
        program.scan_variables()
        return program.variables.values()

    def test_rows(self):
        program = self.program(SOURCE)
        grid = Shape(next(it for it in self.variables(program) if it.name == "grid").type)
        first = next(arrays_in(grid, [0]))
        self.assertEqual(
            (first.path, first.shape.size(), first.begins[:3]), ("[]", 84, [0, 84, 168])
        )
        change = LayoutChange(64)
        change.wrapped_arrays.add("[]")
        self.assertEqual(lay_out(grid, change).size, 6 * 128)
        self.assertIsNone(record_members(Shape(program.type_named("struct odd")).record()))

    def test_words(self):
        self.assertEqual(
            to_whole_words([MovedRange(0, 4, 64), MovedRange(4, 2, 68), MovedRange(8, 4, 0)]),
            [MovedRange(0, 8, 64), MovedRange(8, 4, 0)],
        )
        for parts in (
            [MovedRange(0, 1, 0), MovedRange(1, 1, 64)],
            [MovedRange(0, 4, 2)],
            [MovedRange(0, 2, 0), MovedRange(2, 2, 66)],
        ):
            self.assertRaises(Unmovable, to_whole_words, parts)

    def test_several_repairs(self):
        first, second = Repair([], [MovedRange(8, 8, 0), MovedRange(32, 4, 64)], 128, None), Repair(
            [], [MovedRange(0, 36, 0), MovedRange(40, 4, 64)], 128, None
        )
        parts = [
            MovedRange(0, 8, 128),
            MovedRange(8, 8, 0),
            MovedRange(16, 16, 144),
            MovedRange(32, 4, 64),
            MovedRange(40, 4, 192),
        ]
        joined = Repair([], parts, 256, None, changes=2)
        self.assertEqual(join_repairs([first, second], 64), joined)
        self.assertEqual(join_repairs([first, first], 64).parts, first.parts)


class Sentences(unittest.TestCase):
    def tried(self, useless, useful, accesses, after=None, many=1, own=None, quantum=0, apart=None):
        """The fix and what trying came to. Counts are false-sharing, true-sharing and cold misses; `apart` those of all words apart."""
        names, cold = ("useless", "useful", "cold"), 9
        before = TrialCount(dict(zip(names, (useless, useful, cold))), 9)
        found = Trial(
            SimpleNamespace(useless=useless, useful=useful, name="all"),
            before,
            accesses,
            own_misses_in_part=own,
        )
        if after:
            found.repair, found.tried_repairs = Repair(["do it"], [], 64, None, (16, 64)), many
            found.after = TrialCount(dict(zip(names, (*after, cold)[:3])), 2)
        if apart:
            found.bound = TrialCount(dict(zip(names, (*apart, cold)[:3])), 2)
        return (found.fix([], quantum), found.outcome(False)) if found.is_decisive() else None

    def test_what_was_counted(self):
        expected = (
            "misses 4,654 → 2,490 (false 2,188 → 23, true 2,457 → 2,458, cold 9 → 9), 16 → 64 bytes"
        )
        self.assertEqual(self.tried(2188, 2457, 90000, (23, 2458)), ("do it", expected))
        apart = "; separating all words by thread would leave 19 of 4,654 misses"
        self.assertEqual(
            self.tried(2188, 2457, 90000, (23, 2458), apart=(0, 10)), ("do it", expected + apart)
        )

    def test_what_was_counted_of_a_part(self):
        expected = "misses 4,654 → 2,490 (false 2,188 → 23, true 2,457 → 2,458, cold 9 → 9), 16 → 64 bytes (first 90,000 accesses)"
        self.assertEqual(self.tried(2188, 2457, 90000, (23, 2458), own=4645), ("do it", expected))
        none = "none: no layout change helps on this trace; write shared data less often"
        expected = (
            "1 layout, which saves 3 of 4,000 misses; separating all words by thread would leave"
            " 3,990 of 4,000 misses (first 90,000 accesses)"
        )
        found = self.tried(2188, 2457, 90000, (2185, 2457), own=4000, apart=(2178, 2457))
        self.assertEqual(found, (none, expected))

    def test_cold_misses_that_a_repair_adds(self):
        none = "none: no layout change helps on this trace"
        found = self.tried(500, 100, 9000, (0, 100, 609), apart=(0, 100, 800))
        expected = "1 layout, which saves 0 of 600 misses; separating all words by thread would leave all 600 misses"
        self.assertEqual(found, (none, expected))
        self.assertIsNot(self.tried(500, 100, 9000, (0, 100, 100))[0], none)

    def test_words_that_no_repair_separates(self):
        self.assertEqual(
            self.tried(958, 0, 9000, (950, 0), 3, apart=(0, 0)),
            (
                "no repair that predator can write removes them; separating all words by thread would leave 0 of 958 misses",
                "3 layouts, the best of which saves 8 of 958 misses",
            ),
        )
        fix, _ = self.tried(958, 0, 9000, (950, 0))
        self.assertEqual(
            fix,
            "unknown: no layout that was tried helps on this trace, and not all words could be separated",
        )
        self.assertEqual(
            self.tried(958, 7, 9000, apart=(0, 0))[0][:51],
            "no repair that predator can write removes them; sep",
        )

    def test_a_layout_that_saves_too_little(self):
        """It isn't called none that can be written, though all words apart would save enough."""
        fix, _ = self.tried(110, 0, 98_644, (14, 0), 2, apart=(0, 0))
        best = "the best layout saves 96 misses, fewer than one in 1,000 accesses on this trace"
        self.assertEqual(fix, f"none: {best}")

    def test_one_repair_for_several_objects(self):
        found = Trial(SimpleNamespace(useless=900, useful=10), TrialCount({}, 9), 9000)
        found.after, found.same_as = TrialCount({}, 9), SimpleNamespace(name="map")
        self.assertEqual(
            (found.fix([]), found.outcome(False)), ("see map: its fix covers this too", "")
        )

    def test_the_study_of_advice_reads_the_numbers(self):
        path = os.path.join(HERE, "..", "..", "guest", "others", "advice.py")
        found = importlib.util.spec_from_file_location("study_of_advice", path)
        study = importlib.util.module_from_spec(found)
        found.loader.exec_module(study)
        before, after = (
            TrialCount({"useless": useless, "useful": 10, "cold": 4}, 9) for useless in (1900, 0)
        )
        self.assertEqual(study.COUNTED.findall(before.beside(after)), [("1,900", "0", "10", "10")])

    def trial_of(self, name, after, ranges, *hows):
        """A trial of 1,000 misses and a repair that leaves some of them."""
        counts = {"useless": 990, "useful": 10, "cold": 0}
        found = Trial(
            SimpleNamespace(useless=500, useful=9, name=name), TrialCount(counts, 9), 9000
        )
        found.repair = Repair(list(hows), [MovedRange(*it, 0) for it in ranges], 64, None)
        found.after = TrialCount({**counts, "useless": after}, 2)
        return found

    def named(self, *found):
        note_same_repairs(found)
        return [it.same_as and it.same_as.name for it in found]

    def test_several_objects_of_one_repair(self):
        own, both = [(0x1000, 16)], [(0x1000, 16), (0x2000, 16)]
        # (the same words, so that the first row has them; a part of another one)
        pair = [self.trial_of(it, 100, own, "pad it") for it in ("first", "other")]
        self.assertEqual(self.named(*pair), [None, "first"])
        whole = self.trial_of("whole", 20, both, "pad it", "pad that")
        self.assertEqual(
            self.named(self.trial_of("part", 500, own, "pad it"), whole), ["whole", None]
        )
        # (other words for the same data: the shorter one)
        long = self.trial_of("long", 20, both, "pad each", "pad it", "pad that")
        short = self.trial_of("short", 20, both, "pad both")
        self.assertEqual(self.named(long, short), ["short", None])
        # (what moves other data, or saves less, stands for itself)
        apart = self.trial_of("apart", 500, [(0x3000, 16)], "pad those")
        worse = self.trial_of("worse", 600, [(0x3000, 16), (0x4000, 16)], "pad these")
        self.assertEqual(self.named(whole, apart), [None, None])
        self.assertEqual(self.named(worse, apart), ["apart", None])

    def test_an_object_that_threads_share_alone(self):
        """A repair of what lies beside it isn't its fix."""
        shared = self.trial_of("shared", 100, [(0x1000, 16)], "pad it")
        shared.obj.useless = 0
        self.assertFalse(shared.is_named())
        self.assertEqual(
            self.named(self.trial_of("own", 100, [(0x1000, 16)], "pad it"), shared), [None, None]
        )

    def test_the_other_way(self):
        before = TrialCount({"useless": 900, "useful": 10, "cold": 4}, 9)
        found = Trial(SimpleNamespace(useless=900, useful=10), before, 9000)
        found.repair = Repair(["do it"], [], 64, None, (16, 1024))
        found.after = TrialCount({"useless": 0, "useful": 10, "cold": 4}, 2)
        expected = "misses 914 → 14 (false 900 → 0, true 10 → 10, cold 4 → 4), 16 → 1,024 bytes"
        self.assertEqual((found.fix([]), found.outcome(False)), ("do it", expected))
        found.other_repair = Repair(["do that"], [], 0, None, (16, 16), True)
        found.other = TrialCount({"useless": 3, "useful": 10, "cold": 4}, 2)
        other = "misses 914 → 17 (false 900 → 3, true 10 → 10, cold 4 → 4)"
        self.assertEqual(found.outcome(False), f"{expected}; or do that: {other}")

    def test_bytes_of_words(self):
        before = TrialCount({"useless": 0, "useful": 900, "cold": 4}, 9)
        found = Trial(SimpleNamespace(useless=0, useful=900), before, 9000)
        found.instead = "pad it"
        expected = "pad it, then run again, because threads use different bytes of a, b and misses are counted per 4-byte word"
        self.assertEqual((found.fix(["a", "b"]), found.outcome(True)), (expected, ""))
        found.repair = Repair(["do it"], [], 64, None)
        found.after = TrialCount({"useless": 0, "useful": 10, "cold": 4}, 2)
        self.assertEqual(found.fix(["a", "b"]), f"do it; for the rest {expected}")

    def test_nothing_to_do(self):
        self.assertEqual(
            self.tried(100, 41, 22_900_000), ("none needed: 141 of 22,900,000 accesses miss", "")
        )
        self.assertEqual(
            self.tried(2188, 2187, 90000, (2185, 2187), quantum=100, apart=(2188, 2187))[0],
            "none: no layout change helps at this interleaving (quantum 100)",
        )
        self.assertEqual(
            self.tried(0, 900, 9000, (0, 990), 4, apart=(0, 900)),
            (
                "none: no layout change helps on this trace; write shared data less often",
                "4 layouts, the best of which saves 0 of 900 misses; separating all words by thread would leave all 900 misses",
            ),
        )
        self.assertIsNone(self.tried(900, 0, 9000))


class Screens(unittest.TestCase):
    def test_a_ring_with_statistics(self):
        with tempfile.TemporaryDirectory() as folder:
            words = (
                "run",
                built("ring.elf"),
                *TURNS,
                "--explain",
                "0",
                "--sources",
                os.path.join(HERE, "programs"),
            )
            patch = os.path.join(folder, "patch")
            status, text, said = view(*words, "--patch", patch, STAND_IN_HAS="move")
            self.assertEqual((status, said), (0, ""))
            text = joined(text)
            self.assertIn(
                "fix give each element of stats its own line: struct __attribute__((aligned(64))) stats (ring.c:24), "
                "16 → 64 bytes each",
                text,
            )
            self.assertIn(
                "tried misses 665 → 367 (false 342 → 44, true 314 → 314, cold 9 → 9), 64 → 256 bytes"
                " offset field written by only read by 20 [1].seen[0].high hart 1 - 28 ",
                text,
            )
            # (what it says where nothing is moved is what it says else)
            self.assertNotIn("place", text)
            self.assertNotIn("tried", view(*words)[1])
            status, _, said = view(*words, "--patch", patch)
            self.assertEqual((status, "a predator with `move`" in said), (2, True))

    def test_what_a_run_says_is_heard(self):
        says = "predator: the last thread could not start: all 8 harts are in use (setting `harts`, at most 256)\n"
        words = ("run", built("ring.elf"), *TURNS, "--explain", "0", "--fail-above", "9999")
        status, text, said = view(*words, STAND_IN_HAS="move", STAND_IN_SAYS=says)
        self.assertEqual((status, said.startswith(says), said.count(says)), (3, True, 1))
        self.assertIn(
            "note: the last thread never ran, because all 8 harts were in use: use `--set harts=16`",
            joined(text),
        )
        self.assertEqual(view(*words, STAND_IN_HAS="move", STAND_IN_PUTS="put out")[2], "put out\n")

    def test_a_trace_is_read_as_a_run_is(self):
        with tempfile.TemporaryDirectory() as folder:
            trace = os.path.join(folder, "t")
            subprocess.run(
                [STAND_IN, "run", built("shards.elf"), *TURNS, "--trace", trace],
                check=True,
                stdout=subprocess.DEVNULL,
            )
            words = ("--explain", "0")
            _, run, _ = view("run", built("shards.elf"), *TURNS, *words, STAND_IN_HAS="move")
            _, replay, _ = view(
                "replay", trace, "--program", built("shards.elf"), *words, STAND_IN_HAS="move"
            )
            (one, other) = (re.search(" fix .*", joined(it))[0] for it in (run, replay))
            self.assertEqual(one, other)
            self.assertIn("tried misses 2,153 → 6 (false 2,147 → 0, true 0 → 0, cold 6 → 6)", one)


if __name__ == "__main__":
    unittest.main()
