"""Lines grouped by objects: which object a line goes to, the order of the rows, and what is folded."""

import io
import os
import sys
import unittest
from types import SimpleNamespace

HERE = os.path.dirname(os.path.abspath(__file__))
sys.path[:0] = [os.path.join(HERE, "..", ".."), os.path.join(HERE, "..", "..", "tools")]

from view.model import foreign_objects  # noqa: E402
from view.reading.calls import Call  # noqa: E402
from view.model.view import ObjectDetails, View  # noqa: E402
from view.names.naming import Naming  # noqa: E402
from view.model.objects import word_holder  # noqa: E402
from view.reading.reports import Block, Misses, InstructionPair, Report, Symbol  # noqa: E402
from view.output.screen import Paint, screen  # noqa: E402
from small_reports import ALIGNED, HEAD, view_of, word  # noqa: E402


class Objects(unittest.TestCase):
    def test_an_object_that_no_access_touches_is_not_named(self):
        head, near = (
            "line observed 0x00002000 64 start 0 count 300 verdict false",
            "object symbol near 0x00001ff0 24",
        )
        for at, names in (
            (0x2008, ["memory at 0x00002000"]),
            (0x2004, ["near"]),
            (0x2000, ["near"]),
        ):
            self.assertEqual(
                [it.name for it in view_of([head, near, word(at, 5, 50, "hart 1")]).objects], names
            )
        # (it is on the line before too, and there it is touched)
        other = "line observed 0x00001fc0 64 start 0 count 900 verdict false"
        rows = [
            other,
            near,
            word(0x1FF0, 5, 50, "hart 1"),
            head,
            near,
            word(0x2008, 5, 50, "hart 1"),
        ]
        self.assertEqual(
            [it.name for it in view_of(rows).objects], ["near", "memory at 0x00002000"]
        )
        # (a line without words is what it lies on)
        self.assertEqual([it.name for it in view_of([head, near]).objects], ["near"])

    def test_a_line_of_two_variables_is_listed_once(self):
        rows = [
            "line observed 0x00001000 64 start 0 count 200 verdict false",
            "object symbol head 0x00001000 4",
            "object symbol tail 0x00001004 4",
        ]
        view = view_of([*rows, word(0x1000, 1, 50, "hart 0"), word(0x1004, 9, 80, "hart 1")])
        (obj,) = view.objects
        self.assertEqual(
            (obj.name, obj.count, [view.name_of(it) for it in obj.neighbours]),
            ("tail", 200, ["head"]),
        )
        self.assertEqual(
            view.details(obj).fix,
            f"tail and head share lines: put {ALIGNED} after each name",
        )
        self.assertIn("head", view.names_of(obj))

    def test_lines_that_only_have_misses_count(self):
        rows = [
            "line observed 0x00001000 64 start 0 count 200 verdict false",
            "object symbol a 0x00001000 64",
            word(0x1000, 1, 50, "hart 0"),
        ]
        counted = "misses 64 0\naccesses 900\nlines 2\n"
        counted += "line 0x00001040 cold 2 useful 1 useless 500\nobject symbol b 0x00001040 64\n"
        counted += "line 0x00001000 cold 2 useful 0 useless 300\nobject symbol a 0x00001000 64\n"
        view = view_of(rows, counted + "total cold 4 useful 1 useless 800\nend\n")
        self.assertEqual(
            [(it.name, it.useless, it.useful, it.count) for it in view.objects],
            [("b", 500, 1, 0), ("a", 300, 0, 200)],
        )

    def test_rows_are_in_the_order_of_their_numbers(self):
        counted = "misses 64 0\naccesses 900\nlines 3\n"
        counted += "line 0x00001040 cold 2 useful 9 useless 300\nobject symbol a 0x00001040 64\n"
        counted += "line 0x00001080 cold 2 useful 99 useless 300\nobject symbol c 0x00001080 64\n"
        counted += "line 0x00001000 cold 2 useful 1 useless 500\nobject symbol b 0x00001000 64\n"
        counted += "total cold 6 useful 109 useless 1100\nend\n"
        self.assertEqual([it.name for it in view_of([], counted).objects], ["b", "c", "a"])

    def test_what_the_c_library_has_is_one_row(self):
        rows = []
        for at, own in enumerate(("__malloc_lock", "queue", "_Impure", "_mine")):
            base = 0x1000 + 64 * at
            rows += [
                f"line observed 0x{base:08x} 64 start 0 count {300 + at} verdict true",
                f"object symbol {own} 0x{base:08x} 4",
            ]
            rows += [word(base, 5, 50, "many")]
        view = view_of(rows)
        self.assertEqual(view.folded_objects(), [])
        view.naming.program = SimpleNamespace(
            dwarf=1, variable=lambda _: None, declaration=lambda _: None
        )
        view.rank_objects()
        self.assertEqual([it.name for it in view.listed_objects()], ["_mine", "queue"])
        (shown,) = [it for it in screen(view, Paint(io.StringIO())) if "library" in it]
        self.assertEqual(
            shown.split(), "602 2 2 objects of the C library (--library shows them)".split()
        )
        for option in ({"library": ""}, {"object": "__malloc_lock"}):
            view.call.options.update(option)
            self.assertEqual(view.folded_objects(), [])
            view.call.options = {"type": []}

    def test_files_of_the_c_library(self):
        for path in (
            "/usr/lib/x86_64-linux-gnu/libc.so.6",
            "/lib64/ld-linux-x86-64.so.2",
            "[vdso]",
            "libpthread-2.36.so",
        ):
            self.assertTrue(foreign_objects.LIBRARIES.search(path), path)
        for path in ("/usr/lib/libcap.so.2", "/home/me/libc/queue", "/usr/lib/libstdc++.so.6"):
            self.assertFalse(foreign_objects.LIBRARIES.search(path), path)
        self.assertTrue(foreign_objects.KIT.search("/opt/predator/guest/clib/heap.c"))
        self.assertTrue(foreign_objects.KIT.search("guest/pthread/pthread_mutex.c"))
        self.assertFalse(foreign_objects.KIT.search("guest/examples/queue.c"))

    def test_the_pair_that_takes_most_for_nothing_is_first(self):
        pairs = [
            InstructionPair(1, 2, 90, 90),
            InstructionPair(3, 4, 50, 10),
            InstructionPair(5, 6, 45, 4),
            InstructionPair(7, 8, 40, 10),
        ]
        seen = ObjectDetails(None, [], SimpleNamespace(pairs=pairs), "", "", None)
        self.assertEqual([it.victim for it in seen.conflicts()], [5, 3, 7, 1])
        self.assertEqual(seen.worst_conflict().victim, 5)
        self.assertIsNone(ObjectDetails(None, [], None, "", "", None).worst_conflict())

    def test_words_of_lines_that_are_not_listed(self):
        counted = "misses 64 0\naccesses 900\nlines 1\nline 0x00001000 cold 2 useful 1 useless 500\nobject symbol a 0x00001000 8\n"
        counted += "object symbol b 0x00001008 8\ntotal cold 2 useful 1 useless 500\nend\n"
        self.assertEqual(view_of([], counted).details(view_of([], counted).objects[0]).words, [])
        words = [word(0x1000, 9, 1, "hart 0"), word(0x1008, 30, 40, "hart 1")]
        each = [
            "line observed 0x00001000 64 start 3 count 40 verdict false",
            "object symbol a 0x00001000 8",
            "object symbol b 0x00001008 8",
            *words,
        ]
        view = view_of([], counted, each=each)
        (obj,) = view.objects
        self.assertEqual((obj.name, obj.count, obj.useless), ("b", 0, 500))
        self.assertEqual(
            [(it.name, it.reads, it.writes, it.hart) for it in view.details(obj).words],
            [("a", 9, 1, "0"), ("b", 30, 40, "1")],
        )
        expected = (
            f"b and a share lines: put {ALIGNED} after each name; saves up to 500 of 501 misses"
        )
        self.assertEqual(view.details(obj).fix, expected)
        self.assertEqual((view.invalidations(obj), obj.count), (40, 0))

    def test_one_row_for_a_call_site_that_makes_and_frees(self):
        rows = []
        for at in range(40):
            rows += [
                f"line observed 0x{0x2000 + 64 * at:08x} 64 start 0 count {300 - at} verdict false"
            ]
            for born in range(0, 900, 30):
                rows += [
                    f"object block 0x{0x2000 + 64 * at:08x} 64 born {born} died {born + 29}",
                    "site 0x00000100 malloc",
                    "site 0x00000200 make",
                ]
            rows += [word(0x2000 + 64 * at, 5, 50, "many")]
        view = view_of(rows)
        (obj,) = view.objects
        self.assertEqual(
            (obj.name, len(obj.lines), len(obj.block_ids), obj.count),
            ("block made in make", 40, 1200, 40 * 300 - 780),
        )
        (shown,) = [it for it in screen(view, Paint(io.StringIO())) if "blocks)" in it]
        self.assertEqual(shown.split(), "1 11,220 40 block made in make (1,200 blocks)".split())

    def test_what_is_folded_is_found_once(self):
        rows = [
            f"line observed {base:#010x} 64 start 0 count 9 verdict false"
            for base in range(0x1000, 0x9000, 0x1000)
        ]
        view, calls = view_of(rows), []
        view.runtime_keys, folded = {view.objects[1].key, view.objects[4].key}, view.folded_objects
        view.folded_objects = lambda: calls.append(1) or folded()
        self.assertEqual(
            view.listed_objects(), [it for at, it in enumerate(view.objects) if at not in (1, 4)]
        )
        self.assertEqual(len(calls), 1)

    def test_true_sharing_below_the_first_rows_is_noted(self):
        def true_sharing_notes(*useful):
            rows, lines = [], []
            for at, needed in zip(range(0x1000, 0x2000, 0x40), useful):
                own = f"object symbol v{at:x} {at:#010x} 4"
                rows += [
                    f"line observed {at:#010x} 64 start 0 count {9000 - at} verdict false",
                    own,
                    word(at, 5, 50, "many"),
                ]
                lines.append(f"line {at:#010x} cold 2 useful {needed} useless {9000 - at}\n{own}\n")
            useless = sum(9000 - 0x1000 - 0x40 * it for it in range(len(useful)))
            total = f"total cold {2 * len(useful)} useful {sum(useful)} useless {useless}"
            misses = (
                f"misses 64 0\naccesses 900\nlines {len(lines)}\n{''.join(lines)}{total}\nend\n"
            )
            text = "\n".join(screen(view_of(rows, misses), Paint(io.StringIO())))
            return [
                " ".join(note.split())
                for note in text.split("note: ")
                if "true sharing of one object" in note
            ]

        four = 9000 * 4 - 0x1000 * 4 - 0x40 * 6
        self.assertTrue(
            true_sharing_notes(0, 0, 0, four + 1)[0].startswith(
                f"{four + 1:,} of all {2 * four + 1:,} sharing misses are true sharing of one object"
            )
        )
        self.assertIn("in row 4: v10c0", true_sharing_notes(0, 0, 0, four + 1)[0])
        self.assertEqual(true_sharing_notes(0, 0, 0, four), [])
        self.assertEqual(true_sharing_notes(0, 0, four + 1, 0), [])
        self.assertEqual(true_sharing_notes(), [])

    def test_of_a_clean_trace_all_is_to_be_left(self):
        rows = [
            "line observed 0x00001000 64 start 0 count 2 verdict false",
            "object symbol a 0x00001000 8",
            word(0x1000, 5, 50, "many"),
        ]
        line = "line 0x00001000 cold 2 useful 0 useless 9\nobject symbol a 0x00001000 8\n"
        for accesses, is_clean in ((90_001, True), (90_000, False)):
            head = HEAD.replace("steps 9", "steps 0").replace("900", str(accesses))
            report = Report("\n".join([head + "lines 1", *rows, "end", ""]))
            view = View(Call(["replay", "t"]), report, Naming(report))
            view.misses = Misses(
                f"misses 64 0\naccesses {accesses}\nlines 1\n{line}total cold 2 useful 0 useless 9\nend\n"
            )
            view.group_by_objects()
            self.assertEqual(
                "no change is worth it: fewer than one in 10,000 accesses is a sharing miss"
                in "\n".join(screen(view, Paint(io.StringIO()))),
                is_clean,
            )
            self.assertEqual(
                view.details(view.objects[0]).fix
                == "not worth a change: 9 of all 9 sharing misses",
                is_clean,
            )

    def test_large_numbers_stand_apart(self):
        rows = [
            "line observed 0x00001000 64 start 0 count 123456789012 verdict true",
            "object symbol lock 0x00001000 4",
            word(0x1000, 5, 50, "many"),
        ]
        self.assertIn(" 123,456,789,012 ", "\n".join(screen(view_of(rows), Paint(io.StringIO()))))

    def test_blocks_of_one_call_site_are_one_object(self):
        rows = ["line observed 0x00002000 64 start 0 count 300 verdict false"]
        for at in range(0x2000, 0x2040, 16):
            rows += [
                f"object block 0x{at:08x} 16 born 1 live",
                "site 0x00000100 malloc",
                "site 0x00000200 make",
                "site 0x00000300 _start",
            ]
        rows += [word(at, 5, 50, f"hart {at // 16 % 4}") for at in range(0x2000, 0x2040, 16)]
        (obj,) = view_of(rows).objects
        self.assertEqual((obj.name, len(obj.block_ids)), ("block made in make", 4))

    def test_the_small_and_the_long_lived_block_has_the_word(self):
        arena, node = Block(0x1000, 4096, 0, None, ()), Block(0x1010, 16, 5, 900, ())
        self.assertEqual(word_holder([arena, node], 0x1014), node)
        self.assertEqual(word_holder([arena, node], 0x1020), arena)
        short = Block(0x1010, 16, 1, 4, ())
        self.assertEqual(word_holder([Symbol("heap", 0x1000, 4096), short, node], 0x1010), node)
        self.assertIsNone(word_holder([node], 0x2000))

    def test_of_blocks_at_one_place_the_one_that_lives_longest_has_the_word(self):
        dead, alive = Block(0x1000, 1000, 0, 1000, ()), Block(0x1000, 1000, 1000, None, ())
        self.assertEqual(word_holder([dead, alive], 0x1040, 160000), alive)
        self.assertEqual(word_holder([dead, alive], 0x1040, 1500), dead)


if __name__ == "__main__":
    unittest.main()
