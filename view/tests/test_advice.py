"""The advice on an object, and on a run that ended with a fault."""

import io
import os
import sys
import unittest
from types import SimpleNamespace

HERE = os.path.dirname(os.path.abspath(__file__))
sys.path[:0] = [os.path.join(HERE, "..", ".."), os.path.join(HERE, "..", "..", "tools")]

from view.repairs import advice  # noqa: E402
from calling import built  # noqa: E402
from view.names.fields import Program  # noqa: E402
from judge_report import Access, Case, Ending, trace_bytes  # noqa: E402
from view.model.object_keys import SymbolKey  # noqa: E402
from view.names.naming import Memory, WordKind  # noqa: E402
from view.model.objects import ObjectLine, DataObject, WordUse  # noqa: E402
from view.model.stack_overflow import find_overflow  # noqa: E402
from view.reading.reports import Symbol  # noqa: E402
from view.output.screen import Paint, screen  # noqa: E402
from small_reports import ALIGNED, view_of, word  # noqa: E402

LOCK = SymbolKey("symbol", "lock", 0x1000)


def used(name, at, useful, kind=WordKind(True, False), hart="many"):
    """A word of the object `lock` that threads use."""
    owner = "several threads" if hart == "many" else f"hart {hart}"
    own = (name, "", name, LOCK, 0x1000, 100, 100, hart, useful, kind, owner)
    return WordUse(0x1000 + at, 0x1000, *own)


class Advised(unittest.TestCase):
    def make_object(self, useless, useful):
        obj = DataObject(LOCK, Symbol("lock", 0x1000, 64))
        obj.name, obj.useless, obj.useful = "lock", useless, useful
        obj.lines.append(ObjectLine(0x1000, None, SimpleNamespace(useless=useless, useful=useful)))
        return obj

    def todo(self, *words, useless=0, useful=300, turns=100):
        return advice.sentence(
            self.make_object(useless, useful), words, {}, 64, True, lambda _: "", turns
        )

    def test_several_fields_in_a_word(self):
        state, flags = used("lock.state", 0, 200), used(
            "lock.ready, .done", 4, 40, WordKind(True, True)
        )
        for turns in (1, 3, 100):
            for useless, useful in ((0, 300), (100, 300), (300, 20)):
                sentence = self.todo(state, flags, useless=useless, useful=useful, turns=turns)
                self.assertIn(
                    "several fields or elements lie in one word of lock.ready, .done", sentence
                )
                self.assertNotIn("padding", sentence)
            self.assertIn(
                "several fields or elements lie in one word: where", self.todo(flags, turns=turns)
            )
        self.assertIn("padding doesn't help", self.todo(state))
        # (what isn't known of memory without a type)
        self.assertIn(
            "padding helps only where threads use different bytes of a word",
            self.todo(used("lock+8", 8, 200, WordKind(False, False))),
        )

    def test_a_field_of_eight_bytes_is_one(self):
        words = [
            used("lock.sum", 0, 90),
            used("lock.sum+4", 4, 90),
            used("lock.own", 8, 0, hart="1"),
            used("lock.own+4", 12, 0, hart="1"),
        ]
        sentence = self.todo(*words, useless=200, useful=90)
        self.assertIn(
            "after the first field of each: lock.sum (several threads); lock.own (hart 1)", sentence
        )
        self.assertNotIn("+4", sentence)
        self.assertIn(
            "lock.sum: true sharing (300 of 300 misses): write less", self.todo(*words[:2])
        )
        # (each load brings both of its words)
        self.assertNotIn("more misses", self.todo(*words[:2], useful=90))
        self.assertIn(
            "a separate line per word would cost 90 more misses",
            self.todo(words[0], used("lock.other", 8, 90), useful=90),
        )

    def test_words_of_a_stack(self):
        rows = [
            "line observed 0x0100ffc0 64 start 0 count 300 verdict true",
            word(0x100FFC0, 5, 50, "many"),
        ]
        # (without debug information and with it)
        for program in (None, Program(built("odd.elf"))):
            view = view_of(rows, memory=Memory((0xF90000, 0x1010000), 8), program=program)
            (use,) = view.details(view.objects[0]).words
            self.assertEqual(
                (use.name, use.kind),
                ("0x0100ffc0, 64 bytes below its top", WordKind(False, False)),
            )
            self.assertNotIn("several fields", view.details(view.objects[0]).fix)

    def test_all_groups_are_listed(self):
        shared = [used(f"lock.{it}", 4 * at, 90) for at, it in enumerate("abcdefg")]
        read = [
            used(name, at, 0)._replace(reads=900, writes=writes)
            for name, at, writes in (("lock.room", 28, 0), ("lock.size", 32, 3))
        ]
        sentence = self.todo(*shared, *read, useless=200, useful=90)
        self.assertIn(
            "lock.f (several threads); lock.g (several threads); lock.size and lock.room (read-only)",
            sentence,
        )
        self.assertNotIn(" more;", sentence)
        # (read-only words conflict with nothing)
        self.assertIn(
            f"start lock on its own line: {ALIGNED} after its name", self.todo(*read, useless=200)
        )

    def test_words_without_names_are_not_all_listed(self):
        sentence = self.todo(
            *[used(f"0x{4096 + 4 * at:08x}", 4 * at, 90) for at in range(9)], useless=200, useful=90
        )
        self.assertIn("0x0000100c (several threads); and 5 more groups", sentence)
        self.assertNotIn("0x00001010", sentence.partition("separate these groups")[2])

    def test_an_object_that_fights_with_itself_and_others(self):
        words = [
            used("lock.a", 0, 90),
            used("lock.b", 4, 90),
            used("near", 8, 0, hart="1")._replace(key=SymbolKey("symbol", "near", 8)),
        ]
        obj = self.make_object(200, 90)
        sentence = advice.sentence(obj, words, {words[2].key: "near"}, 64, True, lambda _: "")
        self.assertIn(
            f"lock and near share lines: put {ALIGNED} after each name, and separate these groups",
            sentence,
        )
        self.assertIn("lock.a (several threads); lock.b (several threads)", sentence)
        self.assertNotIn(
            "separate these groups",
            advice.sentence(obj, words[1:], {words[2].key: "near"}, 64, True, lambda _: ""),
        )


class Faults(unittest.TestCase):
    def test_a_misaligned_access_has_advice(self):
        view = view_of(
            [
                "line observed 0x00001000 64 start 0 count 300 verdict true",
                "object symbol a 0x00001000 4",
                word(0x1000, 5, 50, "many"),
            ]
        )
        for cause, expected in (
            ("load-misaligned", "`memcpy`"),
            ("store-misaligned", "`memcpy`"),
            ("load-outside", "the report covers the run up to that point"),
        ):
            view.report.outcome = f"trap hart 0 pc 0x00010000 {cause}"
            self.assertIn(expected, "\n".join(screen(view, Paint(io.StringIO()))))

    def test_a_trap_where_no_code_is(self):
        view = view_of([])
        view.naming.sources = SimpleNamespace(
            code=[(0x10000, 0x11000)],
            place=lambda _: None,
            near=lambda _: None,
            frames=lambda _: [],
        )
        for pc, expected in (
            (0, "the program jumped to an address without code"),
            (0x10FF0, "the report covers the run up to that point"),
            (0x11000, "`--set stack=1048576`"),
        ):
            view.report.outcome = f"trap hart 0 pc {pc:#010x} illegal"
            self.assertIn(expected, "\n".join(screen(view, Paint(io.StringIO()))))

    def overflow(self, *accesses):
        """The sentence on the stacks of harts that made some accesses."""
        case = Case(
            [Access(*it, 4) for it in accesses],
            [],
            Ending("exit 0", 9, (0, 0, 0, 0)),
            8,
            16,
            64,
            100,
            64,
            None,
        )
        found = find_overflow(trace_bytes(case), Memory((0xF90000, 0x1010000), 8))
        return found and found.sentence()

    def test_a_stack_that_is_too_small(self):
        down = [(1, True, at) for at in range(0xFFFFF0, 0xFFFFF0 - 0x18000, -32)]
        self.assertIn(
            "hart 1 overflowed its stack of 65,536 bytes: it wrote 98,288 bytes below the top",
            self.overflow(*down),
        )
        self.assertIn(
            "use `--set stack=131072`, unless it recurses without end", self.overflow(*down)
        )
        deep = [(7, True, at) for at in range(0xF9FFF0, 0xF9FFF0 - 0x200000, -1024)]
        self.assertIn("hart 7 overflowed its stack of 65,536 bytes", self.overflow(*deep))
        self.assertIn("exceed the largest stack, 1,048,576 bytes", self.overflow(*deep))
        # What a hart reads there, or writes far from its stack, is data of others.
        self.assertIsNone(self.overflow(*((hart, False, at) for hart, _, at in down)))
        self.assertIsNone(self.overflow(*((1, True, at) for at in range(0xF80000, 0xF90000, 32))))
        self.assertIsNone(self.overflow(*down[: 0x10000 // 32]))


if __name__ == "__main__":
    unittest.main()
