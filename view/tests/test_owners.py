"""The threads of an object's words, as the row `who` shows them."""

import os
import sys
import unittest
from types import SimpleNamespace

HERE = os.path.dirname(os.path.abspath(__file__))
sys.path[:0] = [os.path.join(HERE, "..", "..")]

from view.model.object_keys import SymbolKey  # noqa: E402
from view.model.objects import DataObject, ObjectLine, WordUse  # noqa: E402
from view.model.word_owners import describe_owners, join_names  # noqa: E402
from view.names.naming import Memory, Naming, WordKind  # noqa: E402
from view.reading.reports import Symbol  # noqa: E402
from view.reading.trace_files import HartUse  # noqa: E402

KEY = SymbolKey("symbol", "own", 0x1000)


def word(at, name, reads, writes, hart="many", useful=None, key=KEY):
    """A word of the object `own`."""
    owner = "several threads" if hart == "many" else f"hart {hart}"
    kind = WordKind("." in name or "[" in name, False)
    return WordUse(
        0x1000 + at, 0x1000, name, "", name, key, 0x1000, reads, writes, hart, useful, kind, owner
    )


class Who(unittest.TestCase):
    def who(self, *words, uses=None, beside=()):
        """The row of an object that has some words; `uses` has of each word its reads and writes by its threads."""
        obj = DataObject(KEY, Symbol("own", 0x1000, 64))
        obj.name = "own"
        obj.lines.append(ObjectLine(0x1000, None, None))
        obj.neighbours.update(beside)
        view = SimpleNamespace(
            filtered=None,
            trials=None,
            details=lambda _: SimpleNamespace(words=words),
            naming=Naming(None, memory=Memory()),
            objects_by_key={it: it for it in beside},
            label=str,
        )
        if uses is not None:
            own = {
                0x1000 + at: {hart: HartUse(*it, 15) for hart, it in of.items()}
                for at, of in uses.items()
            }
            view.trials = {
                KEY: SimpleNamespace(uses=SimpleNamespace(users_of=lambda it: own.get(it, {})))
            }
        return describe_owners(view, obj)

    def test_words_of_one_thread_each(self):
        words = [word(4 * it, f"own+{4 * it}" if it else "own", 3, 9, str(it)) for it in range(8)]
        self.assertEqual(
            self.who(*words),
            "each thread writes its own words: hart 0: +0 (9 writes, 3 reads); hart 1: +4; hart 2: +8; and 5 more",
        )
        # (the most written word is always named)
        words[7] = words[7]._replace(writes=1000)
        self.assertEqual(
            self.who(*words),
            "each thread writes its own words: hart 0: +0; hart 1: +4; hart 7: +28 (1,000 writes, 3 reads); and 5 more",
        )
        reads = word(4, "own+4", 9, 0, "1")
        self.assertEqual(
            self.who(word(0, "own", 0, 1, "0"), reads),
            "each thread uses its own words: hart 0: +0 (1 write); hart 1: +4",
        )

    def test_elements_of_one_thread_each(self):
        fields = [
            word(16 * at + 4 * offset, f"own[{at}].{name}", 0, 9, str(at))
            for at in range(2)
            for offset, name in enumerate("ab")
        ]
        self.assertEqual(
            self.who(*fields),
            "each thread writes its own element: hart 0: [0] (9 writes); hart 1: [1]",
        )
        # (two threads in one element)
        shared = word(24, "own[1].c", 0, 9, "0")
        self.assertEqual(
            self.who(*fields, shared),
            "each thread writes its own words: hart 0: [0].a (9 writes), [0].b and [1].c; hart 1: [1].a and [1].b",
        )

    def test_words_of_several_threads(self):
        self.assertEqual(
            self.who(word(0, "own.a", 60, 50, useful=90), word(4, "own.b", 70, 0, useful=1)),
            "used by several threads: .a (50 writes, 60 reads); read-only: .b",
        )
        self.assertEqual(
            self.who(word(0, "own.a", 60, 50, useful=1)),
            "used mostly by one thread: .a (50 writes, 60 reads)",
        )
        self.assertEqual(self.who(word(0, "own.a", 60, 0)), "read-only: .a (60 reads)")
        many = [word(4 * it, f"own.{name}", 0, 9) for it, name in enumerate("abcde")]
        self.assertEqual(
            self.who(*many), "used by several threads: .a (9 writes), .b, .c and 2 more"
        )
        self.assertEqual(self.who(), "")

    def test_threads_by_the_trace(self):
        words = [word(4 * it, f"own.{name}", 60, 50) for it, name in enumerate("abcd")]
        uses = {
            0: {1: (9, 9), 2: (9, 0)},
            4: {1: (0, 9), 2: (0, 9), 3: (9, 0)},
            8: {1: (9, 0), 2: (9, 0)},
            12: {3: (9, 9)},
        }
        self.assertEqual(
            self.who(*words, uses=uses),
            "written by hart 1: .a (50 writes, 60 reads); written by harts 1 and 2: .b; read-only: .c; hart 3: .d",
        )
        uses = {0: {it: (0, 9) for it in range(4)}}
        self.assertEqual(
            self.who(words[0], uses=uses), "written by several threads: .a (50 writes, 60 reads)"
        )
        # (a word that no thread uses while others run)
        self.assertEqual(self.who(word(0, "own.a", 0, 9, "4"), uses={}), "hart 4: .a (9 writes)")

    def test_neighbours(self):
        one = word(0, "own.a", 0, 9, "4")
        self.assertEqual(self.who(one, beside=("x",)), "hart 4: .a (9 writes); on the same line: x")
        self.assertEqual(
            self.who(beside=("v", "w", "x", "y", "z")), "on the same line: v, w, x and 2 more"
        )

    def test_names_of_threads(self):
        self.assertEqual(join_names(["hart 1"]), "hart 1")
        self.assertEqual(join_names(["hart 1", "hart 2", "hart 3"]), "harts 1, 2 and 3")
        self.assertEqual(
            join_names(["thread 1", "threads 2 and 3"]), "thread 1 and threads 2 and 3"
        )


if __name__ == "__main__":
    unittest.main()
