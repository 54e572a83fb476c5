"""The names of objects, of their call sites and of symbols."""

import io
import os
import sys
import unittest
from types import SimpleNamespace

HERE = os.path.dirname(os.path.abspath(__file__))
sys.path[:0] = [os.path.join(HERE, "..", ".."), os.path.join(HERE, "..", "..", "tools")]

from view.repairs import advice  # noqa: E402
from view.reading.calls import Call  # noqa: E402
from view.model.view import View  # noqa: E402
from view.model.object_fixes import ObjectFixes  # noqa: E402
from view.names.demangling import SymbolNames, short_name  # noqa: E402
from view.names.naming import Memory, Naming  # noqa: E402
from view.reading.reports import Site  # noqa: E402
from view.output.screen import Paint, screen  # noqa: E402
from view.names.source_lines import SourceLine  # noqa: E402
from view.names.unnamed_memory import HEAP, name_by_users  # noqa: E402
from small_reports import report_of, view_of, word  # noqa: E402


class Names(unittest.TestCase):
    def test_objects_of_one_name_have_distinct_labels(self):
        rows = []
        for at in (0x1000, 0x2000):
            rows += [
                f"line observed 0x{at:08x} 64 start 0 count 200 verdict true",
                f"object symbol lock 0x{at:08x} 4",
                word(at, 5, 50, "many"),
            ]
        view = view_of(rows)
        self.assertEqual(
            [view.label(it) for it in view.objects], ["lock, at 0x00001000", "lock, at 0x00002000"]
        )
        self.assertEqual({it.name for it in view.objects}, {"lock"})

    def test_blocks_of_one_name_are_labelled_by_their_callers_lines(self):
        names = {0x100: ("give", 3), 0x200: ("stream", 10), 0x300: ("stream", 20)}
        places = {
            at: [SourceLine(function, f"/src/{function}.c", line)]
            for at, (function, line) in names.items()
        }
        rows = []
        for at, caller in ((0x1000, 0x200), (0x2000, 0x300)):
            rows += [
                f"line observed 0x{at:08x} 64 start 0 count 200 verdict true",
                f"object block 0x{at:08x} 64 born 0 live",
            ]
            rows += ["site 0x00000100 give", f"site 0x{caller:08x} stream", word(at, 5, 50, "many")]
        report = report_of(rows)
        sources = SimpleNamespace(
            frames=lambda at: places[at], place=lambda at: places[at][0], find=lambda _: None
        )
        view = View(Call(["r"]), report, Naming(report, sources=sources))
        view.group_by_objects()
        name = "block made at give.c:3 < stream"
        self.assertEqual(
            [view.label(it) for it in view.objects],
            [f"{name}, by stream.c:10", f"{name}, by stream.c:20"],
        )

    def test_callers_that_lie_in_no_code(self):
        sites = [Site(0x100, "-"), Site(0x200, "-"), Site(0x300, "-")]
        naming = Naming(view_of([]).report)
        self.assertEqual(naming.sites_in_code(sites), sites)
        naming.program = SimpleNamespace(
            library_place=lambda at: "mold+0x100" if at != 0x200 else "", dwarf=None
        )
        self.assertEqual(naming.sites_in_code(sites), sites[:1])
        self.assertEqual(naming.block_name(sites), "block made in mold+0x100")
        self.assertEqual(naming.sites_in_code(sites[1:]), sites[1:2])

    def test_what_the_allocator_keeps(self):
        for file, wanted in (
            ("./malloc/malloc.c", HEAP),
            ("/src/my/malloc.c", "memory used at malloc.c:9 (give)"),
        ):
            view = view_of(
                [
                    "line observed 0x00002000 64 start 0 count 300 verdict false",
                    word(0x2000, 5, 50, "many"),
                ]
            )
            view.naming.sources = SimpleNamespace(
                frames=lambda _, file=file: [SourceLine("give", file, 9)]
            )
            name_by_users(view.objects[0], [0x100, 0x104], view.naming)
            self.assertEqual(view.objects[0].name, wanted)
            self.assertEqual(
                "link another allocator" in ObjectFixes(view).choose(view.objects[0], []),
                wanted == HEAP,
            )

    def test_a_call_site_is_known_by_its_name_on_the_screen(self):
        rows = [
            "line observed 0x00002000 64 start 0 count 300 verdict false",
            "object block 0x00002000 64 born 1 live",
        ]
        rows += [
            "site 0x00000100 _ZN4pool4giveEm",
            "site 0x00000200 main",
            word(0x2000, 5, 50, "hart 1"),
        ]
        view = view_of(rows)
        names = view.naming.names_of_site(view.objects[0].example)
        self.assertEqual(
            names, {"pool::give", "pool::give(unsigned long)", "_ZN4pool4giveEm", "0x00000100"}
        )
        self.assertIn(" block made in pool::give", "\n".join(screen(view, Paint(io.StringIO()))))
        view.naming.types = [("pool::take", "node")]
        view.note_unmatched_options()
        self.assertEqual(
            view.notes,
            [
                "`--type pool::take=..` matches no contended block: contended blocks are made at pool::give"
            ],
        )

    def test_stacks_have_names(self):
        memory = Memory((0xF90000, 0x1010000), 8)
        self.assertEqual(
            [memory.key(it) for it in (0x100FFFC, 0x1000000, 0xFFFFFC, 0xF90000)],
            [("stack", 0), ("stack", 0), ("stack", 1), ("stack", 7)],
        )
        self.assertEqual(memory.key(0x1010000), ("memory", 0x1010000))
        rows = [
            "line observed 0x0100ffc0 64 start 0 count 300 verdict true",
            word(0x100FFC0, 5, 50, "many"),
        ]
        self.assertEqual(view_of(rows, memory=memory).objects[0].name, "stack of hart 0")

    def test_thread_local_variables_have_names(self):
        rows = [
            "line observed 0x0100ffc0 64 start 0 count 300 verdict true",
            "object block 0x0100ffe0 8 born 0 live",
        ]
        rows += [
            "site 0x00010080 thread_locals",
            "site 0x0001000c _start",
            word(0x100FFE0, 5, 50, "many"),
        ]
        memory = Memory((0xF90000, 0x1010000), 8)
        self.assertEqual(view_of(rows, memory=memory).objects[0].name, "thread-local variables")

    def test_keys_have_no_addresses(self):
        rows = []
        for base, site in ((0x2000, 0x204), (0x2040, 0x200), (0x2080, 0x300)):
            name = "make" if site < 0x300 else "other"
            rows += [
                f"line observed 0x{base:08x} 64 start 0 count 300 verdict false",
                f"object block 0x{base:08x} 64 born 1 live",
            ]
            rows += [f"site 0x{site:08x} {name}", word(base, 5, 50, "many")]
        view = view_of(rows)
        self.assertEqual(
            sorted(view.lasting_keys.values()), ["block make", "block make #2", "block other"]
        )

    def test_names_in_a_sentence(self):
        self.assertEqual(advice.listing(["a[0]", "a[1]", "a[2]", "b"]), "a[..] and b")
        self.assertEqual(advice.listing("abcdef"), "a, b, c, d and 2 more")
        self.assertEqual(advice.arrays(["s[0].x[1]", "s[0].x[2]"]), "s[0].x")
        self.assertIsNone(advice.arrays(["s.x[1]", "s.y[2]"]))
        self.assertEqual(Naming(view_of([]).report).readable_name("_ZN4ring5firstE"), "ring::first")

    def test_short_names(self):
        for whole, wanted in {
            "counters": "counters",
            "f(int)::local": "f::local",
            "guard variable for f(int)::local": "guard variable for f::local",
            "(anonymous namespace)::f(int, char)": "(anonymous namespace)::f",
            "T<std::__cxx11::basic_string<char, std::char_traits<char>, std::allocator<char> >, int>::own": "T<std::string, int>::own",
            "std::vector<int, std::allocator<int> > app::many<int>(std::map<int, int> const&)": "app::many<int>",
            "a::operator()(int) const": "a::operator()",
            "a::operator<(a const&)": "a::operator<",
            "<ru::Tally<core::sync::atomic::AtomicU64> as ru::Count>::count": "<ru::Tally<..> as ru::Count>::count",
            "github.com/org/repo/v2/pkg.(*T).Method": "pkg.(*T).Method",
            "github.com/org/repo/pkg.counts": "pkg.counts",
            "main.main": "main.main",
        }.items():
            self.assertEqual(short_name(whole), wanted)

    def test_names_of_symbols(self):
        names = SymbolNames()
        names.learn_symbols(
            "object symbol _ZN2ru5SLOTS17h014a019cd835f220E 0x00001000 64\nsite 0x00002000 _RNvCs4mUmuLXSNC_2ru4main"
        )
        self.assertEqual(names.readable_name("_ZN2ru5SLOTS17h014a019cd835f220E"), "ru::SLOTS")
        self.assertEqual(names.readable_name("_RNvCs4mUmuLXSNC_2ru4main"), "ru::main")
        self.assertEqual(
            names.readable_name("gopkg.in/yaml%2ev2.counts"), "gopkg.in/yaml.v2.counts"
        )
        self.assertEqual(names.readable_name("plain"), "plain")
        self.assertEqual(
            [names.readable_name(it) for it in ("join@@GLIBC_2.34", "copy@GLIBC_2.2.5")],
            ["join", "copy"],
        )
        names.remember("f(int)")
        self.assertEqual(
            names.shorten("block made in f(int) < gopkg.in/yaml.v2.counts"),
            "block made in f < yaml.v2.counts",
        )
        self.assertEqual(names.lasting_name("_ZN2ru5SLOTS17h014a019cd835f220E"), "ru::SLOTS")
        self.assertEqual(names.lasting_name("_ZN4ring5firstE"), "_ZN4ring5firstE")


if __name__ == "__main__":
    unittest.main()
