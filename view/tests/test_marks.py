"""Tests of what is said of stripped code of C and C++: names, classes and texts in a few words, and objects that are called by them."""

import os
import sys
import unittest

TOP = os.path.join(os.path.dirname(os.path.abspath(__file__)), "..", "..")
sys.path.insert(0, TOP)

from view.names import cpp_assertions  # noqa: E402
from view.names import cpp_classes  # noqa: E402
from view.output import exports  # noqa: E402
from view.names.cpp import ASSERTION, CLASS, TEXT, Landmark, Landmarks, shorten_text  # noqa: E402
from view.names.naming import Naming  # noqa: E402
from view.names.rust import NearPanics, Panic  # noqa: E402
from view.reading.reports import Site  # noqa: E402

sys.path.insert(0, os.path.join(TOP, "native", "others"))
from run import is_named  # noqa: E402


class Texts(unittest.TestCase):
    def test_functions_of_assertions(self):
        for whole, expected in (
            ("main", "main"),
            ("void check(int)", "check"),
            ("static int lists::find(const char*, std::size_t)", "lists::find"),
            (
                "T lists::Map<T>::insert(T*, int) [with T = long int]",
                "lists::Map<long int>::insert",
            ),
            ("T lists::Map<T>::insert(T *, int) [T = long]", "lists::Map<long>::insert"),
            (
                "std::pair<T*, bool> mold::ConcurrentMap<T>::insert(std::string_view, mold::u64, const T&) [with T = mold::elf::Section"
                "Fragment<mold::elf::X86_64>; std::string_view = std::basic_string_view<char>; mold::u64 = long unsigned int]",
                "mold::ConcurrentMap<..>::insert",
            ),
            ("a::get(T) const [with T = b<c>; U = int]::<lambda(int)>", None),
        ):
            found = cpp_assertions.short_function_name(whole)
            self.assertEqual(found, expected or found)

    def test_files_from_their_package_on(self):
        for file, expected in (
            ("src/list.c", "src/list.c"),
            ("./common/common.h", "common/common.h"),
            ("../../lib/a.c", "lib/a.c"),
            ("/build/zstd-1.5.4/lib/a.c", "lib/a.c"),
            ("/build/reproducible-path/zstd-1.5.4/lib/a.c", "lib/a.c"),
            ("/home/me/own/a.c", "/home/me/own/a.c"),
        ):
            self.assertEqual(cpp_assertions.path_in_package(file), expected)
        header = cpp_assertions.Assertion(
            0, 0, "/usr/include/eigen3/Eigen/src/Core/Block.h", 7, "", ()
        )
        self.assertTrue(header.is_library() and header.is_header())
        own = cpp_assertions.Assertion(0, 0, "src/h.c", 7, "", ())
        self.assertFalse(own.is_library() or own.is_header())
        self.assertEqual(own.text(), "near an assertion at src/h.c:7")

    def test_classes(self):
        normal = "__gnu_cxx::__normal_iterator<x::File**,std::vector<x::File*,std::allocator<x::File*> > >"
        for whole, expected in (
            ("x::Output<x::Of>", "x::Output<x::Of>"),
            (
                "tbb::detail::d1::task<x::opened<x::Of>(x::Context<x::Of>&,x::File*)::{lambda()#1}>",
                "task<lambda in x::opened<x::Of>>",
            ),
            (
                f"tbb::detail::d1::start_for<tbb::blocked_range<{normal} >,x::all()::{{lambda(int)#2}},int>",
                "start_for<lambda in x::all>",
            ),
            (
                "std::thread::_State_impl<std::thread::_Invoker<std::tuple<x::run(int)::{lambda()#1}> > >",
                "_State_impl<lambda in x::run>",
            ),
            (
                f"tbb::detail::d1::start_for<tbb::blocked_range<unsigned long>,{normal},int>",
                "start_for<x::File**,..>",
            ),
            (
                "std::_Sp_counted_ptr_inplace<x::File,std::allocator<void>,(__gnu_cxx::_Lock)2>",
                "_Sp_counted_ptr_inplace<x::File,..>",
            ),
            ("std::ctype<char>", "std::ctype<char>"),
            ("x::all(int)::Local", "x::all::Local"),
        ):
            self.assertEqual(cpp_classes.short_class_name(whole), expected)
        for whole, is_library in (
            ("std::ctype<char>", True),
            (
                "std::__cxx11::basic_stringbuf<char,std::char_traits<char>,std::allocator<char> >",
                True,
            ),
            ("tbb::detail::d1::task", True),
            (
                "std::_Sp_counted_ptr_inplace<x::File,std::allocator<void>,(__gnu_cxx::_Lock_policy)2>",
                False,
            ),
            ("mystd::Own", False),
            ("File", False),
        ):
            self.assertEqual(cpp_classes.is_library(whole), is_library, whole)

    def test_texts(self):
        for text, shown in (
            (": common local symbol?\n", "common local symbol?"),
            ("can't open\nanother line", "can't open"),
            ("%s\n%s: wrong number", "%s: wrong number"),
            (
                f"a text of more letters than sixty {26 * '-'} these",
                f"a text of more letters than sixty {26 * '-'}..",
            ),
            ("%d, %s, abcde", ""),
            ("basic_string::_M_create", ""),
            ("basic_string: construction from null", ""),
            ("unordered_map::at", ""),
            ("list: it is broken", "list: it is broken"),
            ("mapping::attach", "mapping::attach"),
            ("virtual memory exhausted", ""),
            ("out of memory for the list", "out of memory for the list"),
        ):
            self.assertEqual(shorten_text(text), shown)

    def test_what_is_said(self):
        own, other = Landmark(TEXT, 'near the text "one"'), Landmark(
            CLASS, "in a method of std::ctype<char>", 1, True
        )
        self.assertEqual(Landmarks((own,)).text(), 'near the text "one"')
        self.assertEqual(
            Landmarks((own, other), True, 3).text(),
            'called near the text "one" and in a method of std::ctype<char> and 3 more',
        )
        self.assertEqual([Landmarks((it,)).names_source() for it in (own, other)], [True, False])


class Stripped:
    """A program without symbols, some instructions of which are named by what they refer to."""

    def __init__(self, **near):
        self.found = {int(it[1:], 16): own for it, own in near.items()}

    def library_place(self, addr):
        return f"x264+{addr:#x}"

    def landmark(self, addr):
        return self.found.get(addr)


class Names(unittest.TestCase):
    def test_instructions_and_blocks(self):
        own = Landmarks((Landmark(ASSERTION, "near an assertion at src/a.c:7 in work"),))
        called = Landmarks((Landmark(TEXT, 'near the text "one"'),), True)
        library = Landmarks((Landmark(CLASS, "in a method of std::ctype<char>", 1, True),))
        naming = Naming(None, Stripped(x10=own, x20=called, x40=library))
        self.assertEqual(
            naming.instruction_name(0x10), "x264+0x10 (near an assertion at src/a.c:7 in work)"
        )

        def block(*sites):
            return naming.block_name([Site(it, "-") for it in sites])

        self.assertEqual(
            block(0x30, 0x10),
            "block made in x264+0x30 < x264+0x10 (near an assertion at src/a.c:7 in work)",
        )
        self.assertEqual(
            block(0x30, 0x20), 'block made in x264+0x30 < x264+0x20 (called near the text "one")'
        )
        self.assertEqual(block(0x20, 0x30), "block made in x264+0x20 < x264+0x30")
        self.assertEqual(block(0x40, 0x30), "block made in x264+0x40 < x264+0x30")
        self.assertEqual(
            naming.instruction_name(0x40), "x264+0x40 (in a method of std::ctype<char>)"
        )

    def test_what_machines_read(self):
        own = Landmarks((Landmark(ASSERTION, "near an assertion at src/a.c:7 in work"),), False, 3)
        panic = NearPanics((Panic("src/a.rs", 7),))
        view = type("View", (), {"naming": Naming(None, Stripped(x10=own, x20=panic))})
        found = [exports.instruction(view, it) for it in (0x10, 0x20, 0x30)]
        expected = {"called": False, "texts": ["near an assertion at src/a.c:7 in work"], "more": 3}
        self.assertEqual([it["landmarks"] for it in found], [expected, None, None])
        self.assertEqual(
            [it["panics"] and it["panics"]["places"] for it in found],
            [None, [{"file": "src/a.rs", "line": 7}], None],
        )

    def test_what_counts_as_named(self):
        made = "block made in x264+0x40 < x264+0x10"
        for text, wants in (
            ("near an assertion at src/a.c:7 in work", True),
            ("called near an assertion at src/a.c:7", True),
            ("in a method of x::Output", True),
            ("called in a method of x::Output and 3 more", True),
            ("in a method of std::ctype<char>", False),
            ('near the text "one and two"', True),
            ('called near the text "one"', False),
            ('called near the text "one" and in a method of x::Output', True),
        ):
            self.assertEqual(is_named(f"{made} ({text})"), wants, text)


if __name__ == "__main__":
    unittest.main()
