"""Fields in groups, and repairs as a patch."""

import os
import shutil
import subprocess
import sys
import unittest
from types import SimpleNamespace

from calling import HERE
from test_tried import Folder

sys.path[:0] = [os.path.join(HERE, "..", "..")]

from view.repairs import patches  # noqa: E402
from view.repairs.groupings import field_groupings  # noqa: E402
from view.repairs.subjects import UNUSED, Sharing  # noqa: E402


class Grouped(unittest.TestCase):
    def ways(self, **found):
        members = [SimpleNamespace(name=it) for it in found]
        return [
            [[it.name for it in own] for own in way]
            for way in field_groupings(members, {it: (own,) for it, own in found.items()})
        ]

    def test_groups_of_fields(self):
        def shared(*harts):
            return Sharing("shared", frozenset(harts))

        own, other, read = (
            Sharing("own", frozenset({1})),
            Sharing("own", frozenset({2})),
            Sharing("read", frozenset()),
        )
        ways = self.ways(
            head=shared(1), tail=shared(2), seen_tail=own, seen_head=other, room=read, name=UNUSED
        )
        self.assertIn([["head", "seen_tail"], ["tail", "seen_head"], ["room", "name"]], ways)
        self.assertIn([["head", "tail"], ["seen_tail"], ["seen_head"], ["room", "name"]], ways)
        self.assertIn([["head"], ["tail"], ["seen_tail"], ["seen_head"], ["room", "name"]], ways)
        self.assertEqual(self.ways(a=own, b=own, c=UNUSED), [])
        self.assertEqual(
            self.ways(setting=read, counter=shared(1, 2)), [[["setting"], ["counter"]]]
        )


class Patched(Folder):
    def patch(self, text, *edits):
        path = self.path("a.c", text)
        return patches.apply_edits(
            [it._replace(place=SimpleNamespace(file=path, line=it.place)) for it in edits],
            patches.read_source,
        )[path][1]

    def test_records(self):
        for text, name, wanted in (
            ("struct a {\n", "a", "struct ATTRIBUTE a {\n"),
            ("struct a // of one\n{\n", "a", "struct ATTRIBUTE a // of one\n{\n"),
            ("typedef struct {\n", "a", "typedef struct ATTRIBUTE {\n"),
            ("typedef struct a { int b; } a;\n", "a", "typedef struct ATTRIBUTE a { int b; } a;\n"),
            (
                "static struct a { int b; } c[4];\n",
                "a",
                "static struct ATTRIBUTE a { int b; } c[4];\n",
            ),
            ("struct a final : b {\n", "a", "struct ATTRIBUTE a final : b {\n"),
        ):
            found = self.patch(text, patches.AlignRecord(1, "struct", name, 64))
            self.assertEqual(found, wanted.replace("ATTRIBUTE", "__attribute__((aligned(64)))"))
        for text in ("A_STRUCT(a)\n", "struct __attribute__((packed)) a {\n", "struct b {\n"):
            self.assertRaises(
                patches.Unpatchable, self.patch, text, patches.AlignRecord(1, "struct", "a", 64)
            )

    def test_variables(self):
        for text, wanted in (
            ("static int a = 3;", "static int a ATTRIBUTE = 3;"),
            ("int b, a[4][2], c; // a", "int b, a[4][2] ATTRIBUTE, c; // a"),
            ("std::atomic<int> a{0};", "std::atomic<int> a ATTRIBUTE{0};"),
        ):
            found = self.patch(text, patches.AlignVariable(1, "a", 64))
            self.assertEqual(found, wanted.replace("ATTRIBUTE", "__attribute__((aligned(64)))"))
        for text in ("int (*a)(void);", "MAKE(a)", "int b;"):
            self.assertRaises(
                patches.Unpatchable, self.patch, text, patches.AlignVariable(1, "a", 64)
            )

    def test_values_by_their_order(self):
        for text, wanted in (
            ("struct a x = {1, 2};", True),
            ("struct a x[] = {{1, 2}};", True),
            ("struct a x = {.b = 1};", False),
            ("struct a x = {0};", False),
            ("struct a x = {};", False),
            ("struct a *f(int b);\nstruct c x = {1};", False),
        ):
            self.assertEqual(
                patches.OrderFields(None, "a", [], 64).has_positional_values(text.split("\n")),
                wanted,
                text,
            )

    def test_the_last_line_may_have_no_end(self):
        end = "\n\\ No newline at end of file\n"
        self.assertTrue(
            patches.difference("a.c", "int a;", "int b;").endswith(f"-int a;{end}+int b;{end}")
        )

    @unittest.skipUnless(shutil.which("clang"), "clang isn't installed")
    def test_what_is_said_is_c_and_c_plus_plus(self):
        text = "struct __attribute__((aligned(64))) own_line { int value[21]; };\nstruct __attribute__((aligned(64))) a { int b; };\n"
        text += "struct c { int d; int e[3] __attribute__((aligned(64))); };\nstatic int f __attribute__((aligned(64))) = 3;\n"
        text += "int g(void);\nint g(void) { return f; }\n"
        for language in ("c", "c++"):
            words = [
                "clang",
                "-Wall",
                "-Wextra",
                "-Werror",
                "-fsyntax-only",
                "-x",
                language,
                self.path("a", text),
            ]
            subprocess.run(words, check=True)


if __name__ == "__main__":
    unittest.main()
