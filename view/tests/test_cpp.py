"""Programs in C++: names of what the library stores as bytes, and fixes that the sources take as they are, by `alignas`."""

import os
import re
import shutil
import subprocess
import unittest

import test_followed
from calling import PROGRAM, TOP, has
from test_followed import LACKS, MISSES
from test_newcomers import HEADERS, KNOWN
from view.repairs import advice, patches

BUILD = os.path.join(TOP, "guest", "build.sh")
WORKER = "class alignas(64) Worker (makers.cpp:11)"


@unittest.skipIf(LACKS, f"{' '.join(LACKS)} missing")
@unittest.skipUnless(any(map(os.path.isdir, HEADERS)), "libc++-14-dev isn't installed")
@unittest.skipUnless(has(PROGRAM, "misses", "move"), "the program isn't built, or has no move")
class OfGuests(test_followed.Following):
    def compile(self, name, *flags):
        if not os.path.exists(self.path(f"{name}.cpp")):
            shutil.copy(os.path.join(KNOWN, f"{name}.cpp"), self.folder)
        command = [BUILD, f"{name}.elf", f"{name}.cpp", "--", *flags]
        subprocess.run(command, cwd=self.folder, check=True)
        return f"{name}.elf"

    def follow_patch(self, way, *says):
        """Patches the source of makers.cpp as the call writes it, and compares the misses with those that were foretold."""
        flag = f"-D{way}"
        before = self.look(self.compile("makers", flag), "--patch", self.path("patch"))
        first = next(it for it in before["objects"] if it["tried"])
        for sentence in says:
            self.assertIn(sentence, first["fix"].replace("`", ""), way)
        self.assertNotIn("__attribute__", before["screen"])
        self.assertNotIn("aligned_alloc", before["screen"])
        subprocess.run(["patch", "-s", "-p1", "-i", "patch"], cwd=self.folder, check=True)
        after = self.look(self.compile("makers", flag))
        foretold = sum(first["tried"]["after"][it] for it in MISSES)
        saved = self.missed(before) - foretold
        self.assertGreater(saved * 5, self.missed(before) - before["total"]["cold"], way)
        self.assertLessEqual(abs(foretold - self.missed(after)), foretold / 10, way)
        return before

    @unittest.skipUnless(shutil.which("patch"), "patch isn't installed")
    def test_patches(self):
        for way in ("NEW", "UNIQUE", "VECTOR"):
            with self.subTest(way):
                shutil.copy(os.path.join(KNOWN, "makers.cpp"), self.folder)
                self.follow_patch(way, "its own line: " + WORKER, "12 → 64 bytes each")

    @unittest.skipUnless(shutil.which("patch"), "patch isn't installed")
    def test_a_patch_of_shared_owners(self):
        """The block has the owners' counts before the record, which begins on the next line then."""
        found = self.follow_patch("SHARED", WORKER, "24 → 128 bytes each")
        self.assertIn("made at makers.cpp:24 < main: Worker (4 blocks)", found["screen"])
        self.assertIn(".seen.second", found["screen"])
        self.assertNotRegex(found["screen"], "__blob_|__storage_")

    @unittest.skipUnless(shutil.which("patch"), "patch isn't installed")
    def test_a_patch_of_fields(self):
        self.follow_patch("QUEUE", "put alignas(64) after consumed and room, 12 → 192 bytes")

    @unittest.skipUnless(shutil.which("patch"), "patch isn't installed")
    def test_a_patch_of_variables(self):
        self.follow_patch("VARIABLES", "alignas(64) after each name")

    def test_an_optional(self):
        found = self.look(self.compile("makers", "-DMAYBE"))
        self.assertIn("[0].hits", found["screen"])
        self.assertNotRegex(found["screen"], r"__val_|__null_state_|\]\+0")
        self.assertIn("wrap it in struct alignas(64) workers_line {", found["screen"])

    def test_an_allocator_with_fields(self):
        """It lies between the owners' counts and the record."""
        found = self.look(self.compile("allocated"), "--words")
        first = re.findall(r"hart 0 (\.\w+)", found["screen"])[3:6]
        self.assertEqual(first, [".count", ".limit", ".hits"])
        self.assertIn("threads .misses", found["screen"])
        self.assertIn("28 → 128 bytes each", found["screen"])


class Spelling(unittest.TestCase):
    def test_sentences(self):
        text = "put `__attribute__((aligned(128)))` after its dimensions"
        self.assertEqual(advice.in_language(text, False), text)
        self.assertEqual(advice.in_language(text, True), "put `alignas(128)` after its name")

    def test_declarations(self):
        for text, wanted in (
            ("static std::atomic<int> a{0};", "static std::atomic<int> a MARK{0};"),
            ("int b, a[4][2] = {}, c;", "int b, a MARK[4][2] = {}, c;"),
            ("int a = 3;", "int a MARK = 3;"),
        ):
            found = patches.add_attribute(text, "a", 64, True)
            self.assertEqual(found, wanted.replace("MARK", "alignas(64)"))
        lines = ["template <class T> class Slot final : public Base<T> {"]
        place = type("Place", (), {"file": "a.cpp", "line": 1})
        patches.AlignRecord(place, "class", "Slot<int>", 64, True).apply(lines)
        wanted = "template <class T> class alignas(64) Slot final : public Base<T> {"
        self.assertEqual(lines, [wanted])

    def test_compilers_take_it(self):
        text = "struct alignas(64) a { int b alignas(64)[2]; int c alignas(64) = 1; };\n"
        text += "static int d alignas(64)[3], e alignas(64){4};\nint f();\nint f() { return d[0] + e; }\n"
        for compiler in filter(shutil.which, ("clang++", "g++")):
            call = [compiler, "-Wall", "-Wextra", "-Werror", "-fsyntax-only", "-x", "c++", "-"]
            subprocess.run(call, input=text, text=True, check=True)


if __name__ == "__main__":
    unittest.main()
