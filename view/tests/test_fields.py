"""The fields of words, by debug information of DWARF 4 and 5, whole and missing."""

import os
import shutil
import subprocess
import sys
import tempfile
import unittest

HERE = os.path.dirname(os.path.abspath(__file__))
sys.path.insert(0, os.path.dirname(os.path.dirname(HERE)))

from view.faults import Fault  # noqa: E402
from view.names.field_paths import has_several_fields, word_path  # noqa: E402
from view.names.fields import Program, size_of, type_name  # noqa: E402
from view.names.native import data_symbols  # noqa: E402
from view.names.source_lines import Sources  # noqa: E402

from elftools.elf.elffile import ELFFile  # noqa: E402
from elftools.elf.sections import SymbolTableSection  # noqa: E402


def built(name):
    return os.path.join(HERE, "programs", name)


class Fields(unittest.TestCase):
    def variable(self, program, name):
        program.scan_variables()
        return next(it for it in program.variables.values() if it.name == name)

    def named(self, program, name, *offsets):
        variable = self.variable(program, name)
        return [word_path(variable.type, name, it) for it in offsets]

    def test_version_5(self):
        program = Program(built("ring.elf"))
        self.assertEqual(
            self.named(program, "stats", 4, 28), ["stats[0].seen[0].high", "stats[1].seen[1].high"]
        )
        self.assertEqual(
            self.named(program, "ring", 0, 8, 12), ["ring.head", "ring.slots[0]", "ring.slots[1]"]
        )
        stats = self.variable(program, "stats")
        self.assertEqual(
            (type_name(stats.type), size_of(stats.type), stats.alignment()),
            ("struct stats[4]", 64, 256),
        )
        self.assertEqual(program.declaration(stats), ("ring.c", 29))

    def test_version_4_with_all_kinds(self):
        program = Program(built("odd.elf"))
        names = self.named(program, "parts", 0, 4, 8, 12, 16, 20, 24, 28)
        self.assertEqual(names[0], "parts.number.whole, .half[0..1], .bytes[0..3]")
        self.assertEqual(names[1], "parts.low, .middle, .high")
        self.assertEqual(names[2:4], ["parts.wide", "parts.wide+4"])
        self.assertEqual(names[4], "parts.text[0..3]")
        self.assertEqual(names[5], "parts.text[4..5], .small[0][0]")
        self.assertEqual(names[6], "parts.small[0][1], [1][0]")
        self.assertEqual(self.variable(program, "parts").alignment(), 64)

    def test_words_with_several_fields(self):
        for name, variable, offsets in (
            # (the members of the union `number` lie in one place, and `wide` has eight bytes)
            (
                "odd.elf",
                "parts",
                {0: False, 4: True, 8: False, 12: False, 16: True, 20: True, 24: True},
            ),
            ("ring.elf", "ring", {0: False, 4: False, 8: False}),
            ("shards.elf", "shards", {16: False, 20: True}),
        ):
            kind = self.variable(Program(built(name)), variable).type
            self.assertEqual(
                {it: has_several_fields(kind, 8 * it, 8 * it + 32) for it in offsets}, offsets, name
            )

    def test_bit_fields_of_version_5(self):
        self.assertEqual(
            self.named(Program(built("shards.elf")), "shards", 20), ["shards[1].used, .is_full"]
        )

    def test_types_by_name(self):
        program = Program(built("arena.elf"))
        self.assertEqual(size_of(program.type_named("struct node")), 12)
        self.assertEqual(size_of(program.type_named("made")), 12)
        with self.assertRaises(Fault):
            program.type_named("nodes_of_another")

    def test_without_debug_information(self):
        with tempfile.TemporaryDirectory() as folder:
            for name, how in (("no_debug", "--strip-debug"), ("stripped", "--strip-all")):
                path = os.path.join(folder, name)
                subprocess.run(["llvm-objcopy", how, built("ring.elf"), path], check=True)
                program = Program(path)
                self.assertIsNone(program.dwarf)
                self.assertIsNone(program.variable(0x11000))
            self.assertEqual(program.symbols(), {})

    def test_damaged(self):
        with tempfile.TemporaryDirectory() as folder:
            path = os.path.join(folder, "p")
            with open(built("ring.elf"), "rb") as file:
                whole = file.read()
            for at in range(60, len(whole), 997):
                with open(path, "wb") as file:
                    file.write(whole[:at])
                try:
                    Program(path).variable(0x11000)
                except Fault as fault:
                    self.assertIn(path, str(fault))
            shutil.copy(__file__, path)
            with self.assertRaises(Fault):
                Program(path)

    def test_source_lines(self):
        sources = Sources(built("ring.elf"))
        variable = self.variable(Program(built("ring.elf")), "stats")
        self.assertIsNotNone(variable)
        self.assertIsNone(sources.place(0x900000))
        self.assertTrue(sources.text("ring.c")[0].startswith("// A ring"))
        self.assertEqual(sources.text("moved/elsewhere.c"), [])

    def test_symbols_of_data(self):
        """The rows of a table of symbols are those that pyelftools finds, of 32 and of 64 bits."""
        for path in (built("ring.elf"), sys.executable):
            with open(path, "rb") as file:
                elf = ELFFile(file)
                tables = [it for it in elf.iter_sections() if isinstance(it, SymbolTableSection)]
                wanted = [
                    (it.name.partition("@")[0], it["st_value"], it["st_size"])
                    for table in tables
                    for it in table.iter_symbols()
                    if it["st_info"]["type"] == "STT_OBJECT"
                ]
                found = [it for table in tables for it in data_symbols(elf, table)]
            self.assertEqual(found, wanted)
            self.assertTrue(found)

    def test_functions_that_were_discarded(self):
        program = Program(built("ring.elf"))
        self.assertIsNotNone(Sources(program.path).place(0))
        sources = Sources(program.path, (), program.code())
        self.assertIsNone(sources.place(0))
        self.assertIsNotNone(sources.place(program.code()[0][0]))


if __name__ == "__main__":
    unittest.main()
