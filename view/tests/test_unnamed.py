"""What has no name of its own: by which instructions it is named, and what Go's runtime alone contends for."""

import os
import sys
import unittest
from types import SimpleNamespace
from unittest import mock

sys.path.insert(0, os.path.join(os.path.dirname(os.path.abspath(__file__)), "..", ".."))

from view.model import foreign_objects  # noqa: E402
from view.model.object_keys import MemoryKey, StackKey, SymbolKey  # noqa: E402
from view.names.naming import Naming  # noqa: E402
from view.names.native import NativeSources  # noqa: E402
from view.reading.reports import InstructionPair, LineInvalidations  # noqa: E402
from view.names.source_lines import SourceLine  # noqa: E402
from view.names.unnamed_memory import (  # noqa: E402
    SEARCHED_PAIRS,
    go_runtime_keys,
    naming_instructions,
)


class Unnamed(unittest.TestCase):
    def test_instructions_of_the_program_lead_those_of_locks(self):
        files = {
            0x10: "libc.so.6+0x10",
            0x20: "libc.so.6+0x20",
            0x30: "db+0x30",
            0x40: "",
            0x50: "libc.so.6+0x50",
            0x60: "libcx.so+0x60",
        }
        naming = Naming(None, SimpleNamespace(library_place=files.get))
        locks, waits = InstructionPair(0x10, 0x20, 90, 0), InstructionPair(0x20, 0x10, 80, 0)
        for others, wanted in (
            ([], [0x20, 0x10]),
            (
                [InstructionPair(0x30, 0x50, 70, 0), InstructionPair(0x40, 0x40, 60, 0)],
                [0x30, 0x20, 0x10],
            ),
            (
                [InstructionPair(0x40, 0x40, 70, 69), InstructionPair(0x30, 0x50, 9, 0)],
                [0x30, 0x20, 0x10],
            ),
            ([InstructionPair(0x60, 0x50, 70, 0)], [0x60, 0x20, 0x10]),
            # (one of the worst two is the program's already)
            (
                [InstructionPair(0x40, 0x10, 85, 0), InstructionPair(0x30, 0x50, 70, 0)],
                [0x20, 0x10, 0x40],
            ),
        ):
            self.assertEqual(
                naming_instructions(LineInvalidations(0, [waits, *others, locks], {}), naming),
                wanted,
            )
        many = [InstructionPair(0x50, 0x50, 60, it) for it in range(SEARCHED_PAIRS - 2)]
        for own, wanted in ((61, [0x40, 0x20, 0x10]), (1, [0x20, 0x10])):
            self.assertEqual(
                naming_instructions(
                    LineInvalidations(
                        0, [*many, waits, InstructionPair(0x40, 0x40, own, 0), locks], {}
                    ),
                    naming,
                ),
                wanted,
            )
        # (of Go by the function, in which another one may be inlined)
        go = [InstructionPair(0x30, 0x30, 99, 0), waits, locks, InstructionPair(0x40, 0x30, 9, 0)]
        for runtime in (
            "runtime.lock2",
            "runtime/internal/atomic.Xadd",
            "internal/poll.(*FD).Read",
        ):
            places = {0x30: runtime, 0x40: "github.com/junegunn/fzf/src.(*Matcher).scan"}
            naming.sources = SimpleNamespace(
                frames=lambda at, of=places: [
                    SourceLine("runtime.x", "", 1),
                    SourceLine(of.get(at, ""), "", 9),
                ]
            )
            self.assertEqual(
                naming_instructions(LineInvalidations(0, go, {}), naming), [0x40, 0x30, 0x20, 0x10]
            )

    def test_what_go_s_runtime_alone_fights_over(self):
        functions = {
            0x10: "runtime.lock2",
            0x20: "runtime.mallocgc",
            0x30: "main.work",
            0x40: "sync.(*Mutex).Lock",
        }
        sources = SimpleNamespace(
            frames=lambda at: [SourceLine(functions[at], "", 9)], find=lambda _: None
        )
        lines = {
            0: [(0x10, 0x20)],
            64: [(0x10, 0x30)],
            128: [(0x20, 0x20)],
            192: [(0x40, 0x10)],
            256: [(0x10, 0x20)] * 2 + [(0x30, 0x30)],
        }
        taken = {
            at: LineInvalidations(at, [InstructionPair(*it, 9, 0) for it in pairs], {})
            for at, pairs in lines.items()
        }
        for bases, key, is_go, wanted in (
            ([0, 128], MemoryKey("memory", 0), True, True),
            ([0, 64], MemoryKey("memory", 0), True, False),
            ([192], MemoryKey("memory", 0), True, False),
            # (of a line that nothing takes nothing is known)
            ([0, 320], MemoryKey("memory", 0), True, True),
            ([320], MemoryKey("memory", 0), True, False),
            # (the worst two pairs of a line)
            ([256], MemoryKey("memory", 0), True, True),
            ([0], StackKey("stack", 1), True, True),
            ([0], SymbolKey("symbol", "lock", 0), True, False),
            ([0], MemoryKey("memory", 0), False, False),
        ):
            naming = Naming(
                None,
                SimpleNamespace(
                    has_go_table=lambda is_go=is_go: is_go, library_place=lambda _: "fzf+0x0"
                ),
                sources,
            )
            obj = SimpleNamespace(key=key, lines=[SimpleNamespace(base=it) for it in bases])
            found = go_runtime_keys([obj], SimpleNamespace(invalidations=taken.get), naming)
            self.assertEqual(found, {key} if wanted else set())
        guest = Naming(None, SimpleNamespace(), sources)
        self.assertEqual(
            go_runtime_keys([obj], SimpleNamespace(invalidations=taken.get), guest), set()
        )
        for has_runtime, whose in (
            (False, "the C library"),
            (True, "the C library or Go's runtime"),
        ):
            self.assertEqual(
                foreign_objects.row_of([obj] * 1200, has_runtime),
                f"1,200 objects of {whose} (--library shows them)",
            )
            self.assertEqual(
                foreign_objects.row_of([obj], has_runtime),
                f"1 object of {whose} (--library shows it)",
            )

    def test_lines_near_an_instruction(self):
        def place(*found):
            """The line of an instruction of `f` at 0x1040, whose number says nothing, by what runs before it."""
            asked = []

            def symbolized(addresses):
                asked.extend(addresses)
                return [*found, *[[]] * (len(asked) - len(found))]

            sources = NativeSources.__new__(NativeSources)
            sources.frames = lambda _: [SourceLine("g", "", 0), SourceLine("f", "", 0)]
            sources.native, sources.symbolize = (
                SimpleNamespace(file=lambda _: (file, 0x1040)),
                symbolized,
            )
            before = [*range(0x103C, 0xF3F, -4)]
            with mock.patch("view.names.native.instructions_before", return_value=before) as of:
                nearest = NativeSources.near(sources, 0xFFFFFF00)
            self.assertEqual(asked, [] if file.is_stripped else [(file, at) for at in before])
            self.assertEqual(of.mock_calls, [] if file.is_stripped else [mock.call("f.so", 0x1040)])
            return nearest

        own, other = SourceLine("f", "a.c", 7), SourceLine("f", "a.c", 8)
        for is_stripped, found, wanted in (
            (False, ([own],), own),
            (False, ([SourceLine("f", "", 0)], [other], [own]), other),
            (False, ([SourceLine("h", "", 0), other],), other),
            (False, ([SourceLine("h", "b.c", 1)], [own]), None),
            (False, ([], [own]), None),
            (True, ([own],), None),
        ):
            file = SimpleNamespace(is_stripped=is_stripped, path="f.so")
            self.assertEqual(place(*found), wanted)


if __name__ == "__main__":
    unittest.main()
