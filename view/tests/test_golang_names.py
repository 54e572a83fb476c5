"""The names of code, call sites and memory of a stripped program of Go."""

import functools
import os
import sys
import unittest
from unittest import mock

from calling import TOP

sys.path[:0] = [TOP, os.path.join(TOP, "native", "others")]

from view.names import demangling  # noqa: E402
from view.model.object_keys import FileKey  # noqa: E402
from view.main import lacking  # noqa: E402
from view.names.naming import Naming  # noqa: E402
from view.names.native import NativeProgram, NativeSources, Site  # noqa: E402
from view.model.objects import DataObject  # noqa: E402
from pclntab import TEXT, Made  # noqa: E402
from view.reading.reports import Site as Called  # noqa: E402
from run import is_named  # noqa: E402
from view.names.source_lines import SourceLine  # noqa: E402
from view.names.unnamed_memory import is_unnamed, name_by_users  # noqa: E402
from go_frames import B, OfBytes  # noqa: E402


class Native:
    """A program of this machine: a file with a table, and one without."""

    def __init__(self, path):
        self.path, self.map, self.go_tables, self.own = (
            path,
            mock.Mock(frames={}, sites={}),
            {},
            None,
        )
        self.one, self.other = mock.Mock(path=path, debug="/bin/sh"), mock.Mock(
            path="/bin/sh", debug="/bin/sh"
        )
        self.go_table, self.go_frames = (
            functools.partial(method, self)
            for method in (NativeProgram.go_table, NativeProgram.go_frames)
        )

    def file(self, addr):
        return (self.one if addr < 1 << 31 else self.other), addr % (1 << 31)

    def library_place(self, addr):
        own, at = self.file(addr)
        return f"{os.path.basename(own.path)}+{at:#x}"


class Names(OfBytes):
    def naming(self):
        self.assertIsNotNone(self.table(Made()))
        native = Native(self.path)
        return Naming(None, native, NativeSources(native)), native

    def test_instructions(self):
        naming, _ = self.naming()
        for at, wanted in (
            (0, "b.go:7 (main.plain)"),
            (48, "b.go:20 (lib.inner < main.outer)"),
            (64, "b.go:50 (lib.deep < lib.inner)"),
            (96, "c.go:1000000 (github.com/x/y.v3.(*T).M)"),
            (112, "a.go:90"),
            (144, f"program+{TEXT + 144:#x} (main.unknown)"),
            (176, f"program+{TEXT + 176:#x}"),
        ):
            self.assertEqual(naming.instruction_name(TEXT + at), wanted)
        self.assertEqual(
            naming.names.shorten(naming.instruction_name(TEXT + 96)), "c.go:1000000 (y.v3.(*T).M)"
        )
        self.assertEqual(naming.instruction_name((1 << 31) + 0x40), "sh+0x40")

    def test_call_sites(self):
        naming, _ = self.naming()
        sites = [Called(TEXT + at, "-") for at in (64, 31, 144, 0x100)]
        # (a function that is called has its own name, and not that of what is inlined)
        self.assertEqual(
            [naming.function_name(it) for it in sites[:2]], ["main.outer", "main.plain"]
        )
        self.assertEqual(
            [naming.function_name(it) for it in sites[2:]],
            [f"program+{TEXT + 144:#x}", f"program+{TEXT + 0x100:#x}"],
        )
        self.assertEqual(naming.block_name(sites[:2]), "block made at b.go:50 < main.plain")
        self.assertEqual(naming.function_name(Called(TEXT, "own")), "own")

    def test_other_sources_of_names(self):
        """Debug information comes before the table, and the recorder's names come last."""
        _, native = self.naming()
        native.map.sites = {TEXT + at: [Site("recorded", "r.c:1")] for at in (0, 144)}
        answers = [
            {"Symbol": [frame]}
            for frame in (
                {"FunctionName": "own", "FileName": "/own.c", "Line": 3},
                {"FunctionName": "own"},
                {},
            )
        ]
        with mock.patch("view.names.native.symbolize", return_value=[*answers, *answers]):
            sources = NativeSources(native)
            sources.find([TEXT, TEXT + 16, TEXT + 24, TEXT + 144, TEXT + 164, TEXT + 176])
        self.assertEqual(sources.frames(TEXT), [SourceLine("own", "/own.c", 3)])
        self.assertEqual(sources.frames(TEXT + 16), [SourceLine("main.plain", B, 8)])
        self.assertEqual(sources.frames(TEXT + 24), [SourceLine("main.plain", B, 6)])
        self.assertEqual(sources.frames(TEXT + 144), [SourceLine("own", "/own.c", 3)])
        self.assertEqual(sources.frames(TEXT + 164), [SourceLine("own", "", 0)])
        with mock.patch("view.names.native.symbolize", return_value=[answers[1]]):
            sources = NativeSources(native)
            self.assertEqual(sources.frames(TEXT + 144), [SourceLine("recorded", "r.c", 1)])
            native.map.sites = {}
            sources = NativeSources(native)
            self.assertEqual(sources.frames(TEXT + 144), [SourceLine("own", "", 0)])

    def test_short_names(self):
        names = demangling.SymbolNames()
        for whole, wanted in (
            ("github.com/junegunn/fzf/src.(*Matcher).scan.func1", "src.(*Matcher).scan.func1"),
            ("gopkg.in/yaml%2ev3.(*parser).parse", "yaml.v3.(*parser).parse"),
            ("type..eq.github.com/junegunn/fzf/src.previewed", "type..eq.src.previewed"),
            ("type:.hash.net/http.Cookie", "type:.hash.http.Cookie"),
            ("type..eq.[...]internal/cpu.option", "type..eq.[...]internal/cpu.option"),
            ("sync/atomic.(*Pointer[...]).Load", "atomic.(*Pointer[...]).Load"),
            ("main.most[go.shape.int]", "main.most[go.shape.int]"),
            ("main.(*stack[go.shape.int]).push", "main.(*stack[go.shape.int]).push"),
            (
                "tls12.PRF[go.shape.interface { Reset(); Write([]uint8) (int, error) }]",
                "tls12.PRF[...]",
            ),
            (
                "a/sync.(*Map[go.shape.interface {},go.shape.interface {}]).Load",
                "sync.(*Map[...]).Load",
            ),
        ):
            self.assertEqual(names.shorten(names.readable_name(whole)), wanted)

    def test_atomic_operations(self):
        files = (
            "/usr/lib/go-1.19/src/runtime/internal/atomic/types.go",
            "sync/atomic/type.go",
            "internal/runtime/atomic/types.go",
        )
        for file in files:
            frames = [SourceLine("atomic.Add", file, 3), SourceLine("main.own", "own.go", 4)]
            self.assertEqual(
                Naming(
                    None, None, mock.Mock(frames=lambda _, frames=frames: frames)
                ).instruction_name(8),
                "own.go:4 (main.own)",
            )
        for file in ("x/unsync/atomic/x.go", "x/sync/atomic/x.h"):
            frames = [SourceLine("x.Add", file, 3), SourceLine("main.own", "own.go", 4)]
            name = Naming(
                None, None, mock.Mock(frames=lambda _, frames=frames: frames)
            ).instruction_name(8)
            self.assertEqual(name, f"{os.path.basename(file)}:3 (x.Add < main.own)")

    def test_memory_of_a_file(self):
        naming, native = self.naming()
        obj = DataObject(FileKey("file", self.path), None)
        self.assertTrue(is_unnamed(obj, naming))
        for pcs, wanted in (
            (
                [TEXT, TEXT + 48],
                "memory of program, used at b.go:7 (main.plain) and b.go:20 (lib.inner < main.outer)",
            ),
            (
                [TEXT, TEXT + 1, TEXT + 48],
                "memory of program, used at b.go:7 (main.plain) and b.go:20 (lib.inner < main.outer)",
            ),
            ([TEXT + 176, TEXT + 176], f"memory of program, used at program+{TEXT + 176:#x}"),
        ):
            obj.name = naming.object_name(obj.key, None)
            name_by_users(obj, pcs, naming)
            self.assertEqual(obj.name, wanted)

    def test_what_counts_as_named(self):
        for name, wanted in (
            ("memory of fd, used at fd+0x10 and fd+0x20", False),
            ("memory of fd, used at fd+0x10", False),
            ("memory of fd, used at fd+0x10 and libc.so.6+0x20", False),
            ("memory of fd, used at a.go:7 (main.work) and fd+0x20", True),
            ("memory of fd, used at fd+0x20 and a.go:7", True),
            ("memory of data file, used at fd+0x10 and fd+0x20", True),
            ("memory used at a.go:7 (lib.(*T).M) and fd+0x20", True),
        ):
            self.assertEqual(is_named(name), wanted, name)

    def test_whose_table_it_is(self):
        _, native = self.naming()
        self.assertFalse(NativeProgram.has_go_table(native))
        for native.own, wanted in ((native.one, True), (native.other, False)):
            self.assertEqual(NativeProgram.has_go_table(native), wanted)

    def test_what_is_lacking(self):
        package = ", or install its debug package (Debian: NAME-dbgsym)"
        go = "Go's function table but no types, so fields are unknown"
        none = "no debug information, so fields and source lines are unknown: build it with -g"
        near = "; `near a panic at` names a panic of the same function, not the instruction itself"
        self.assertEqual(lacking(None), none)
        refers = "; `near` and `in a method of` name something that the function refers to, not the instruction itself"
        for has_table, has_panics, has_landmarks, wanted in (
            (False, False, False, none + package),
            (False, True, True, none + package + near),
            (False, False, True, none + package + refers),
            (
                True,
                False,
                True,
                f"{go}: link it without -s and -w in -ldflags{package}",
            ),
        ):
            asked = {
                "has_go_table": has_table,
                "has_panics": has_panics,
                "has_landmarks": has_landmarks,
            }
            self.assertEqual(
                lacking(
                    mock.Mock(
                        **{name: lambda answer=answer: answer for name, answer in asked.items()}
                    )
                ),
                wanted,
            )


if __name__ == "__main__":
    unittest.main()
