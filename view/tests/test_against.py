"""A view of one program compared with a kept one of another."""

import json
import os
import tempfile
import unittest

from calling import TURNS, built, joined, view


class Against(unittest.TestCase):
    def test_better_and_worse(self):
        with tempfile.TemporaryDirectory() as folder:
            old, former = os.path.join(folder, "old.json"), os.path.join(folder, "former.json")
            for path, version in ((old, "2"), (former, "1")):
                words = ("--set", "quantum=7", "--explain", "0", "--json", path)
                view("run", built("ring.elf"), *words, "--json-version", version)
            words = ("run", built("ring.elf"), *TURNS, "--explain", "0", "--against")
            _, text, _ = view(*words, old)
            self.assertEqual(text.replace(old, former), view(*words, former)[1])
            with open(old, encoding="utf-8") as file:
                found = json.load(file)
            total, objects = found["total"], {it["name"]: it for it in found["objects"]}
            rows = [it.split() for it in text.partition(f"against {old}:\n")[2].splitlines()]
            self.assertEqual(rows[0], "false before now true before now object".split())
            self.assertEqual(
                rows[1],
                [str(total["false_sharing"]), "342", str(total["true_sharing"]), "314"]
                + ["all:", "better"],
            )
            ring = objects["ring"]
            self.assertIn(
                [str(ring["false_sharing"]), "44", str(ring["true_sharing"]), "314", "ring"], rows
            )
            self.assertIn("298 298 0 0 stats".split(), rows)
            _, text, _ = view(
                "run", built("shards.elf"), *TURNS, "--explain", "0", "--against", old
            )
            table = joined(text.partition(f"against {old}:")[2])
            self.assertIn(
                f"{total['false_sharing']} 2,147 {total['true_sharing']} 0 all: worse", table
            )
            self.assertIn("- 2,147 - 0 shards (new)", table)
            self.assertIn(f"{objects['stats']['false_sharing']} - 0 - stats (gone)", table)
            status, text, _ = view(
                "run",
                built("shards.elf"),
                *TURNS,
                "--explain",
                "0",
                "--against",
                old,
                "--json",
                old,
            )
            self.assertEqual((status, "stats (gone)" in text), (0, True))
            head = '{"format": "predator view 1", "outcome": "exit 0", "total": null, "objects": '
            bad_objects = (
                "3",
                "[3]",
                '[{"key": "symbol a"}]',
                '[{"key": [], "name": "a", "useless": 1, "count": 1, "beside": [], "words": []}]',
            )
            for bad in (
                "{}",
                "[",
                "{" * 99999,
                '{"format": "predator view 2"}',
                '{"format": "predator view 3"}',
                head.replace("view 1", "view 2") + "3}",
                '{"a":' * 99999,
                *(f"{head}{it}}}" for it in bad_objects),
            ):
                with open(old, "w", encoding="utf-8") as file:
                    file.write(bad)
                status, _, said = view(
                    "run",
                    built("shards.elf"),
                    "--explain",
                    "0",
                    "--against",
                    old,
                    lacks="misses explain",
                )
                self.assertEqual(
                    (status, said.count("\n"), said.startswith("predator view: ")),
                    (2, 1, True),
                    bad[:99],
                )


if __name__ == "__main__":
    unittest.main()
