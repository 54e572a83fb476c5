"""The fixes on the screens of small programs, and the same programs after them."""

import json
import os
import tempfile
import unittest

from calling import TURNS, ScreenTest, built, view


class Fixes(ScreenTest):
    def test_shards_and_packed_slots(self):
        _, text, _ = view("run", built("shards.elf"), *TURNS, "--explain", "0")
        self.shows(
            text,
            "give each element of shards its own line: struct __attribute__((aligned(64))) shard (shards.c:13)",
            "saves up to 2,147 of 2,147 misses",
        )
        _, text, _ = view("run", built("anderson.elf"), *TURNS, "--explain", "0")
        self.shows(
            text,
            "1 478 98 198 1 lock: struct, anderson.c:19",
            "give each element of lock.slots its own line",
            "none: all its misses are true sharing; write guarded less often, or give each thread its own copy",
        )
        # (a line that the report doesn't list)
        self.shows(
            text,
            "2 0 97 99 1 guarded: uint32_t, anderson.c:21 who used by several threads: guarded (100 writes, 100 reads)",
        )

    def test_a_byte_for_each_slot(self):
        _, text, _ = view("run", built("flags.elf"), *TURNS, "--explain", "0")
        self.shows(
            text,
            "1 408 458 297 1 lock: struct, flags.c:21",
            "used by several threads: .slots[4..7].is_free (97 writes, 648 reads)",
            "each element of lock.slots (several threads; struct __attribute__((aligned(64))) slot (flags.c:14))",
        )
        self.shows(
            text,
            "saves up to 408 of 866 misses, or more: several fields or elements lie in one word of lock.slots[4..7].is_free",
        )
        _, text, _ = view("run", built("flags.elf"), "--explain", "0")
        self.shows(
            text,
            "1 0 98",
            "by whole 4-byte words, and several fields or elements lie in one word: "
            "where threads use different ones, give each its own line and run again",
        )
        self.shows(
            text,
            "quantum 100 may hide false sharing here: try --set quantum=1 too",
        )

    def test_pieces_of_one_block(self):
        _, text, _ = view("run", built("pieces.elf"), *TURNS, "--explain", "1")
        self.shows(
            text,
            "1 872 1 598 1 block made at pieces.c:41 < main",
            "in an array put __attribute__((aligned(64))) on the element's type and aligned_alloc(64, ..)",
        )
        self.shows(
            text,
            "in an arena round the start and the size of each piece up to multiples of 64 (--type pieces.c:41=TYPE names its fields)",
        )
        # (an instruction that the compiler made of two lines)
        self.shows(
            text,
            "near pieces.c:28 (work) invalidates near pieces.c:28 (work): 380 times, always different words",
        )

    def test_what_a_guest_says_is_handed_on_once(self):
        words, says = (
            "run",
            built("ring.elf"),
            *TURNS,
            "--explain",
            "1",
        ), "predator: exit 7\nworker 3 of 4"
        for lacks in ("", "pipes", "misses"):
            status, text, _ = view(*words, lacks=lacks)
            self.assertEqual(view(*words, lacks=lacks, STAND_IN_SAYS=says), (status, text, says))
        status, _, said = view(*words, "--fail-above", "297", STAND_IN_SAYS=says + "\n")
        self.assertEqual(
            (status, said),
            (1, says + "\npredator view: stats has 298 false-sharing misses, more than 297\n"),
        )

    def test_what_the_screen_says_mends_it(self):
        for name, start in (
            ("ring", "stats"),
            ("arena", "block"),
            ("shards", "shards"),
            ("anderson", "lock"),
            ("flags", "lock"),
            ("pieces", "block"),
        ):
            with tempfile.TemporaryDirectory() as folder:
                path = os.path.join(folder, "json")
                view("run", built(f"{name}-repaired.elf"), *TURNS, "--explain", "0", "--json", path)
                with open(path, encoding="utf-8") as file:
                    left = [
                        obj["false_sharing"]
                        for obj in json.load(file)["objects"]
                        if obj["name"].startswith(start)
                    ]
                self.assertEqual(sum(left), 0, name)


if __name__ == "__main__":
    unittest.main()
