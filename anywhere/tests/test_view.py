"""`predator view --page-app` and `--live`: what they write, and what they refuse."""

from __future__ import annotations

import base64
import hashlib
import os
import re
import shutil
import tempfile
import unittest

from calling import EXAMPLES, LAUNCHER, TOP, native_program, run_in

MAX_LINES_OF_SCRIPT = 1200
# A trace of 8 bytes an access that is larger than a page takes.
LARGE_ACCESSES = 3_000_000


def view(folder: str, *words: str) -> tuple[int, str]:
    ran = run_in(folder, [LAUNCHER], ["view", *words])
    return ran.returncode, ran.stderr.decode()


class Pages(unittest.TestCase):
    def setUp(self) -> None:
        work = tempfile.TemporaryDirectory(prefix="predator-view-")
        self.addCleanup(work.cleanup)
        self.folder = work.name
        shutil.copy(os.path.join(EXAMPLES, "queue.trace"), self.folder)

    def read(self, name: str) -> str:
        with open(os.path.join(self.folder, name), encoding="utf-8") as file:
            return file.read()

    def test_allows_its_own_script_and_no_connection(self) -> None:
        self.assertEqual(view(self.folder, "--page-app", "page.html"), (0, ""))
        page = self.read("page.html")
        (policy,) = re.findall(r'http-equiv="Content-Security-Policy" content="([^"]*)"', page)
        self.assertTrue(policy.startswith("default-src 'none'; "))
        self.assertNotIn("connect-src", policy)
        self.assertNotRegex(policy, r"http|\*|unsafe-inline")
        (script,) = re.findall(r"<script>(.*?)</script>", page, re.DOTALL)
        digest = base64.b64encode(hashlib.sha256(script.encode()).digest()).decode()
        self.assertIn(f"'sha256-{digest}'", policy)
        self.assertEqual(re.findall(r'(?:src|href)="', page), [])

    def test_writes_the_same_bytes_again(self) -> None:
        for name in ("one.html", "other.html"):
            self.assertEqual(view(self.folder, "--page-app", name), (0, ""))
            live = ["--html", f"live-{name}", "--live"]
            self.assertEqual(view(self.folder, "replay", "queue.trace", *live)[0], 0)
        self.assertEqual(self.read("one.html"), self.read("other.html"))
        self.assertEqual(self.read("live-one.html"), self.read("live-other.html"))

    def test_refuses_what_it_cannot_write(self) -> None:
        large = ["gen", f"{LARGE_ACCESSES}", "large.trace"]
        run_in(self.folder, [native_program()], large)
        report = run_in(self.folder, [native_program()], ["replay", "queue.trace"]).stdout
        with open(os.path.join(self.folder, "report"), "wb") as file:
            file.write(report)
        for words, status, said in (
            (["--page-app"], 1, "'--page-app' takes one name"),
            (["--page-app", "a", "b"], 1, "'--page-app' takes one name"),
            (["--page-app", "no/folder"], 2, "no/folder: No such file"),
            (["queue.trace", "--live"], 2, "'--live' needs '--html'"),
            (["report", "--html", "f", "--live"], 2, "'--live' needs a trace"),
            (["large.trace", "--html", "f", "--live"], 2, "at most 20,971,520"),
        ):
            found = view(self.folder, *words)
            with self.subTest(words=words):
                self.assertEqual(found[0], status)
                self.assertIn(said, found[1])

    def test_has_few_lines_of_script(self) -> None:
        folder = os.path.join(TOP, "anywhere")
        lines = 0
        for name in os.listdir(folder):
            if name.endswith(".mjs"):
                with open(os.path.join(folder, name), encoding="utf-8") as file:
                    lines += len(file.readlines())
        self.assertLessEqual(lines, MAX_LINES_OF_SCRIPT)


if __name__ == "__main__":
    unittest.main()
