"""A test of sharing in a program's own build, as guest/README.md shows it: its Makefile and its CMakeLists.txt are tried as they stand
there."""

import os
import re
import shutil
import subprocess
import tempfile
import unittest

from calling import STAND_IN, TOP

LACKS = [it for it in ("cmake", "ctest", "make", "clang", "ld.lld") if shutil.which(it) is None]
PICOLIBC = "/usr/lib/picolibc/riscv64-unknown-elf"
# Two harts, each with a word of its own: on one line, or apart.
SOURCE = """#include <pthread.h>
static struct {
    _Alignas(LINE) volatile unsigned head;
    _Alignas(LINE) volatile unsigned tail;
} queue;
static void *give(void *unused)
{
    for (int i = 0; i < 4000; i++)
        queue.head++;
    return unused;
}
int main(void)
{
    pthread_t giver;
    if (pthread_create(&giver, 0, give, 0) != 0)
        return 1;
    for (int i = 0; i < 4000; i++)
        queue.tail++;
    pthread_join(giver, 0);
    return 0;
}
"""


def shown(first):
    """The block of guest/README.md whose first line begins so."""
    with open(os.path.join(TOP, "guest", "README.md"), encoding="utf-8") as file:
        text = file.read()
    return re.sub(
        "^    ",
        "",
        re.search(rf"^    {re.escape(first)}.*\n(?:(?:    .*)?\n)*", text, re.MULTILINE)[0],
        flags=re.MULTILINE,
    )


@unittest.skipUnless(
    not LACKS and os.path.isdir(PICOLIBC), f"{' '.join(LACKS) or 'picolibc'} isn't installed"
)
class Builds(unittest.TestCase):
    def setUp(self):
        self.folder = tempfile.mkdtemp()
        self.addCleanup(shutil.rmtree, self.folder)
        program = os.environ.get("PREDATOR_PROGRAM") or STAND_IN
        path = f"{TOP}/bin:{os.environ['PATH']}"
        self.env = {
            **os.environ,
            "PATH": path,
            "PREDATOR": TOP,
            "PREDATOR_PROGRAM": program,
            "PREDATOR_BUILD": "no",
        }

    def write(self, name, text):
        with open(os.path.join(self.folder, name), "w", encoding="utf-8") as file:
            file.write(text)

    def call(self, *words):
        ran = subprocess.run(
            words,
            cwd=self.folder,
            env=self.env,
            capture_output=True,
            text=True,
            stdin=subprocess.DEVNULL,
        )
        return ran.returncode, ran.stdout + ran.stderr

    def test_make(self):
        self.write("Makefile", shown("check: queue_test.elf"))
        self.write("queue_test.c", SOURCE.replace("LINE", "4"))
        status, said = self.call("make", "check")
        self.assertEqual(status, 2, said)
        self.assertRegex(
            said, "predator view: queue has [0-9,]+ false-sharing misses, more than 100"
        )
        self.write("queue_test.c", SOURCE.replace("LINE", "64"))
        os.remove(os.path.join(self.folder, "queue_test.elf"))
        status, said = self.call("make", "check")
        self.assertEqual(status, 0, said)

    def test_cmake(self):
        self.write("CMakeLists.txt", shown("cmake_minimum_required"))
        self.write("queue_test.c", SOURCE.replace("LINE", "4"))
        status, said = self.call(
            "cmake", "-S", ".", "-B", "built", f"-DCMAKE_TOOLCHAIN_FILE={TOP}/guest/toolchain.cmake"
        )
        self.assertEqual(status, 0, said)
        for line, wanted in (("4", 8), ("64", 0)):
            self.write("queue_test.c", SOURCE.replace("LINE", line))
            status, said = self.call("cmake", "--build", "built")
            self.assertEqual(status, 0, said)
            status, said = self.call("ctest", "--test-dir", "built", "--output-on-failure")
            self.assertEqual(status, wanted, said)
            if wanted:
                self.assertRegex(
                    said, "predator view: queue has [0-9,]+ false-sharing misses, more than 100"
                )


if __name__ == "__main__":
    unittest.main()
