#!/usr/bin/env python3
"""Makes the pictures of the documents: pages of the program, as Debian's chromium shows them.

Each picture is a PNG of at most 100 KB in docs/pictures. Nothing in
them is drawn by hand. It needs the program, chromium and what `predator view` needs: without chromium the
status is 77, and no picture is changed."""

import argparse
import os
import shutil
import subprocess
import sys
import tempfile

TOP = os.path.abspath(os.path.join(os.path.dirname(os.path.abspath(__file__)), ".."))
# Of each picture the calls that make its page, in a folder of their own, and the width and height that are
# shown.
PICTURES = {
    "view": (
        [["view", "run", f"{TOP}/guest/built/counters.elf", "--html", "page.html"]],
        1000,
        672,
    ),
    "sweep": (
        [
            [
                "run",
                f"{TOP}/guest/built/studies/linear_regression.elf",
                "--trace",
                "linear_regression",
            ],
            ["view", "sweep", "linear_regression", "--size", "64", "--html", "page.html"],
        ],
        *(1000, 640),
    ),
}
MOST = 100_000
# Of a call that fails, the last characters of what it said are shown.
SAID = 2000


def run(words: list[str], folder: str) -> None:
    """Runs a command, and gives up with what it said if it fails."""
    done = subprocess.run(
        words, cwd=folder, capture_output=True, encoding="utf-8", errors="replace", timeout=600
    )
    if done.returncode:
        raise SystemExit(f"{' '.join(words)}: status {done.returncode}\n{done.stderr[-SAID:]}")


def draw(name: str, browser: str) -> str:
    """Makes a picture, and says what it takes. One that is too large or can't be made leaves the old one as
    it is."""
    calls, width, height = PICTURES[name]
    to = os.path.join(TOP, "docs/pictures", f"{name}.png")
    with tempfile.TemporaryDirectory() as folder:
        for words in calls:
            run([os.path.join(TOP, "bin/predator"), *words], folder)
        made = os.path.join(folder, "picture.png")
        options = [
            "--headless",
            "--no-sandbox",
            "--disable-gpu",
            "--hide-scrollbars",
            "--force-device-scale-factor=0.9",
            f"--user-data-dir={folder}/user",
        ]
        run(
            [
                browser,
                *options,
                f"--window-size={width},{height}",
                f"--screenshot={made}",
                f"file://{folder}/page.html",
            ],
            folder,
        )
        if not os.path.exists(made):
            raise SystemExit(f"{browser} made no picture of {name}")
        size = os.path.getsize(made)
        if size > MOST:
            raise SystemExit(f"{name}: {size} bytes, and at most {MOST} are allowed")
        os.makedirs(os.path.dirname(to), exist_ok=True)
        shutil.copyfile(made, to)
    return f"{os.path.relpath(to, TOP)}: {size} bytes"


def main(words: list[str]) -> int:
    parser = argparse.ArgumentParser(
        description=__doc__, formatter_class=argparse.RawDescriptionHelpFormatter
    )
    parser.add_argument("names", nargs="*", metavar="NAME", help="the pictures (all)")
    names: list[str] = parser.parse_args(words).names
    unknown = [it for it in names if it not in PICTURES]
    if unknown:
        print(f"there is no picture {unknown[0]}: there are {', '.join(PICTURES)}", file=sys.stderr)
        return 2
    browser = shutil.which("chromium")
    if browser is None:
        print("chromium isn't installed (Debian: apt-get install chromium)", file=sys.stderr)
        return 77
    for name in names or PICTURES:
        print(draw(name, browser))
    return 0


if __name__ == "__main__":
    sys.exit(main(sys.argv[1:]))
