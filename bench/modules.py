#!/usr/bin/env python3
"""Says what the parts of a crate's proof take.

It proves a crate from nothing, over libraries that are built, and prints how many seconds its COUNT dearest
modules took. The prover writes a file for each module once it is checked, so
the time between two files is that of the later one. What `out/` holds of the crate is put aside, and comes
back; what `rt ci` kept on this machine counts as proved."""

import argparse
import os
import shutil
import subprocess
import sys

TOP = os.path.join(os.path.dirname(os.path.abspath(__file__)), "..")


def module_times(folder):
    """The seconds of each module, by the files' times."""
    files = sorted(
        (os.stat(os.path.join(at, path)).st_mtime, path)
        for at, _, names in os.walk(folder)
        for path in names
    )
    return [(now - before, name) for (before, _), (now, name) in zip(files, files[1:])]


def main():
    parser = argparse.ArgumentParser(
        description=__doc__, formatter_class=argparse.RawDescriptionHelpFormatter
    )
    parser.add_argument("crate", metavar="CRATE")
    parser.add_argument(
        "count", nargs="?", type=int, default=20, metavar="COUNT", help="how many modules (20)"
    )
    call = parser.parse_args()
    crate = os.path.join(TOP, "crates", call.crate)
    out, aside = os.path.join(crate, "out"), os.path.join(crate, "out.aside")
    shutil.rmtree(aside, ignore_errors=True)
    if os.path.isdir(out):
        os.rename(out, aside)
    try:
        status = subprocess.run(
            ["rt", "check", "--jobs", "1"], cwd=crate, stdout=subprocess.DEVNULL
        ).returncode
        found = module_times(os.path.join(out, "incremental"))
    finally:
        shutil.rmtree(out, ignore_errors=True)
        if os.path.isdir(aside):
            os.rename(aside, out)
    for seconds, module in sorted(found, reverse=True)[: call.count]:
        print(f"{seconds:7.1f} {module.removesuffix('.oantt')}")
    print(f"{sum(it for it, _ in found):7.1f} all")
    return status


sys.exit(main())
