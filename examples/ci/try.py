#!/usr/bin/env python3
"""Tries the files of this folder as far as that goes without a network: the YAML is parsed and has the keys
that its service wants, and the commands in it are run by a shell in a folder with examples/hits.c, where
`apt-get` only notes what is asked for and `predator` is that of this checkout. They must fail where an object
has more misses than they allow, and not where it has fewer; and they must leave the files that are uploaded.
The Dockerfile has instructions that docker knows, in an order that it takes, and bash reads its commands; it
isn't built, which takes a network.

Its last line is `N passed, M failed, K skipped`."""

import argparse
import json
import os
import re
import shutil
import subprocess
import sys
import tempfile
from pathlib import Path
from typing import Any

import yaml

HERE = Path(__file__).resolve().parent
TOP = HERE.parent.parent
INSTRUCTIONS = {"FROM", "COPY", "RUN", "WORKDIR", "ENTRYPOINT", "CMD"}
counts = {"passed": 0, "failed": 0, "skipped": 0}


def expect(name: str, wanted: object, found: object) -> None:
    counts["passed" if wanted == found else "failed"] += 1
    if wanted != found:
        print(f"FAILED {name}: expected {wanted!r}, got {found!r}")


def read_yaml(name: str) -> Any:
    with open(HERE / name, encoding="utf-8") as file:
        return yaml.safe_load(file)


def run_commands(commands: list[str], variables: dict[str, str], predator: str) -> tuple[int, Path]:
    """The status of commands that a runner would run one after the other, and the folder in which they ran.
    Who calls removes that."""
    folder = Path(tempfile.mkdtemp(prefix="predator-ci-"))
    tools = folder / "bin"
    tools.mkdir()
    shutil.copy(TOP / "examples" / "hits.c", folder)
    (folder / "ci").mkdir()
    (folder / "ci" / "predator_1_amd64.deb").touch()
    (tools / "apt-get").write_text(f'#!/bin/sh\necho "$@" >>{folder}/apt-get\n')
    # (it is built already, or by who tries the recorders)
    (tools / "predator").write_text(
        f'#!/bin/sh\n[ "$*" = "native --build" ] || exec {predator} "$@"\n'
    )
    for tool in tools.iterdir():
        tool.chmod(0o755)
    status = subprocess.run(
        ["bash", "-e", "-c", "\n".join(commands)],
        cwd=folder,
        env={**os.environ, **variables, "PATH": f"{tools}:{os.environ['PATH']}"},
        stdout=subprocess.DEVNULL,
        stderr=subprocess.PIPE,
        timeout=600,
    )
    (folder / "said").write_bytes(status.stderr)
    return status.returncode, folder


def try_commands(name: str, commands: list[str], variables: dict[str, str], predator: str) -> None:
    for allowed, wanted in (("100", 1), ("100000", 0)):
        status, folder = run_commands(commands, {**variables, "FAIL_ABOVE": allowed}, predator)
        expect(f"{name}, at most {allowed}: status", wanted, status)
        if status != wanted:
            print((folder / "said").read_text(errors="replace")[-500:])
        with open(folder / "false-sharing.sarif", encoding="utf-8") as file:
            found = {it["ruleId"] for it in json.load(file)["runs"][0]["results"]}
        expect(f"{name}, at most {allowed}: SARIF", True, "false-sharing" in found)
        page = (folder / "false-sharing.html").read_text(encoding="utf-8")
        expect(f"{name}, at most {allowed}: the page", True, "hits.c" in page)
        asked = (folder / "apt-get").read_text()
        expect(f"{name}, at most {allowed}: the package", True, "/predator_1_amd64.deb " in asked)
        shutil.rmtree(folder)


def try_github(predator: str) -> None:
    action, workflow = read_yaml("github/action.yml"), read_yaml("github/workflow.yml")
    expect("action: keys", {"name", "description", "inputs", "runs"}, set(action))
    expect("action: kind", "composite", action["runs"]["using"])
    expect("action: shells", {"bash"}, {it["shell"] for it in action["runs"]["steps"]})
    # (`on` is a truth value in YAML)
    expect("workflow: keys", {"name", True, "permissions", "jobs"}, set(workflow))
    (job,) = workflow["jobs"].values()
    expect("workflow: system", "debian:12", job["container"])
    given = next(it["with"] for it in job["steps"] if "false-sharing" in it.get("uses", ""))
    expect("workflow: inputs", [], sorted(set(given) - set(action["inputs"])))
    names = set(re.findall(r"inputs\.([\w-]+)", (HERE / "github/action.yml").read_text()))
    expect("action: inputs", set(action["inputs"]), names)
    commands = [it["run"] for it in (*job["steps"], *action["runs"]["steps"]) if "run" in it]
    package = action["inputs"]["package"]["default"]
    try_commands("github", commands, {"PROGRAM": given["program"], "PACKAGE": package}, predator)


def try_gitlab(predator: str) -> None:
    jobs = read_yaml("gitlab.yml")
    (job,) = jobs.values()
    expect("gitlab: system", "debian:12", job["image"])
    expect("gitlab: artifacts", "always", job["artifacts"]["when"])
    try_commands("gitlab", [*job["before_script"], *job["script"]], job["variables"], predator)


def try_dockerfile() -> None:
    text = (HERE / "Dockerfile").read_text(encoding="utf-8")
    rows = [it for it in text.replace("\\\n", " ").split("\n") if it and not it.startswith("#")]
    names = [it.split()[0] for it in rows]
    expect("Dockerfile: instructions", set(), set(names) - INSTRUCTIONS)
    expect("Dockerfile: the first", "FROM debian:12-slim", rows[0])
    for name in ("ENTRYPOINT", "CMD"):
        (own,) = [it.partition(" ")[2] for it in rows if it.startswith(name)]
        expect(f"Dockerfile: {name} is a list", list, type(json.loads(own)))
    (run,) = [it.partition(" ")[2] for it in rows if it.startswith("RUN")]
    expect("Dockerfile: bash reads RUN", 0, subprocess.run(["bash", "-n", "-c", run]).returncode)
    steps = [it.split()[:2] for it in run.split("&&")]
    wanted = [["apt-get", "update"], ["apt-get", "install"], ["rm", "-rf"], ["predator", "native"]]
    expect("Dockerfile: steps", wanted, steps)


def main() -> int:
    parser = argparse.ArgumentParser(
        description=__doc__, formatter_class=argparse.RawDescriptionHelpFormatter
    )
    parser.add_argument(
        "predator",
        nargs="?",
        default=str(TOP / "bin" / "predator"),
        metavar="PREDATOR",
        help="the command predator (bin/predator of this checkout)",
    )
    predator = parser.parse_args().predator
    if not (TOP / "native" / "out" / "predator-amd64-linux").exists():
        subprocess.run([TOP / "native" / "build"], stdout=subprocess.DEVNULL, check=True)
    try_github(predator)
    try_gitlab(predator)
    try_dockerfile()
    print(", ".join(f"{count} {name}" for name, count in counts.items()))
    return 1 if counts["failed"] else 0


if __name__ == "__main__":
    sys.exit(main())
