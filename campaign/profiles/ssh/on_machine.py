#!/usr/bin/python3 -IS
"""A job of Snakemake on the first machine that has room, whose status it ends with: on_machine.py
SCRIPT.

The file `machines` names the machines, each with its number of places. A place is a lock, which this process
holds as long as it lives, and a log of what the machine said. A machine that can't be reached, or is lost on
the way, is left out for the job."""

import fcntl
import os
import shlex
import subprocess
import sys
import time

# The status with which ssh ends if it couldn't reach the machine, or lost it.
LOST_STATUS = 255
SSH = os.environ.get("PREDATOR_SSH", "ssh")
# No password is asked for, and a machine that says nothing for a minute, at the beginning or later, is lost.
OPTIONS = ["BatchMode=yes", "ConnectTimeout=60", "ServerAliveInterval=20", "ServerAliveCountMax=3"]


def list_places():
    """Each place of each machine, by turns, so that no machine is full before all have a job."""
    found = []
    with open("machines", encoding="utf-8") as file:
        for number, line in enumerate(file, 1):
            words = line.partition("#")[0].split()
            if not words:
                continue
            if len(words) > 2 or not words[-1].isdigit() and len(words) == 2:
                sys.exit(
                    f"machines:{number}: a line is a machine and how many jobs it takes, as `node1 8`"
                )
            found += [(at, words[0]) for at in range(int(words[1]) if len(words) == 2 else 1)]
    return sorted(found)


def take_place(left_out):
    """A machine with room, its place and the lock of that; none where no machine is left."""
    own = [place for place in list_places() if place[1] not in left_out]
    os.makedirs("places", exist_ok=True)
    while own:
        for at, machine in own:
            lock = os.open(f"places/{machine}-{at}", os.O_RDWR | os.O_CREAT, 0o666)
            try:
                fcntl.flock(lock, fcntl.LOCK_EX | fcntl.LOCK_NB)
                return machine, at, lock
            except OSError:
                os.close(lock)
        time.sleep(0.2)
    return None, None, None


def main(script):
    left_out = set()
    while True:
        machine, place, lock = take_place(left_out)
        if machine is None:
            print(f"no machine could be reached: {', '.join(sorted(left_out))}", file=sys.stderr)
            return 1
        command = (
            f"cd {shlex.quote(os.getcwd())} && exec bash {shlex.quote(os.path.abspath(script))}"
        )
        with open(f"places/{machine}-{place}.log", "ab") as log:
            words = [*SSH.split(), *(f"-o{it}" for it in OPTIONS), machine, command]
            status = subprocess.run(
                words, stdin=subprocess.DEVNULL, stdout=log, stderr=log
            ).returncode
        os.close(lock)
        if status != LOST_STATUS:
            return status
        left_out.add(machine)


sys.exit(main(sys.argv[1]))
