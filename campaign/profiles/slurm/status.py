#!/usr/bin/python3 -IS
"""The state of a job of Slurm, as Snakemake asks for it: status.py JOB. Only the controller is asked, so no
accounting is needed."""

import re
import subprocess
import sys

ACTIVE_STATES = (
    "PENDING",
    "CONFIGURING",
    "RUNNING",
    "SUSPENDED",
    "COMPLETING",
    "REQUEUED",
    "RESIZING",
    "STAGE_OUT",
    "SIGNALING",
)


def call(*words):
    ran = subprocess.run(words, capture_output=True, text=True, stdin=subprocess.DEVNULL)
    return ran.returncode, ran.stdout + ran.stderr


def job_state(job):
    status, text = call("scontrol", "--oneliner", "show", "job", job)
    state = re.search(r"\bJobState=(\w+)", text)
    if state is None:
        # Slurm forgets a job minutes after its end. Whether it succeeded is in its result, which Snakemake
        # looks for; a controller that doesn't answer is asked again.
        return "success" if status and "Invalid job id" in text else "running"
    if state[1] == "COMPLETED":
        return "success"
    return "running" if state[1] in ACTIVE_STATES else "failed"


print(job_state(sys.argv[1]))
