"""The file `campaign.json` in the folder of a campaign: what its plan asks for, expanded."""

import hashlib
import json
import os
from typing import Any, Iterable

# A value of JSON with keys: a campaign, a part of one, or the results of a run.
Record = dict[str, Any]
CAMPAIGN = "campaign.json"


def read_campaign(folder: str) -> Record:
    with open(os.path.join(folder, CAMPAIGN), encoding="utf-8") as file:
        campaign: Record = json.load(file)
        return campaign


def fold_ranges(seeds: Iterable[int]) -> list[list[int]]:
    """The seeds as ranges, each a first and a last one."""
    ranges: list[list[int]] = []
    for seed in seeds:
        if ranges and ranges[-1][1] == seed - 1:
            ranges[-1][1] = seed
        else:
            ranges.append([seed, seed])
    return ranges


def seeds_of_batch(batch: Record) -> list[int]:
    return [seed for first, last in batch["seeds"] for seed in range(first, last + 1)]


def group_inputs(campaign: Record, group: Record) -> Record:
    """Everything that a result of a group depends on, except for its seed."""
    program = campaign["programs"][group["program"]]
    return {
        "predator": campaign["predator"]["sha256"],
        "program": program["sha256"],
        "schedule": program["schedule"]["sha256"] if program["schedule"] else None,
        "settings": group["settings"],
    }


def short_sum(value: object) -> str:
    """The first digits of a value's SHA-256, for names of files."""
    return hashlib.sha256(json.dumps(value).encode()).hexdigest()[:12]


def campaign_text(campaign: Record) -> str:
    return json.dumps(campaign, indent=1, sort_keys=True) + "\n"


def settings_name(group: Record) -> str:
    """The settings of a group in one word, as tables and pages show them."""
    return ",".join(f"{key}={value}" for key, value in group["settings"].items()) or "usual"
