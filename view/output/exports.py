"""Outputs for machines: JSON by view/output/schema.json, and SARIF 2.1.0, which editors and code hosts show at the source's line."""

import json
import os
import urllib.parse
from typing import TYPE_CHECKING, Any

from view.model.fine_grain import fine_notes
from view.model.rate_bands import STEP
from view.reading.calls import TOP
from view.model.instruction_pairs import ATOMIC, LOAD, STORE, UNKNOWN, pair_kind
from view.model.object_keys import Key
from view.model.view import View
from view.names.naming import address_text
from view.model.objects import ObjectLine, DataObject, WordUse
from view.model.word_owners import describe_owners
from view.model.predicted_lines import PredictedLine
from view.reading.reports import Block, Site
from view.output.screen import counted
from view.output.json_versions import downgrade
from view.model.miss_rates import latency_of

if TYPE_CHECKING:
    # (which needs pyelftools)
    from view.repairs.trial_results import TrialCount

# What is written, as `json` has it.
Record = dict[str, Any]

FORMAT = "predator view 2"
# The kinds of invalidations, by what the two instructions of a pair do.
KINDS = {ATOMIC: "atomic", LOAD: "read_write", STORE: "write_write", UNKNOWN: "unknown"}
SARIF = (
    "https://raw.githubusercontent.com/oasis-tcs/sarif-spec/master/Schemata/sarif-schema-2.1.0.json"
)
RULES = {
    "false-sharing": (
        "False sharing",
        "Threads invalidate each other's cache line although they use different words of it.",
    ),
    "true-sharing": (
        "True sharing",
        "Threads pass words to each other: padding doesn't help, writing less often does.",
    ),
    "predicted-sharing": (
        "Predicted false sharing",
        "The line would be falsely shared if data were placed otherwise, or lines were longer.",
    ),
}


def instruction(view: View, addr: int) -> Record:
    place = view.naming.sources.place(addr) if view.naming.sources else None
    return {
        "address": address_text(addr),
        "function": place.function if place else "",
        "file": place.file if place else "",
        "line": place.line if place else 0,
        "panics": panics(view, addr),
        "landmarks": landmarks(view, addr),
    }


def panics(view: View, addr: int) -> Record | None:
    """The places of panics that identify an instruction without debug information, or none."""
    near = view.naming.landmark(addr)
    places = getattr(near, "places", None)
    return (
        {"called": near.is_called, "places": [it._asdict() for it in places]}
        if near and places
        else None
    )


def landmarks(view: View, addr: int) -> Record | None:
    """What the function of an instruction without debug information refers to, or none."""
    near = view.naming.landmark(addr)
    found, more = getattr(near, "landmarks", None), getattr(near, "more", 0)
    return (
        {"called": near.is_called, "texts": [it.text for it in found], "more": more}
        if near and found
        else None
    )


def site(view: View, called: Site) -> Record:
    found = instruction(view, called.addr)
    return {**found, "function": found["function"] or view.naming.function_name(called)}


def line(view: View, spot: ObjectLine) -> Record:
    listed, missed = spot.line, spot.missed
    return {
        "base": address_text(spot.base),
        "size": view.report.size,
        "start": listed.start if listed else None,
        "invalidations": view.invalidations_of(spot),
        "reported_invalidations": listed.count if listed else None,
        "verdict": listed.verdict if listed else None,
        "cold": missed.cold if missed else None,
        "true_sharing": missed.useful if missed else None,
        "false_sharing": missed.useless if missed else None,
    }


def word(use: WordUse, own: Key) -> Record:
    hart = None if use.hart == "many" else int(use.hart)
    return {
        "address": address_text(use.addr),
        "field": use.name,
        "own": use.key == own,
        "reads": use.reads,
        "writes": use.writes,
        "hart": hart,
        "misses_alone": use.useful,
    }


def rounded(value: float | None) -> float | None:
    return None if value is None else round(value, 4)


def severity(view: View, useless: int) -> str | None:
    band = view.worth.band(useless)
    return band.severity if band else None


def time_of(view: View) -> Record:
    """The rate of the whole run, its severity, and an upper bound on the time."""
    worth, total = view.worth, view.misses.total["useless"] if view.misses else 0
    found = worth.find()
    return {
        "per": worth.unit(),
        "rate": rounded(worth.rate(total)),
        "severity": severity(view, total),
        "latency_ns": latency_of(view.call),
        "instruction_ns": STEP,
        "quantum_1": {"instructions": found.steps, "false_sharing": found.misses.total["useless"]}
        if found
        else None,
        "upper_bound": rounded(worth.at_most()),
    }


def numbers_of(counted: "TrialCount") -> Record:
    return {
        "false_sharing": counted.total["useless"],
        "true_sharing": counted.total["useful"],
        "cold": counted.total["cold"],
        "invalidations": counted.invalidations,
    }


def trial(view: View, obj: DataObject) -> Record | None:
    """The whole run's numbers before and after the fix, or none where none was tried."""
    tried = view.decisive_trial(obj)
    if tried is None or tried.after is None or tried.repair is None:
        return None
    if tried.same_as is not None or not tried.is_named():
        return None
    before, after = tried.repair.sizes
    return {
        "before": {**numbers_of(tried.before), "bytes": before},
        "after": {**numbers_of(tried.after), "bytes": after},
        "accesses": tried.accesses if tried.own_misses_in_part is None else tried.recorded,
    }


def object_record(view: View, obj: DataObject) -> Record:
    seen = view.details(obj)
    explained, worst, kinds = seen.explained, seen.worst(), view.invalidation_kinds(obj)
    known = view.misses is not None
    return {
        "name": obj.name,
        "kind": obj.key.kind,
        "key": view.lasting_keys[obj.key],
        "type": view.type_of(obj) or None,
        "false_sharing": obj.useless if known else None,
        "true_sharing": obj.useful if known else None,
        "invalidations": view.invalidations(obj),
        "reported_invalidations": view.invalidations(obj) if view.filtered else obj.count,
        "blocks": len(obj.block_ids),
        "neighbours": [view.objects_by_key[key].name for key in obj.neighbours],
        "rate": rounded(view.worth.rate(obj.useless)),
        "severity": severity(view, obj.useless),
        "upper_bound": rounded(view.worth.at_most(obj)),
        "invalidation_kinds": {KINDS[one]: much for one, much in kinds.items()} if kinds else None,
        "declared": {"file": seen.declared[0], "line": seen.declared[1]} if seen.declared else None,
        "sites": [site(view, one) for one in obj.example.sites]
        if isinstance(obj.example, Block)
        else [],
        "who": describe_owners(view, obj) or None,
        "fix": seen.fix,
        "tried": trial(view, obj),
        "most_written": worst.name if worst else None,
        "lines": [line(view, spot) for spot in obj.lines],
        "words": [word(one, obj.key) for one in seen.words],
        "conflicts": [
            {
                "invalidator": instruction(view, one.invalidator),
                "victim": instruction(view, one.victim),
                "invalidations": one.times,
                "same_word": None if view.filtered else one.same_word_times,
                "kind": KINDS[pair_kind(one, view.effects)],
            }
            for one in seen.conflicts()[:8]
        ],
        "harts": [
            {"victim": victim, "invalidator": invalidator, "invalidations": much}
            for (victim, invalidator), much in (
                sorted(explained.harts.items()) if explained else []
            )
        ],
    }


def foretold(view: View, predicted: PredictedLine) -> Record:
    line = predicted.line
    # (of a filtered trace these are of its own accesses alone)
    counted = None if view.filtered else line
    return {
        "kind": line.kind,
        "base": address_text(line.base),
        "size": line.size,
        "start": counted and counted.start,
        "invalidations": counted and counted.count,
        "verdict": counted and counted.verdict,
        "objects": [view.name_of(key) for key in predicted.keys],
        "false_sharing": predicted.useless,
        "observed_false_sharing": predicted.observed_useless,
        "shown": predicted.is_shown,
        "reason": predicted.reason,
    }


def totals(view: View) -> Record | None:
    total = view.misses.total if view.misses else None
    return total and {
        "cold": total["cold"],
        "true_sharing": total["useful"],
        "false_sharing": total["useless"],
    }


def record(view: View) -> Record:
    """All that was found, as schema.json has it."""
    report, program = view.report, view.naming.program
    return {
        "format": FORMAT,
        "subject": view.call.named,
        "program": {"file": program.path, "sha256": program.sha256} if program else None,
        "outcome": report.outcome,
        "instructions": report.steps,
        "accesses": view.accesses,
        "recorded_accesses": report.accesses,
        "filtered": view.filtered.near if view.filtered else None,
        "layout": {"size": report.size, "offset": report.offset},
        "thresholds": dict(
            zip(
                ("tracking", "prediction", "report"),
                (None if it == "none" else int(it) for it in report.thresholds),
            )
        ),
        "total": totals(view),
        "time": time_of(view),
        "objects": [object_record(view, it) for it in view.chosen_objects()],
        "predicted": [foretold(view, it) for it in view.chosen_predictions()],
        "notes": [*view.notes, *fine_notes(view)],
    }


def json_text(view: View) -> str:
    """The record in the version that the call asks for."""
    found = record(view)
    if view.call.options.get("json-version") == "1":
        found = downgrade(found)
    return json.dumps(found, indent=1, ensure_ascii=True) + "\n"


def location(view: View, file: str, number: int) -> Record:
    """A line of a source, by its path from this folder on where it is there, and else as it was compiled."""
    found = view.naming.sources.path(file) if view.naming.sources else None
    path = os.path.abspath(found) if found else os.path.normpath(file)
    below = os.path.relpath(path)
    path = path if below.startswith("..") else below
    uri = ("file://" if os.path.isabs(path) else "") + urllib.parse.quote(
        path, errors="surrogateescape"
    )
    return {"physicalLocation": {"artifactLocation": {"uri": uri}, "region": {"startLine": number}}}


def sentences(view: View, obj: DataObject) -> str:
    """The fix of an object, and what trying it came to, as sentences."""
    seen = view.details(obj)
    tried = f" Tried on this trace: {seen.tried}." if seen.tried else ""
    return f"Fix: {seen.fix}.{tried}"


def locations(view: View, obj: DataObject) -> list[Record]:
    """Where an object's sharing happens in the sources: the conflicting instructions, and else where it is declared or made."""
    conflict = view.details(obj).worst_conflict()
    places = (
        [view.naming.sources.place(at) for at in (conflict.invalidator, conflict.victim)]
        if conflict and view.naming.sources
        else []
    )
    found = [location(view, place.file, place.line) for place in dict.fromkeys(places) if place]
    declared = view.details(obj).declared
    return found or ([location(view, *declared)] if declared else [])


def result(view: View, obj: DataObject) -> Record:
    known = view.misses is not None
    is_false = (
        obj.useless >= obj.useful
        if known
        else any(spot.line and spot.line.verdict != "true" for spot in obj.lines)
    )
    much = counted(view.invalidations(obj), "invalidation")
    if known:
        much = f"{counted(obj.useless, 'false-sharing miss')}, {obj.useful:,} true-sharing, {much}"
    declared = view.details(obj).declared
    return {
        "ruleId": "false-sharing" if is_false else "true-sharing",
        "level": "warning" if is_false else "note",
        "message": {
            "text": f"{obj.name}: {much} on {counted(len(obj.lines), 'line')}. {sentences(view, obj)}"
        },
        "locations": locations(view, obj)[:1],
        "relatedLocations": [
            {
                **one,
                "message": {
                    "text": f"{'allocated' if isinstance(obj.example, Block) else 'declared'} here"
                },
            }
            for one in ([location(view, *declared)] if declared else [])
        ],
        "partialFingerprints": {"object/v1": view.lasting_keys[obj.key]},
    }


def foreseen(view: View, predicted: PredictedLine) -> Record:
    names = ", ".join(view.name_of(key) for key in predicted.keys) or "memory"
    much = f"{counted(predicted.useless or 0, 'false-sharing miss')} instead of {predicted.observed_useless or 0:,}"
    declared = next((view.declaration(view.objects_by_key[key]) for key in predicted.keys), None)
    return {
        "ruleId": "predicted-sharing",
        "level": "note",
        "message": {
            "text": f"{names}: a {predicted.line.kind} {predicted.line.size}-byte line would have {much}."
        },
        "locations": [location(view, *declared)] if declared else [],
    }


def sarif_text(view: View) -> str:
    """The objects, and the predicted lines that are shown, as results."""
    top = view.call.number_option("top", TOP)
    results = [result(view, it) for it in view.listed_objects()[:top]] + [
        foreseen(view, predicted) for predicted in view.chosen_predictions() if predicted.is_shown
    ]
    rules = [
        {
            "id": name,
            "name": title,
            "shortDescription": {"text": title},
            "fullDescription": {"text": text},
        }
        for name, (title, text) in RULES.items()
    ]
    tool = {"driver": {"name": "predator", "rules": rules}}
    ended = {
        "executionSuccessful": view.report.ended_well(),
        "exitCodeDescription": view.report.outcome,
    }
    run = {
        "tool": tool,
        "results": results,
        "invocations": [ended],
        "columnKind": "unicodeCodePoints",
    }
    return json.dumps({"version": "2.1.0", "$schema": SARIF, "runs": [run]}, indent=1) + "\n"
