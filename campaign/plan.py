"""Plans: the programs that run, under which settings and seeds, and the counts of their traces. schema.json
has the form of a plan."""

import hashlib
import itertools
import json
import os
from typing import Any, Callable, Iterator, Sequence

import jsonschema
import yaml

from campaign.campaign_file import Record, fold_ranges, group_inputs, short_sum
from view.faults import Fault
from view.reading.settings import USUAL

HERE = os.path.dirname(os.path.abspath(__file__))
# The number of runs in a job, where the plan has none.
RUNS_PER_BATCH = 100
MAX_SEED = 2**32 - 1
MAX_CACHE_LINES = 4096
WORD_BYTES = 4

# The keys and indexes that lead to a part of a plan.
PlanPath = Sequence[str | int]
# A fault of a plan's form, by jsonschema, which has no types.
Error = Any
# A function that says why predator refuses a program under settings, if it does.
Check = Callable[[str, Record], str | None]


class PlanLines:
    """The line of each part of a plan, by the keys and indexes that lead to it."""

    def __init__(self, path: str) -> None:
        self.path = path
        self.numbers: dict[tuple[str | int, ...], int] = {}

    def line(self, where: PlanPath) -> int:
        """The line of a part, or of the nearest one around it that has one."""
        own = tuple(where)
        while own and own not in self.numbers:
            own = own[:-1]
        return self.numbers.get(own, 1)

    def fault(self, where: PlanPath, text: str) -> Fault:
        return Fault(f"{self.path}:{self.line(where)}: {text}")

    def read_value(self, node: yaml.Node, where: tuple[str | int, ...] = ()) -> Any:
        """The value of a node of YAML; the lines of all parts in it are noted."""
        self.numbers.setdefault(where, node.start_mark.line + 1)
        if isinstance(node, yaml.MappingNode):
            found: dict[str, Any] = {}
            for key, value in node.value:
                name = key.value if isinstance(key, yaml.ScalarNode) else "?"
                self.numbers[(*where, name)] = key.start_mark.line + 1
                if name in found:
                    raise self.fault((*where, name), f"'{name}' is given twice")
                found[name] = self.read_value(value, (*where, name))
            return found
        if isinstance(node, yaml.SequenceNode):
            return [self.read_value(it, (*where, at)) for at, it in enumerate(node.value)]
        return yaml.SafeLoader("").construct_object(node)  # type: ignore[no-untyped-call]


def read_plan(path: str) -> tuple[Record, PlanLines]:
    """A plan's data and its lines; the first fault of its form ends the call."""
    lines = PlanLines(path)
    try:
        with open(path, encoding="utf-8") as file:
            node = yaml.compose(file, Loader=yaml.SafeLoader)  # type: ignore[no-untyped-call]
    except OSError as error:
        raise Fault(f"{path}: {error.strerror}") from error
    except UnicodeDecodeError as error:
        raise Fault(f"{path}: the file isn't UTF-8 text") from error
    except yaml.MarkedYAMLError as error:
        line = error.problem_mark.line + 1 if error.problem_mark else 1
        raise Fault(f"{path}:{line}: invalid YAML: {error.problem}") from error
    except yaml.YAMLError as error:
        raise Fault(f"{path}:1: invalid YAML: {' '.join(str(error).split())}") from error
    data = lines.read_value(node) if node else {}
    with open(os.path.join(HERE, "schema.json"), encoding="utf-8") as file:
        validator = jsonschema.Draft202012Validator(json.load(file))
    errors = [deepest_error(error) for error in validator.iter_errors(data)]
    if errors:
        first = min(errors, key=lambda error: lines.line(error_path(error)))
        raise lines.fault(error_path(first), error_text(first))
    return data, lines


def deepest_error(error: Error) -> Error:
    """The fault of that alternative of a value's form that the value came nearest to."""
    while error.context:
        far = max(len(it.absolute_path) for it in error.context)
        near = [it for it in error.context if len(it.absolute_path) == far]
        kinds = [it for it in near if it.validator != "type"]
        if len(near) > 1 and len(kinds) != 1 or far == len(error.absolute_path) and not kinds:
            return error
        error = (kinds or near)[0]
    return error


def unknown_key(error: Error) -> str:
    """The first key that a part of a plan can't have."""
    known = error.schema.get("properties", {})
    return str(next(key for key in error.instance if key not in known))


def error_path(error: Error) -> list[str | int]:
    path: list[str | int] = [
        part if isinstance(part, int) else str(part) for part in error.absolute_path
    ]
    if error.validator == "additionalProperties":
        return [*path, unknown_key(error)]
    # (the fault of a name is that of its mapping)
    is_name = isinstance(error.instance, str) and "propertyNames" in error.schema_path
    return [*path, error.instance] if is_name and error.parent is None else path


def error_text(error: Error) -> str:
    """A fault of a plan's form, in a user's words."""
    at = ".".join(str(it) for it in error.absolute_path)
    subject = f"'{at}'" if at else "a plan"
    if error.validator == "additionalProperties":
        key, known = unknown_key(error), ", ".join(error.schema.get("properties", {}))
        hint = "give seeds in the plan's `seeds`" if key == "seed" else f"known keys: {known}"
        return f"'{key}' is no key of {subject}; {hint}"
    if error.validator == "required":
        missing = next(it for it in error.validator_value if it not in error.instance)
        return f"{subject} lacks the key '{missing}'"
    if "propertyNames" in error.schema_path:
        return f"'{error.instance}' is no name for a program: use letters, digits, '.', '_' and '-'"
    value = json.dumps(error.instance)
    if error.validator == "enum":
        choices = ", ".join(str(it) for it in error.validator_value)
        return f"{subject} must be one of {choices}, not {value}"
    meaning = error.schema.get("description") or error.message
    return f"{subject} can't be {value}: {meaning}"


def file_sum(path: str) -> str:
    with open(path, "rb") as file:
        return hashlib.file_digest(file, "sha256").hexdigest()


def as_list(value: Any) -> list[Any]:
    return value if isinstance(value, list) else [value]


def plan_seeds(data: Record, lines: PlanLines) -> list[int]:
    """The seeds, each once, in the plan's order."""
    found: dict[int, None] = {}
    for at, seeds in enumerate(as_list(data["seeds"])):
        where: list[str | int] = ["seeds", at] if isinstance(data["seeds"], list) else ["seeds"]
        first, last = (
            (seeds, seeds) if isinstance(seeds, int) else (int(end) for end in seeds.split("-"))
        )
        if first > last or last > MAX_SEED:
            raise lines.fault(
                where, f"'{seeds}' is no range of seeds: write FIRST-LAST, at most {MAX_SEED}"
            )
        found.update(dict.fromkeys(range(first, last + 1)))
    return list(found)


def plan_layouts(data: Record, key: str, lines: PlanLines) -> list[tuple[int, int]]:
    """The layouts under a key, each once, as sizes and shifts."""
    found: dict[tuple[int, int], None] = {}
    for at, layout in enumerate(data.get(key, [])):
        size, shift = (
            (layout, 0) if isinstance(layout, int) else (layout["size"], layout.get("shift", 0))
        )
        if shift != "all" and shift >= size:
            raise lines.fault(
                (key, at), f"a shift must be smaller than the line: {shift} isn't below {size}"
            )
        shifts = range(0, size, WORD_BYTES) if shift == "all" else [shift]
        found.update(dict.fromkeys((size, own) for own in shifts))
    return list(found)


def trace_calls(data: Record, line: int, lines: PlanLines) -> list[list[str]]:
    """The calls of predator for each trace of a run under lines of so many bytes, as words."""
    calls = []
    own = [] if "misses" in data else [("misses", line, 0)]
    for key, command in (("misses", "misses"), ("replays", "replay"), ("blame", "blame")):
        own += [(command, size, shift) for size, shift in plan_layouts(data, key, lines)]
    for command, size, shift in own:
        calls.append([command, "--size", str(size), "--shift", str(shift)])
    calls += [["sweep", "--size", str(size)] for size in data.get("sweeps", [])]
    for at, cache in enumerate(data.get("caches", [])):
        size, sets, ways = cache["size"], cache["sets"], cache["ways"]
        if sets * ways > MAX_CACHE_LINES or sets & (sets - 1):
            raise lines.fault(
                ("caches", at),
                f"sets must be a power of two, and sets times ways at most {MAX_CACHE_LINES}",
            )
        words = ["--size", str(size), "--sets", str(sets), "--ways", str(ways)]
        calls.append(["caches", *words])
    return calls


def combine_settings(settings: Record) -> list[Record]:
    """Each choice of one value for each key, the last key changing fastest."""
    values = itertools.product(*(as_list(value) for value in settings.values()))
    return [dict(zip(settings, choice)) for choice in values]


def file_record(path: str, base: str, where: PlanPath, lines: PlanLines) -> Record:
    """A file that a plan names, as its path and its sum."""
    full = os.path.normpath(os.path.join(base, path))
    try:
        return {"file": full, "sha256": file_sum(full)}
    except OSError as error:
        raise lines.fault(where, f"{path}: {error.strerror}") from error


def plan_programs(data: Record, base: str, lines: PlanLines) -> Record:
    """The programs by their names, each with the schedule that its runs begin with, if any, and its own
    settings."""
    found: Record = {}
    for name, value in data["programs"].items():
        own = {"file": value} if isinstance(value, str) else value
        where = ("programs", name)
        found[name] = file_record(own["file"], base, (*where, "file"), lines)
        schedule = own.get("schedule")
        found[name]["schedule"] = (
            file_record(schedule, base, (*where, "schedule"), lines) if schedule else None
        )
        found[name]["settings"] = own.get("settings", {})
    return found


def group_batches(
    campaign: Record, group: Record, number: int, seeds: list[int], size: int
) -> Iterator[Record]:
    settings = "_".join(f"{key}-{value}" for key, value in group["settings"].items())
    folder = f"{group['program']}/{settings or 'usual'}"
    for first in range(0, len(seeds), size):
        own = seeds[first : first + size]
        inputs = {**group_inputs(campaign, group), "seeds": own, "calls": group["calls"]}
        yield {
            "name": f"{folder}/{min(own)}-{max(own)}.{short_sum(inputs)}",
            "group": number,
            "seeds": fold_ranges(own),
        }


def check_group(group: Record, program: Record, check: Check, lines: PlanLines) -> None:
    """Refuses a program and settings that predator refuses, before each run fails with them."""
    message = check(program["file"], group["settings"])
    if message:
        name, key = group["program"], message.split()[-1]
        places: list[tuple[str, ...]] = [
            ("programs", name, "settings", key),
            ("settings", key),
            ("programs", name),
        ]
        where = next((place for place in places if place in lines.numbers), ())
        raise lines.fault(where, f"predator refuses {name} under these settings: {message}")


def expand_plan(
    path: str, predator: Record, check: Check = lambda program, settings: None
) -> Record:
    """The campaign of a plan: its programs, the groups of runs that differ by their seeds alone, and the
    batches, which are the jobs."""
    data, lines = read_plan(path)
    programs = plan_programs(data, os.path.dirname(os.path.abspath(path)), lines)
    seeds = plan_seeds(data, lines)
    groups: list[Record] = []
    for name, program in programs.items():
        for settings in combine_settings({**program.pop("settings"), **data.get("settings", {})}):
            calls = trace_calls(data, settings.get("line", USUAL["line"]), lines)
            groups.append({"program": name, "settings": settings, "calls": calls})
            check_group(groups[-1], program, check, lines)
    campaign: Record = {
        "format": "predator campaign 1",
        "plan": os.path.abspath(path),
        "predator": predator,
        "programs": programs,
        "groups": groups,
        "traces": data.get("traces", "lost"),
    }
    size = data.get("batch", RUNS_PER_BATCH)
    campaign["batches"] = [
        batch
        for number, group in enumerate(groups)
        for batch in group_batches(campaign, group, number, seeds, size)
    ]
    return campaign
