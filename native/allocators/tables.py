"""The table of runs, as text and as JSON, and the gate of a build."""

import json
from typing import Iterable, Sequence

from native.allocators.results import Row

FORMAT = 1
MEASURED = "measured"
HEADS = (
    ("", ("allocator", "driver", "threads", "size")),
    ("shared lines", ("active", "passive")),
    ("false-sharing misses", ("blocks", "own data", "other")),
    ("", ("bytes/byte", "misses/call")),
)
PREDICTED_HEADS = ("at 128", "at shift")
LEFT_COLUMNS = 2
MAX_USERS = 3


def ratio_text(part: int, whole: int) -> str:
    """A quotient with two decimals, rounded down."""
    hundredths = 100 * part // whole
    return f"{hundredths // 100}.{hundredths % 100:02}"


def bytes_per_byte(row: Row) -> str:
    return ratio_text(64 * row["lines"], row["live_bytes"])


def misses_per_call(row: Row) -> str:
    return ratio_text(row["cold"] + row["true"] + row["false"], row["calls"])


def heads_of(rows: Sequence[Row]) -> list[str]:
    names = [name for _, group in HEADS for name in group]
    return names + (list(PREDICTED_HEADS) if has_predictions(rows) else [])


def has_predictions(rows: Iterable[Row]) -> bool:
    return any("predicted" in it for it in rows)


def spread_text(row: Row, name: str) -> str:
    """A number: over several seeds its median, and the greatest where that is another one."""
    if "greatest" not in row or row["greatest"][name] == row[name]:
        return f"{row[name]:,}"
    return f"{row[name]:,} ({row['greatest'][name]:,})"


def cells_of(row: Row, predicts: bool) -> list[str]:
    """The cells of a row, or of one without numbers those that name it."""
    size = str(row["size"]) if row["size"] else "-"
    first = [row["allocator"], row["driver"], str(row["threads"]), size]
    if row["state"] != MEASURED:
        return first
    numbers = ("active", "passive", "in_blocks", "in_own_data", "elsewhere")
    cells = [*first, *(spread_text(row, it) for it in numbers)]
    cells += [bytes_per_byte(row), misses_per_call(row)]
    if predicts:
        own = row["predicted"]
        cells += [f"{own['invalidations']:,}", str(own["shift"])]
    return cells


def table_text(rows: Sequence[Row]) -> list[str]:
    """The table, a line for each run."""
    predicts, heads = has_predictions(rows), heads_of(rows)
    body = [cells_of(it, predicts) for it in rows]
    widths = [
        max([len(head), *(len(it[at]) for it in body if at < len(it))])
        for at, head in enumerate(heads)
    ]
    found = [group_heads(widths), aligned(heads, widths)]
    for row, cells in zip(rows, body):
        text = aligned(cells, widths)
        found.append(
            text if row["state"] == MEASURED else f"{text}  {row['state']}: {row['reason']}"
        )
    return found


def aligned(cells: Sequence[str], widths: Sequence[int]) -> str:
    parts = [
        cell.ljust(width) if at < LEFT_COLUMNS else cell.rjust(width)
        for at, (cell, width) in enumerate(zip(cells, widths))
    ]
    return "  ".join(parts).rstrip()


def group_heads(widths: Sequence[int]) -> str:
    """The line above the heads, which names those that belong together."""
    text, at = "", 0
    for name, group in HEADS:
        room = sum(widths[at : at + len(group)]) + 2 * len(group)
        text += name.rjust(room - 2) + "  "
        at += len(group)
    return text.rstrip()


# Misses, and where: the driver, its threads, and what uses the memory.
Users = tuple[int, str, int, str]


def rank_users(users: Users) -> tuple[int, str]:
    return -users[0], users[3]


def own_data_text(rows: Sequence[Row]) -> list[str]:
    """What uses each allocator's own data, the worst users first."""
    found = []
    for name in dict.fromkeys(it["allocator"] for it in rows):
        users: list[Users] = [
            (own["false_misses"], row["driver"], row["threads"], own["users"])
            for row in rows
            if row["allocator"] == name and row["state"] == MEASURED
            for own in row["own_data"]
        ]
        # (the worst of those with the same users)
        best = {user[3]: user for user in sorted(users)}
        for count, driver, threads, text in sorted(best.values(), key=rank_users)[:MAX_USERS]:
            found.append(f"{name}'s own data: {count:,} in {driver}, {threads} threads: {text}")
    return found


def gate_value(row: Row, gate: str) -> int:
    """The number of a row that --fail-above judges: over several seeds the greatest."""
    numbers = row.get("greatest", row)
    if gate == "false":
        # (over several seeds, the greatest sum of any)
        return int(numbers.get("blocks_and_own", numbers["in_blocks"] + numbers["in_own_data"]))
    return int(numbers[{"blocks": "in_blocks", "own": "in_own_data"}.get(gate, gate)])


def gate_failures(rows: Sequence[Row], gate: str, limit: int) -> list[str]:
    """The runs above the limit, in words."""
    names = {
        "false": "false-sharing misses",
        "blocks": "false-sharing misses in blocks",
        "own": "false-sharing misses in its own data",
        "active": "active lines",
        "passive": "passive lines",
    }
    return [
        f"{row['run']}: {gate_value(row, gate):,} {names[gate]}, and {limit:,} are allowed"
        for row in rows
        if row["state"] == MEASURED and gate_value(row, gate) > limit
    ]


def json_text(rows: Sequence[Row], version: str) -> str:
    """All numbers."""
    whole = {"format": FORMAT, "version": version, "line": 64, "runs": list(rows)}
    return json.dumps(whole, indent=1, sort_keys=True) + "\n"
