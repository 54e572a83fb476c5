"""The page of a table: the shared lines and the false-sharing misses of each run as bars."""

import os
from typing import Any, Sequence

from native.allocators.results import Row
from native.allocators.tables import (
    MEASURED,
    bytes_per_byte,
    has_predictions,
    misses_per_call,
    own_data_text,
    spread_text,
)
from view.output.drawings import bar, templates

HERE = os.path.dirname(os.path.abspath(__file__))
BARS = ("active", "in_blocks", "in_own_data")


def greatest(rows: Sequence[Row], name: str) -> int:
    return max((it[name] for it in rows if it["state"] == MEASURED), default=0)


def page_row(row: Row, most: dict[str, int]) -> dict[str, Any]:
    if row["state"] != MEASURED:
        return {"row": row, "is_measured": False}
    return {
        "row": row,
        "is_measured": True,
        "texts": {it: spread_text(row, it) for it in ("active", "passive", *BARS, "elsewhere")},
        "lines": bar(row["passive"], row["active"], most["active"]),
        "blocks": bar(row["in_blocks"], row["in_blocks"], most["in_blocks"]),
        "own": bar(row["in_own_data"], row["in_own_data"], most["in_own_data"]),
        "space": bytes_per_byte(row),
        "misses": misses_per_call(row),
    }


def page_text(rows: Sequence[Row], version: str) -> str:
    most = {it: max(greatest(rows, it), 1) for it in BARS}
    groups: dict[tuple[str, int, int], list[dict[str, Any]]] = {}
    for row in rows:
        key = (row["driver"], row["threads"], row["size"])
        groups.setdefault(key, []).append(page_row(row, most))
    return (
        templates(HERE)
        .get_template("page.html")
        .render(
            title="allocators",
            version=version,
            predicts=has_predictions(rows),
            groups=[
                {"driver": driver, "threads": threads, "size": size, "rows": own}
                for (driver, threads, size), own in groups.items()
            ],
            users=own_data_text(rows),
        )
    )
