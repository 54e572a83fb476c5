"""The patch of a call: the repairs of all objects that change declarations alone."""

from typing import Callable

from view.faults import Fault
from view.model.view import View
from view.repairs.patches import Edit, patch, patch_obstacle


def source_finder(view: View) -> Callable[[str], str | None]:
    """The function that finds a source on this machine."""
    sources = view.naming.sources
    return sources.path if sources else lambda _: None


def patch_text(view: View) -> str:
    """The patch. What it can't say is noted."""
    if view.trials is None:
        wanted = "a trace in a file, a program with debug information, and a predator with `move`"
        raise Fault(f"--patch writes fixes that were tried on the trace, which needs {wanted}")
    edits: list[Edit] = []
    for tried in view.trials.values():
        if tried.repair is None or not tried.is_named():
            continue
        why = patch_obstacle(
            tried.repair.edits and [*edits, *tried.repair.edits], source_finder(view)
        )
        if why:
            view.notes.append(f"the patch leaves out {tried.obj.name}: {why}")
        else:
            edits += tried.repair.edits or []
    return patch(edits, source_finder(view))
