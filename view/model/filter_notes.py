"""What the screen says of a filtered trace."""

from view.model.view import View


def note_filter(view: View) -> None:
    """Notes that a trace is filtered, where the call has named it, or shows what is of its own accesses alone."""
    own = view.filtered
    if own is None:
        return
    if own.is_unknown() and view.report.outcome == "part":
        view.notes.append(
            "the filtered trace was cut, so how many accesses it leaves out isn't known: rates are of"
            f" the {own.accesses:,} recorded ones"
        )
    elif view.call.recorded_quantum is None:
        view.notes.append(
            f"the trace is filtered: it has {own.accesses:,} of {own.whole:,} accesses, without those"
            " that change no cache"
        )
    if "words" in view.call.options:
        view.notes.append(
            f"reads and writes of words are those of the {own.accesses:,} recorded accesses; --whole"
            " records all"
        )
