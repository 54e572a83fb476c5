"""The commands that repeat a run, as a user types them into bash."""

import shlex

from campaign.campaign_file import Record


def settings_text(settings: Record, seed: int) -> str:
    """The settings file of a run."""
    return "".join(f"{key} = {value}\n" for key, value in {**settings, "seed": seed}.items())


def run_command(record: Record, call: str = "run") -> str:
    """The command of a run, or of a count of its trace."""
    text = settings_text(record["settings"], record["seed"]).replace("\n", "\\n")
    words = f"predator run {shlex.quote(record['program']['file'])} --settings <(printf '{text}')"
    if record["schedule"]:
        words += f" --schedule {shlex.quote(record['schedule']['file'])}"
    if call == "run":
        return words
    pcs = " --pcs" if needs_pcs(call) else ""
    return f"{words} --trace trace{pcs} >report; predator {call} -- trace"


def view_command(campaign: Record, group: int, seed: int) -> str:
    """The command that shows the report of a run."""
    settings = campaign["groups"][group]["settings"]
    program = campaign["programs"][campaign["groups"][group]["program"]]
    values = ",".join(f"{key}={value}" for key, value in {**settings, "seed": seed}.items())
    schedule = program["schedule"]
    option = f" --schedule {shlex.quote(schedule['file'])}" if schedule else ""
    return f"predator view run {shlex.quote(program['file'])} --set {values}{option}"


def needs_pcs(call: str) -> bool:
    """Whether a count needs the pc of each access in its trace."""
    return call.startswith("blame")
