"""What view and campaign know of the program's settings and options. tools/commands.py writes it, as older Python reads no TOML."""

# (tools/commands.py has its own layout)
# fmt: off

# What settings have where neither a file nor the call says.
# commands.toml: usual
USUAL = {
    "harts": 8, "memory": 16777216, "stack": 65536, "tracking": 16, "report": 100, "quantum": 100, "budget": 100000000, "line": 64,
    "seed": 0,
}
# (so far)

# All keys of the settings.
# commands.toml: keys
KEYS = ("harts", "memory", "stack", "tracking", "prediction", "report", "quantum", "budget", "line", "seed")
# (so far)

# The options that say under what a program runs, those whose files are written, those without a value, and all of a run and of a replay.
# commands.toml: options
ASKED = ("--settings", "--set", "--schedule")
WRITTEN = ("--trace", "--output")
BARE = ("--pcs",)
OPTIONS = {
    "run": ["--settings", "--set", "--schedule", "--trace", "--pcs", "--output"],
    "replay": ["--settings", "--set", "--size", "--shift", "--save", "--resume"],
    "sweep": ["--size"],
}
# (so far)
