# What the launcher knows of the program's commands.
# shellcheck disable=SC2034 # (the launcher reads these)

# How many words stand before those of a PROGRAM's own `main`, which options name files that are written, and which have no value.
# commands.toml: words
declare -gA names_before=([run]=1 [explain]=4)
written_options=(--trace --output --save)
bare_options=(--pcs)
# (so far)

# Which commands read a TRACE, and the keys of the settings.
# commands.toml: hints
trace_readers="replay split convert sweep caches place move filter misses blame"
setting_keys=(harts memory stack tracking prediction report quantum budget line seed)
# (so far)
