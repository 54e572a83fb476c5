#!/usr/bin/env bash
# After a change of the kit or of what is printed: builds the examples, copies those that are cases to crates/worked_runs/data, and renews
# the texts of the cases and of the documents. Read what `git diff` shows line by line before it is committed: the cases say what is right.
set -eu
here=$(cd "$(dirname "$(readlink -f "$0")")" && pwd)
"$here/build.sh" examples
for it in "$here"/built/*.elf; do
    kept=$here/../crates/worked_runs/data/${it##*/}
    [ ! -f "$kept" ] || cmp -s "$it" "$kept" || cp "$it" "$kept"
done
"$here/../bin/predator" check "$here/built/counters.elf" >/dev/null
"$here/cases/on_disk.py" --renew || true
"$here/check_docs.py" --renew || true
git -C "$here/.." diff --stat
