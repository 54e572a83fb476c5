#!/usr/bin/env bash
# Tests `predator campaign` with a stand-in for the program: plans and their faults, tables and pages, and which runs are repeated after a
# kill, a failure and a change. The jobs run on this machine, over ssh and, if it is installed, over a Slurm of this one machine. If the
# program is built, the shipped plan runs too. Each test that skips itself has a line that says why. Without Debian's snakemake the script does:
# the status is 77.
set -u
here=$(cd "$(dirname "$(readlink -f "$0")")" && pwd)
python=/usr/bin/python3
if ! command -v snakemake >/dev/null || ! "$python" -c "import yaml, jsonschema" 2>/dev/null; then
    echo "snakemake missing: apt-get install snakemake"
    exit 77
fi
export PYTHONDONTWRITEBYTECODE=1
work=$(mktemp -d)
trap 'rm -rf "$work"' EXIT
failed=0 children=()
# The shipped plan, with the program that the launcher or PREDATOR_PROGRAM has.
shipped() {
    local predator=$here/../bin/predator
    PREDATOR_BUILD=no "$predator" check "$here/../guest/built/apart.elf" >/dev/null 2>&1 || { echo "skipped: the program isn't built"; return; }
    PREDATOR_BUILD=no "$predator" campaign "$here/plans/first.yaml" --to "$work/first" --html "$work/first.html" || return
    grep -q "<h1>counters of counters, quantum=1 is contended in 20 of 20 seeds; worst is seed 14, with " "$work/first.html" || { echo "the page has another title"; return 1; }
    cut -f 1,2,6,8,9 "$work/first/table.tsv" | grep -q -P "^counters\tquantum=100\tcounters\t20\t20$" || { echo "the table lacks the counters"; return 1; }
}
shipped >"$work/shipped" 2>&1 &
children+=("$!:shipped")
cd "$here/tests" || exit 1
workflow=$(sed -n 's/^    def \(test_[a-z_]*\).*/test_workflow.Workflow.\1/p' test_workflow.py)
for name in test_plans test_tables test_page $workflow; do
    "$python" -W ignore -m unittest -v "$name" >"$work/$name" 2>&1 &
    children+=("$!:$name")
done
for child in "${children[@]}"; do
    name=${child#*:}
    wait "${child%%:*}" || { failed=1 && cat "$work/$name"; }
    grep -e '^skipped' -e ' \.\.\. skipped ' "$work/$name"
    echo "$name: $(tail -n 1 "$work/$name")"
done
exit "$failed"
