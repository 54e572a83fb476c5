#!/usr/bin/env bash
# How long a campaign of 1,000 runs of a 400,000 step program takes on this machine's processors, beside what the same runs take one after the
# other, called by the shell: at best that is their time divided by the processors. Wants a quiet machine, and Debian's snakemake.
#
#   bench/campaign.sh [RUNS]       (1000)
#
# A benchmark, no test.
set -eu
top=$(cd "$(dirname "$0")/.." && pwd)
program=${PREDATOR_PROGRAM:-$top/crates/predator/out/predator}
[ -x "$program" ] || { echo "bench: build the program first: bin/predator replay examples/counters.trace" >&2; exit 1; }
runs=${1:-1000}
work=$(mktemp -d)
trap 'rm -rf "$work"' EXIT
guest=$top/guest/built/counters.elf
printf 'programs:\n  counters: %s\nseeds: 1-%s\nbatch: %s\nmisses: []\n' "$guest" "$runs" "$((runs / 40 + 1))" >"$work/plan.yaml"
export PREDATOR_PROGRAM=$program PREDATOR_BUILD=no GLIBC_TUNABLES=glibc.malloc.hugetlb=1
TIMEFORMAT='%R %U %S'
for ((seed = 1; seed <= runs; seed++)); do printf 'seed = %s\n' "$seed" >"$work/$seed.toml"; done
alone=$({ time for ((seed = 1; seed <= runs; seed++)); do
    "$program" run "$guest" --settings "$work/$seed.toml" --output /dev/null >"$work/report"
done; } 2>&1)
together=$({ time "$top/bin/predator" campaign "$work/plan.yaml" --to "$work/campaign" >"$work/said" 2>&1; } 2>&1)
cat "$work/said"
awk -v alone="$alone" -v together="$together" -v runs="$runs" -v processors="$(nproc)" 'BEGIN {
    split(alone, a, " "); split(together, t, " ")
    printf "%d runs one after the other: %.1f s, %.1f s of a processor\n", runs, a[1], a[2] + a[3]
    printf "as a campaign: %.1f s, %.1f s of a processor; on %d processors %.2f times a %dth of their own time\n",
        t[1], t[2] + t[3], processors, t[1] * processors / a[1], processors
}'
