#!/usr/bin/env bash
# How long the built program takes to replay traces of 8,000,000 accesses, beside sha256sum of the same file, and how much
# memory it takes at most: over 64 lines, over 65,536 lines in random order, and over lines of 4 bytes at both ends of the
# address space. Each written line is tracked. A benchmark, no test.
#
# usage: bench/replay.sh [ACCESSES]
set -eu
top=$(cd "$(dirname "$0")/.." && pwd)
program=$top/crates/predator/out/predator
count=${1:-8000000}
[ -x "$program" ] || { echo "bench: build the program first: bin/predator replay examples/counters.trace" >&2; exit 1; }
work=$(mktemp -d)
trap 'rm -rf "$work"' EXIT
printf 'tracking = 1\nreport = 1\n' >"$work/settings"
for kind in dense random ends; do
    python3 "$top/bench/make_trace.py" "$count" "$work/$kind" "$kind"
done
python3 - "$program" "$work" "$count" <<'PY'
import os, subprocess, sys, time

program, work, count = sys.argv[1], sys.argv[2], int(sys.argv[3])
KINDS = [("dense", ["--size", "64"]), ("random", ["--size", "64"]), ("ends", ["--size", "4"])]


def timed(words):
    begin = time.monotonic()
    child = subprocess.Popen(words, stdout=subprocess.DEVNULL)
    _, status, usage = os.wait4(child.pid, 0)
    assert status == 0, (words, status)
    return time.monotonic() - begin, usage.ru_maxrss * 1024


rows = {kind: [] for kind, _ in KINDS}
for _ in range(3):
    for kind, layout in KINDS:
        trace = f"{work}/{kind}"
        replayed = timed([program, "replay", trace, "--settings", f"{work}/settings"] + layout)
        rows[kind].append((replayed, timed(["sha256sum", trace])))
dense = min(run[0][0] for run in rows["dense"])
for kind, runs in rows.items():
    size = os.path.getsize(f"{work}/{kind}")
    replay = min(run[0][0] for run in runs)
    digest = min(run[1][0] for run in runs)
    peak = max(run[0][1] for run in runs)
    print(
        f"{kind}: replay {replay:.2f} s ({replay / count * 1e9:.0f} ns an access, {replay / dense:.2f} of dense), "
        f"sha256sum {digest:.2f} s ({size / digest / 1e6:.0f} MB/s), ratio {replay / digest:.2f}, "
        f"peak memory {peak / 1e6:.0f} MB ({peak / size:.1f} bytes for each byte of the trace)"
    )
PY
