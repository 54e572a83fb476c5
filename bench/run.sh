#!/usr/bin/env bash
# How many steps a second the built program runs of a guest, with a report, and with a report and a trace, beside
# sha256sum's megabytes a second in the same run. The guest is a loop of ten arithmetic instructions, a load, a store and the
# jump back, for 20,000,000 steps. A benchmark, no test.
set -eu
top=$(cd "$(dirname "$0")/.." && pwd)
program=$top/crates/predator/out/predator
[ -x "$program" ] || { echo "bench: build the program first: bin/predator replay examples/counters.trace" >&2; exit 1; }
work=$(mktemp -d)
trap 'rm -rf "$work"' EXIT
python3 - "$program" "$work" <<'PY'
import os, struct, subprocess, sys, time

program, work = sys.argv[1:]
steps = 20_000_000

# lui t0, 0x10; ten additions; lw t1, 1024(t0); sw t1, 1028(t0); j -48
code = [0x000102B7] + [0x00138393] * 10 + [0x4002A303, 0x4062A223, 0xFD1FF06F]
words = b"".join(struct.pack("<I", word) for word in code)
header = struct.pack("<4sBBB9xHHIIIIIHHHHHH", b"\x7fELF", 1, 1, 1, 2, 243, 1, 0x10000, 52, 0, 0, 52, 32, 1, 40, 0, 0)
segment = struct.pack("<IIIIIIII", 1, 84, 0x10000, 0, len(words), len(words), 7, 4)
with open(f"{work}/loop", "wb") as out:
    out.write(header + segment + words)
with open(f"{work}/settings", "w") as out:
    out.write(f"budget = {steps}\n")
with open(f"{work}/bytes", "wb") as out:
    out.write(os.urandom(1 << 20) * 200)


def timed(words, wanted):
    begin = time.monotonic()
    status = subprocess.run(words, stdout=subprocess.DEVNULL).returncode
    assert status == wanted, (words, status)
    return time.monotonic() - begin


run = [program, "run", f"{work}/loop", "--settings", f"{work}/settings"]
runs = [
    (timed(run, 10), timed(run + ["--trace", f"{work}/trace"], 10), timed(["sha256sum", f"{work}/bytes"], 0))
    for _ in range(4)
]
report, traced, digest = (min(run[i] for run in runs) for i in range(3))
rate = (200 << 20) / digest / 1e6
print(f"with a report {steps / report / 1e6:.0f} M steps/s, with a report and a trace {steps / traced / 1e6:.0f} M steps/s")
print(f"sha256sum {rate:.0f} MB/s, {steps / report / rate / 1e6:.2f} M steps for each MB/s with a report")
PY
