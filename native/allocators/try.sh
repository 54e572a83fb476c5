#!/usr/bin/env bash
# Tries `predator allocators`: how blocks are counted, against the judge; small allocators of this machine, where the recorder is built; and
# as guests, where the kit's packages are installed. The last line says what was skipped; where that is all but the first, the status is 77.
set -u
here=$(cd "$(dirname "$(readlink -f "$0")")" && pwd)
top=$(cd "$here/../.." && pwd)
python=/usr/bin/python3
for it in elftools:python3-pyelftools jinja2:python3-jinja2; do
    "$python" -c "import ${it%:*}" 2>/dev/null || { echo "${it#*:} missing: apt-get install ${it#*:}"; exit 77; }
done
export PYTHONDONTWRITEBYTECODE=1 PREDATOR_BUILD=no
cd "$here/tests" || exit 1
work=$(mktemp -d)
trap 'rm -rf "$work"' EXIT
names=(test_lives test_findings) skipped=()
has() { local it; for it in "$@"; do command -v "$it" >/dev/null || return; done; }
if ! has gcc g++ llvm-symbolizer || [ ! -x /usr/bin/valgrind.bin ]; then
    skipped+=("this machine's allocators (Debian: gcc g++ valgrind llvm)")
elif "$top/bin/predator" native -- /bin/true 2>&1 | grep -q "aren't built"; then
    skipped+=("this machine's allocators (predator native --build)")
else
    names+=(test_calls.Natively test_calls.Failures)
fi
if ! has clang ld.lld llvm-ar llvm-symbolizer snakemake || [ ! -d /usr/lib/picolibc/riscv64-unknown-elf ]; then
    skipped+=("guests (Debian: clang lld llvm picolibc-riscv64-unknown-elf snakemake)")
else
    names+=(test_calls.AsGuests)
fi
failed=0 children=()
"$python" "$top/tools/judge_allocators.py" --try || failed=1
for it in "${names[@]}"; do
    "$python" -W ignore -m unittest "$it" >"$work/$it" 2>&1 &
    children+=("$!:$it")
done
for it in "${children[@]}"; do
    wait "${it%%:*}" || { failed=1 && cat "$work/${it#*:}"; }
    echo "${it#*:}: $(tail -n 1 "$work/${it#*:}")"
done
[ "$failed" = 0 ] || exit 1
if ((${#skipped[@]} > 0)); then
    printf 'skipped: %s\n' "${skipped[@]}"
    ((${#names[@]} > 2)) || exit 77
fi
