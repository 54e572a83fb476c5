#!/usr/bin/env bash
# Tries what pthread.h has: each program of threads/ under random schedules of its eight harts.
#
#     threads.sh [--seeds N] [NAME ..]     those that are named, or all; under the seeds 1 to N, or 20 of them
#     threads.sh --broken [NAME ..]        the same with a fault of each kind in pthread/ or clib/barriers.c: a seed that shows it is wanted
#
# A program puts out the lines that stand at its head behind `//>` (sorted, where it says so) and ends with 0, or a seed is wrong. PREDATOR names another program
# than bin/predator. bin/try calls it.
set -eu
case ${1:-} in
    --help | -h) sed -n '2,/^[^#]/s/^# \{0,1\}//p' "$0"; exit ;;
esac
here=$(cd "$(dirname "$(readlink -f "$0")")" && pwd)
predator=${PREDATOR:-$here/../bin/predator}
seeds=20
broken=
while [ "${1:-}" = --seeds ] || [ "${1:-}" = --broken ]; do
    if [ "$1" = --seeds ]; then
        seeds=$2
        shift
    else
        broken=1
    fi
    shift
done
work=$(mktemp -d)
trap 'rm -rf "$work"' EXIT

# The schedule and the settings of a seed: harts in random order, each for some steps, at most 1 to 100, and then in turn by a random
# quantum. The numbers are those of the generator s -> 16807 s mod 2^31 - 1.
schedule() {
    awk -v seed="$1" -v settings="$work/settings" '
        function random(n) { s = (s * 16807) % 2147483647; return s % n }
        BEGIN {
            s = seed * 7919 + 1
            for (i = 0; i < 10; i++) random(2)
            split("1 2 3 5 10 20 50 100", all, " ")
            most = all[seed % 8 + 1]
            printf "quantum = %d\n", 1 + random(seed % 3 == 0 ? 300 : 30) > settings
            lines = most < 10 ? 120000 : 40000
            for (i = 0; i < lines; i++) print random(8), 1 + random(most)
        }' >"$work/schedule"
}

# Runs a program under a seed: what it put out stands in `out`.
run() {
    local elf=$1 source=$2 seed=$3
    schedule "$seed"
    sed -n 's|^// \(budget = [0-9]*\)$|\1|p' "$source" >>"$work/settings"
    : >"$work/out"
    "$predator" run "$elf" --settings "$work/settings" --schedule "$work/schedule" --output "$work/out" >"$work/report" 2>&1 || return
    if grep -q '^// sorted$' "$source"; then
        LC_ALL=C sort -o "$work/out" "$work/out"
    fi
}

# How many of the seeds are wrong; the first one is printed.
count_wrong() {
    local elf=$1 source=$2 seed wrong=0 status
    sed -n 's|^//> ||p' "$source" >"$work/wanted"
    for ((seed = 1; seed <= seeds; seed++)); do
        status=0
        run "$elf" "$source" "$seed" || status=$?
        if [ "$status" != 0 ] || ! grep -q '^outcome exit 0' "$work/report" || ! cmp -s "$work/out" "$work/wanted"; then
            [ "$wrong" = 0 ] && echo "$(basename "$source"), seed $seed: status $status, $(tail -n 1 "$work/out"), $(grep '^outcome' "$work/report" || true)" >&2
            wrong=$((wrong + 1))
            [ -n "$broken" ] && break
        fi
    done
    echo "$wrong"
}

names=("$@")
if [ ${#names[@]} = 0 ]; then
    for it in "$here"/threads/*.c; do
        names+=("$(basename "$it" .c)")
    done
fi
failed=0
if [ -n "$broken" ]; then
    # Each fault: the program that shows it, and an edit of sed's.
    while IFS='|' read -r name what edit; do
        [[ " ${names[*]} " == *" $name "* ]] || continue
        mkdir "$work/guest"
        tar -C "$here" -c --exclude=fetched --exclude=out . | tar -C "$work/guest" -x
        sed -i -E "$edit" "$work"/guest/pthread/* "$work/guest/clib/barriers.c"
        if diff -q -r "$here/pthread" "$work/guest/pthread" >/dev/null && cmp -s "$here/clib/barriers.c" "$work/guest/clib/barriers.c"; then
            echo "$what: the edit changes nothing"
            failed=$((failed + 1))
        fi
        "$work/guest/build.sh" "$work/it.elf" "$work/guest/threads/$name.c"
        if [ "$(count_wrong "$work/it.elf" "$here/threads/$name.c" 2>"$work/said")" = 0 ]; then
            echo "$name: not shown: $what"
            failed=$((failed + 1))
        else
            echo "$name: shown: $what ($(sed 's/^[^,]*, //' "$work/said"))"
        fi
        rm -rf "$work/guest"
    done <"$here/threads/broken.txt"
else
    for name in "${names[@]}"; do
        "$here/build.sh" "$work/$name.elf" "$here/threads/$name.c"
        wrong=$(count_wrong "$work/$name.elf" "$here/threads/$name.c")
        echo "$name: $seeds seeds, $wrong wrong"
        failed=$((failed + (wrong != 0)))
    done
fi
[ "$failed" = 0 ]
