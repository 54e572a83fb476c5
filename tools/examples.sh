#!/usr/bin/env bash
# Tries one example of each command of the program, and of `view`, `native` and `campaign`, by the launcher, as a user's first calls are:
#
#     tools/examples.sh
#
# Each call has one program, the eight counters of guest/built/counters.elf, whose numbers the documents name: 4,007 invalidations, 4,000
# false-sharing misses. The commands of commands.toml are those that are tried, or it says which is not. What isn't installed is skipped, with a line that
# says so. The last line is `N passed, M failed, K skipped`, and the status is 0 exactly if nothing failed.
set -u
top=$(cd "$(dirname "$(readlink -f "$0")")/.." && pwd)
predator=$top/bin/predator
guest=$top/guest/built/counters.elf
export PYTHONDONTWRITEBYTECODE=1 PREDATOR_BUILD=no
work=$(mktemp -d)
trap 'rm -rf "$work"' EXIT
cd "$work" || exit 1
# shellcheck source=tools/checks.bash
. "$top/tools/checks.bash"

# example NAME TEXT WORD ..: the call by the launcher ends with 0, and prints a line that fits the regular expression.
example() {
    local name=$1 text=$2 status
    shift 2
    "$predator" "$@" >"$name.out" 2>"$name.said" </dev/null
    status=$?
    if [ "$status" = 0 ] && grep -q -E -e "$text" "$name.out"; then
        pass_check
    else
        fail_check "$name: status $status, or no line '$text' from: predator $*" "$name.out" "$name.said"
    fi
}

# has_line NAME TEXT FILE: a file that the last call wrote has such a line.
has_line() {
    if grep -q -E -e "$2" "$3" 2>/dev/null; then pass_check; else fail_check "$1: no line '$2' in ${3##*/}"; fi
}

try_commands() {
    local counted='^line observed 0x00011000 64 start 41 count 4007 verdict mixed$' name
    example run "$counted" run "$guest" --trace trace --pcs
    example replay "$counted" replay trace
    example check '^heap 0x00012000 0x00f90000$' check "$guest"
    example split '^split 3 160039$' split trace 3 first second
    example gen '^generated 1000$' gen 1000 made
    example convert '^convert 2 160042$' convert trace converted
    example sweep '^shift 0 total 4007 lines 1$' sweep trace --size 64
    example caches '^total bounded 4007 unbounded 4007 evicted 0$' caches trace --size 64 --sets 4 --ways 2
    example place '^place counters 0x00011000 32 line 64$' place trace counters
    echo '0x00011000 4 0x00020000' >table
    example move '^move 160042 20001$' move trace table moved
    example filter '^filter 160042 7539$' filter trace filtered
    example misses '^total cold 10 useful 1 useless 4000$' misses trace
    example blame '^line 0x00011000 takings 4007 ' blame trace
    example explain '^line 0x00011000 64 start 41 count 4007$' explain "$guest" 0x00011000 64 41
    # (the counter that was moved has no more part in the line; tools/recount.py says the same of it)
    example moved '^line observed 0x00011000 64 start 41 count 3505 verdict true$' replay moved
    while read -r name; do
        [ -e "$name.out" ] || fail_check "$name: no example of this command"
    done < <(sed -n '/^\[\[command\]\]$/,/^$/s/^name = "\(.*\)"$/\1/p' "$top/commands.toml")
}

try_view() {
    /usr/bin/python3 -c "import elftools, jinja2" 2>/dev/null && command -v llvm-symbolizer >/dev/null || {
        skip_checks 3 "view: apt-get install python3-pyelftools python3-jinja2 llvm"
        return
    }
    example view '^ *1 +4,?000 +1 +4,?007 +1 +counters' view run "$guest" --html page.html --json page.json
    has_line "the page of view" 'counters' page.html
    has_line "the JSON of view" '"counters"' page.json
}

try_native() {
    command -v gcc >/dev/null && [ -x /usr/bin/valgrind.bin ] && [ -x "$top/native/out/predator-amd64-linux" ] || {
        skip_checks 2 "native: it needs gcc and valgrind, and native/build"
        return
    }
    gcc -g -O1 -pthread "$top/native/tries/counters.c" -o counters || { fail_check "the compiler" && return; }
    example native '^sum 80000$' native --report native.report -- ./counters
    has_line "the report of native" '^object symbol counters 0x' native.report
}

try_campaign() {
    command -v snakemake >/dev/null || { skip_checks 3 "campaign: apt-get install snakemake" && return; }
    example campaign '^80 runs, 0 failed calls, 0 missing jobs: ' campaign "$top/campaign/plans/first.yaml" --to seeds --html seeds.html
    cut -f 1,2,6,8,9 seeds/table.tsv >columns
    has_line "the table of campaign" '^counters	quantum=100	counters	20	20$' columns
    has_line "the page of campaign" 'counters' seeds.html
}

children=()
for it in commands view native campaign; do
    {
        "try_$it" >"$it.log"
        echo "$passed $failed $skipped" >"$it.sums"
    } &
    children+=("$it")
done
wait
for it in "${children[@]}"; do
    cat "$it.log"
    read -r more_passed more_failed more_skipped <"$it.sums"
    passed=$((passed + more_passed)) failed=$((failed + more_failed)) skipped=$((skipped + more_skipped))
done
finish_checks
