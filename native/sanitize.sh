#!/usr/bin/env bash
# Tries native/ under the sanitizers of gcc, in a folder of its own (Debian: gcc, python3, and valgrind for the tool):
#
#     sanitize.sh
#
# What writes traces, and `mend`, run with those of addresses and of undefined behaviour. The whole runtime can't: it has functions of its own by
# the names that the sanitizer of addresses takes, as `malloc` and `pthread_create`; nor can the tool, which is linked with valgrind's core and
# no C library. Both are built so that undefined behaviour is a trap, which needs no library, and record programs of tries/.
# The last line is `N passed, M failed, K skipped`, and the status is 0 exactly if nothing failed.
set -u
here=$(cd "$(dirname "$(readlink -f "$0")")" && pwd)
judge=$here/tries/judge.py
for it in gcc python3; do
    command -v "$it" >/dev/null || { echo "$it isn't installed"; exit 77; }
done
work=$(mktemp -d)
trap 'rm -rf "$work"' EXIT
cd "$work" || exit 1
# shellcheck source=../tools/checks.bash
. "$here/../tools/checks.bash"

# Addresses and undefined behaviour. A finding ends the program with status 99.
export ASAN_OPTIONS=exitcode=99 UBSAN_OPTIONS=print_stacktrace=1
strict=(-O1 -g -std=gnu11 -fno-strict-aliasing -fsanitize=address,undefined -fno-sanitize-recover=all)
# (blocks of the writer's own are made by the C library here, and not cut from pages)
heap=(-Wl,--wrap=predator_malloc,--wrap=predator_realloc,--wrap=predator_free,--wrap=predator_strdup)
cat >heap.c <<'C'
#include <stdlib.h>
#include <string.h>
void *__wrap_predator_malloc(const char *name, unsigned long size) { return malloc(size); }
void *__wrap_predator_realloc(const char *name, void *old, unsigned long size) { return realloc(old, size); }
void __wrap_predator_free(void *it) { free(it); }
char *__wrap_predator_strdup(const char *name, const char *text) { return strdup(text); }
C
gcc "${strict[@]}" -DPREDATOR_RUNTIME "$here/tries/writer.c" "$here/lib/compat.c" "$here"/tool/{trace,places,records,filter,objects,sites,nameless}.c heap.c \
    "${heap[@]}" -o writer && gcc "${strict[@]}" "$here/tool/mend.c" -o mend || exit 1
# (what it has at its end is the program's until that is over)
export ASAN_OPTIONS=$ASAN_OPTIONS:detect_leaks=0
still=()
if setarch -R true 2>/dev/null; then still=(setarch -R); fi
for seed in 1 2 3; do
    timeout 60 ./writer "$seed" "$seed" 100000 >said 2>&1
    expect_equal "a trace of seed $seed" 0 "$?"
    expect_equal "its end" "exit 7" "$("$judge" end "$seed" 2>&1)"
    timeout 60 ./writer pcs "$seed" 100000 pcs >said 2>&1
    expect_equal "a trace of seed $seed with instructions" 0 "$?"
    expect_equal "its end, and instructions that have not one row each" "exit 7 0" "$("$judge" end pcs 2>&1) $("$judge" unnamed pcs 2>&1)"
    # (its own code lies at the same addresses each time)
    timeout 60 "${still[@]}" ./writer pcs "$seed" 100000 pcs >said 2>&1
    for k in 6 12 16; do
        timeout 60 "${still[@]}" ./writer filtered "$seed" 100000 $k >said 2>&1
        expect_equal "a filtered trace of seed $seed" 0 "$?"
        "$here/../tools/judge_filter.py" pcs defined --near $((1 << k)) >said 2>&1
        if [ ${#still[@]} -gt 0 ]; then
            expect_equal "what is left out of seed $seed by 2^$k" same "$(cmp filtered defined 2>&1 && echo same)"
        else
            skip_checks 1 "what is left out of seed $seed by 2^$k: the writer lies elsewhere each time"
        fi
    done
done
timeout 60 ./writer all 4 4000000 >said 2>&1
expect_equal "more regions than there are places: $(tail -n 1 said)" "0 part" "$? $("$judge" end all 2>&1)"
./writer whole 5 2000 >said 2>&1
./writer pcs 5 2000 pcs >said 2>&1
./writer filtered 5 500 12 >said 2>&1
cuts() { # FILE: where it is cut
    local size
    size=$(stat -c %s "$1")
    printf "$1 %s\n" 0 1 19 20 21 $(seq 30 $((size / 25 + 1)) "$size")
}
while read -r file cut; do
    head -c "$cut" "$file" >short
    ./mend - <short >piped 2>said
    expect_equal "a pipe that is cut at $cut" 0 "$?"
    ./mend short >said 2>&1
    status=$?
    if ((cut < 20)); then
        expect_equal "a file that is cut at $cut" 1 "$status"
    else
        expect_equal "a file that is cut at $cut" "0 part same" "$status $("$judge" end short 2>&1) $(cmp -s short piped && echo same)"
    fi
done < <(cuts whole; cuts pcs; cuts filtered)
head -c 300000 /dev/urandom >noise
./mend noise >said 2>&1
expect_equal "a file that is no trace" 1 "$?"
./mend - <noise >piped 2>said
expect_equal "a pipe with no trace" "0 same" "$? $(cmp -s noise piped && echo same)"

# Undefined behaviour alone, as a trap.
mkdir native && cp -r "$here"/{build,places,predator-native,lib,tool,tries} native
parts=runtime
if [ -e /usr/include/valgrind/pub_tool_tooliface.h ]; then parts=; fi
# (gcc then has types of its own for the functions that the compiler calls)
flags="-fsanitize=undefined -fsanitize-undefined-trap-on-error -Wno-builtin-declaration-mismatch"
NATIVE_FLAGS=$flags native/build $parts >said 2>&1 || { cat said && exit 1; }
for name in counters kinds locks heap; do
    gcc -O1 -g -pthread "$here/tries/$name.c" -o "$name" &&
        gcc -O1 -g -pthread -fsanitize=thread "$here/tries/$name.c" -o "$name.tsan" -Lnative/out/lib || exit 1
    "./$name" >wanted 2>&1
    status=$?
    timeout 100 native/predator-native --built --quantum 7 --trace t -- "./$name.tsan" >said 2>&1
    expect_equal "built: $name: its status, and its end" "$status exit $status" "$? $("$judge" end t 2>&1)"
    [ -z "$parts" ] || continue
    timeout 100 native/predator-native --quantum 7 --trace t -- "./$name" >said 2>&1
    expect_equal "$name: its status, and its end" "$status exit $status" "$? $("$judge" end t 2>&1)"
    timeout 100 native/predator-native --quantum 7 --filtered --trace t -- "./$name" >said 2>&1
    expect_equal "$name, filtered: its status, and its end" "$status exit $status" "$? $("$judge" end t 2>&1)"
done
finish_checks
