#!/usr/bin/env bash
# Tries what guest/README.md says of the kit on code that nobody here wrote, each claim on two code bases or more:
#
#     claims.sh [CLAIM ..]       all of those that stand at the end of this file, or those that are named
#
# fetch.sh has fetched the sources, and build.sh has built the studies. What is built here goes to out/claims/. The last line is
# `N passed, M failed`, and the status is 0 exactly if nothing failed.
#
# A test of glibc's or valgrind's is compiled as it stands. Of glibc's the kit has to have what a test asks of the system alone: its checks are
# those of glibc's support/, and claims/glibc.c stands in place of the driver.
set -u
here=$(cd "$(dirname "$(readlink -f "$0")")" && pwd)
cc=$here/../cc
# (claims/ uses this one, and two more below)
# shellcheck disable=SC2034
cxx=$here/../c++
predator=${PREDATOR:-$here/../../bin/predator}
fetched=$here/fetched
# shellcheck disable=SC2034
allocators=$here/../allocators/fetched
# shellcheck disable=SC2034
studies=$here/out
out=$here/out/claims
lines=-gline-tables-only
glibc=$fetched/glibc
valgrind=$fetched/valgrind
tools=(AUTOMAKE=: AUTOCONF=: ACLOCAL=: AUTOHEADER=:)
mkdir -p "$out" && cd "$out" || exit 1
# (gnulib's sources and valgrind's ask for one, which their configure would make)
: >config.h
passed=0 failed=0

# record_status WHAT STATUS: counts a check, and shows its output if the status isn't 0.
record_status() {
    if [ "$2" = 0 ]; then
        passed=$((passed + 1)) && echo "passed: $1"
    else
        failed=$((failed + 1)) && echo "FAILED: $1" && tail -n 8 said
    fi
}

# built WHAT COMMAND ..: the command ends with 0.
built() {
    local what=$1
    shift
    "$@" >said 2>&1 </dev/null
    record_status "$what" $?
}

# refused WHAT REASON COMMAND ..: the command fails, and says why.
refused() {
    local what=$1 reason=$2
    shift 2
    ! "$@" >said 2>&1 </dev/null && grep -q -F "$reason" said
    record_status "$what" $?
}

# ran WHAT PROGRAM END LINE [WORD ..]: it ends by exit with this code, or as a deadlock or by its budget, and puts out a line that has this text.
# `put` is all that it put out.
ran() {
    local what=$1 elf=$2 end="exit $3" line=$4
    [[ $3 == [0-9]* ]] || end=$3
    shift 4
    : >put
    printf 'quantum = 10\nmemory = 67108864\n%s' "${MORE:-}" >settings
    "$predator" run --settings settings --output put "$elf" "$@" >said 2>&1
    grep -q -x "outcome $end" said && { [ -z "$line" ] || grep -q -F -e "$line" put; }
    record_status "$what" $?
}

# coded WHAT CODE PROGRAM [WORD ..]: the one line behind the report, on standard error, says that it ended with this code.
coded() {
    local what=$1 code=$2 elf=$3
    shift 3
    printf 'quantum = 10\nmemory = 67108864\n' >settings
    "$predator" run --settings settings --output put "$elf" "$@" >said 2>&1
    [ "$(sed '1,/^end$/d' said)" = "predator: the program ended with exit code $code" ] &&
        "$predator" run --settings settings --output put "$elf" "$@" 2>/dev/null | cmp - <(sed '/^end$/q' said)
    record_status "$what" $?
}

# holds WHAT TEXT COUNT: so many lines of what the last program put out have this text.
holds() {
    [ "$(grep -c -F -e "$2" put)" = "$3" ]
    record_status "$1" $?
}

# whole WHAT PATTERN: each line of what the last program put out is as the pattern says.
whole() {
    ! grep -q -v -x -E -e "$2" put
    record_status "$1" $?
}

# viewed WHAT STATUS TEXT [WORD ..] PROGRAM: `predator view run` of it ends so, and its screen has this text.
viewed() {
    local what=$1 wanted=$2 text=$3
    shift 3
    printf 'quantum = 10\nmemory = 67108864\n' >settings
    "$predator" view run --settings settings "$@" >said 2>&1
    [ $? = "$wanted" ] && grep -q -F -e "$text" said
    record_status "$what" $?
}

# said WHAT PATTERN: a line of what the last run or refusal said is as the pattern says.
said() {
    grep -q -x -E -e "$2" said
    record_status "$1" $?
}

# run_to_stderr WHAT PROGRAM LINE [WORD ..]: without --output, what it puts out goes to standard error, and the report is that of the run before.
run_to_stderr() {
    local what=$1 elf=$2 line=$3
    shift 3
    sed '/^end$/q' said >report
    "$predator" run --settings settings "$elf" "$@" 2>said | cmp - report && grep -q -F -e "$line" said
    record_status "$what" $?
}

# missed WHAT PATTERN SITE PROGRAM [WORD ..]: on a line with misses stands an object as the pattern says, whose first call site is as said.
missed() {
    local what=$1 object=$2 site=$3 elf=$4
    shift 4
    printf 'quantum = 10\nmemory = 67108864\n' >settings
    "$predator" run --settings settings --trace trace --output put "$elf" "$@" >said 2>&1
    # (`misses` is a command, and then a file)
    # shellcheck disable=SC2094
    "$predator" misses trace >misses 2>&1
    awk -v object="$object" -v site="$site" 'is_it && $1 == "site" && $3 ~ site { found = 1 } { is_it = $0 ~ object } END { exit !found }' misses
    record_status "$what" $?
}

# as_native WHAT SOURCES ..: what the last program put out is what the same sources do on this machine.
as_native() {
    local what=$1
    shift
    c++ -pthread -w "$@" -o native >said 2>&1 && ./native >wanted && cmp put wanted >said 2>&1
    record_status "$what" $?
}

# What a test of glibc's wants beside itself. (Names of glibc's that mean nothing to another compiler, or no more than others do, are words here,
# and so are headers that have nothing which is wanted.)
glibc_words=(-O1 -w -D_GNU_SOURCE -D__attr_dealloc_free= "-D__attr_dealloc(a,b)=" -D__returns_nonnull= "-D__attribute_alloc_size__(a)="
    "-D__attribute_alloc_align__(a)=" -Doff64_t=off_t -Dloff_t=off_t "-DTEMP_FAILURE_RETRY(call)=(call)" -I glibc-headers -I "$glibc"
    -I "$glibc/support" -idirafter "$fetched/gnulib/lib")

glibc_checks() {
    local it
    [ ! -f glibc.a ] || return
    rm -rf glibc-headers glibc-objects && mkdir glibc-headers glibc-objects
    : >glibc-headers/features.h && : >glibc-headers/config.h
    echo 'void error(int, int, const char *, ...);' >glibc-headers/error.h
    cp "$glibc/include/libc-diag.h" glibc-headers/
    for it in check delayed_exit support_{record_failure,test_compare_failure,test_verify_impl} write_message \
        xpthread_{check_return,create,detach,join,sigmask,spin_lock}; do
        built "glibc: $it of its checks" "$cc" -c $lines "${glibc_words[@]}" "$glibc/support/$it.c" -o "glibc-objects/$it.o"
    done
    built "glibc: what calls a test" "$cc" -c $lines "${glibc_words[@]}" "$here/claims/glibc.c" -o glibc-objects/glibc.o
    llvm-ar rc glibc.a glibc-objects/*.o
}

# glibc WHAT TEST ..: tests of glibc's, which fail by their status; up to 100 threads, and a second is 10,000 steps.
glibc() {
    local what=$1 it
    shift
    glibc_checks
    for it; do
        built "$what: glibc's ${it##*/} is built" env STEP_TIME=100000 "$cc" $lines "${glibc_words[@]}" "$glibc/$it.c" glibc.a -o "${it##*/}.elf"
        MORE=$'harts = 128\nbudget = 1000000000' ran "$what: glibc's ${it##*/}" "${it##*/}.elf" 0 ""
    done
}

# valgrind WHAT TEST LINE [WORD ..]: a program that valgrind's tests look at, which puts out this line; the words are the compiler's.
valgrind() {
    local what=$1 it=$2 line=$3 name=${2##*/} source=$valgrind/$2.c
    shift 3
    # (alarms can't be had, and here one is but for a program that hangs; fopen is there to set an error, and so is what stands for it)
    sed -e 's/^  alarm(60);$//' -e 's/fopen(\(".*"\), "r")/(errno = \1[5], NULL)/' "$source" >"$name.c"
    cmp -s "$source" "$name.c" || source=$name.c
    built "$what: valgrind's $name is built" env STEP_TIME=100000 "$cc" $lines -O1 -w -I . -I "$valgrind" "$@" \
        "$source" -o "$name.elf"
    MORE="harts = 128" ran "$what: valgrind's $name" "$name.elf" 0 "$line"
}

# All of liburcu but urcu-signal, and its benchmarks that are run here, each for a second of 500,000 steps.
liburcu() {
    local it made=$out/urcu libraries=(liburcu-common liburcu liburcu-qsbr liburcu-mb liburcu-bp liburcu-memb liburcu-cds)
    [ ! -x "$made/tests/benchmark/test_rwlock" ] || return
    rm -rf "$made" && mkdir "$made"
    built "configure: liburcu" bash -c 'cd "$1" && "$2/liburcu/configure" -q CC="$3" CPPFLAGS=-D__DragonFly__ CFLAGS="-O2 $4" --host=riscv32 \
        --disable-shared' all "$made" "$fetched" "$cc" $lines
    built "make: liburcu's libraries" make -k -s -C "$made/src" "${tools[@]}" "${libraries[@]/%/.la}"
    # (test_rwlock names urcu-signal and uses nothing of it)
    for it in test_urcu_bp test_rwlock test_mutex; do
        built "make: liburcu's $it" env STEP_TIME=2000 make -s -C "$made/tests/benchmark" "${tools[@]}" \
            URCU_SIGNAL_LIB=../../src/liburcu-common.la $it
    done
}

# urcu WHAT STEP_TIME FOLDER PROGRAM WORD ..: a program of liburcu's tests, linked anew with words for the linker.
urcu() {
    local what=$1 step=$2 folder=urcu/tests/$3 program=$4
    shift 4
    rm -f "$folder/$program"
    built "$what" env STEP_TIME="$step" make -s -C "$folder" "${tools[@]}" LDFLAGS="$*" "$program"
}

# A copy of Concurrency Kit's sources, for this machine.
ck() {
    [ ! -f ck/build/regressions.build ] || return
    rm -rf ck && cp -r "$fetched/ck" ck
    built "configure: Concurrency Kit" bash -c "cd ck && ./configure --platform=unknown --use-cc-builtins --disable-double --without-pic"
}

# All of xz, by its configure.
xz_all() {
    local made=$out/xz-configure
    [ ! -x "$made/src/xz/xz" ] || return
    rm -rf "$made" && mkdir "$made"
    built "configure: xz" bash -c 'cd "$1" && "$2/xz/configure" -q CC="$3" CFLAGS="-O1 $4 -DPREDATOR_REFUSE_AT_RUN" --host=riscv32 \
        --disable-shared --disable-nls' all "$made" "$fetched" "$cc" $lines
    built "make: all of xz" make -s -C "$made" "${tools[@]}" LDFLAGS=
}

# The claims themselves.
for it in "$here"/claims/*.bash; do
    # shellcheck source=/dev/null
    . "$it"
done

(($# > 0)) || set -- bare small default layout floats calls blank kept mmap munmap blocks sbrk break cleared free alone places executed \
    stacks cxx harts processors clock zero timed rounds words listed refusals addresses unused threads barriers cleanup once spin \
    semaphores c11 kinds locks detached yield waits poll ready wide files terminals pieces signals masks deadlocks budget ends sharing \
    worst checks configure cmake
for claim; do
    if ! declare -F "claim_$claim" >/dev/null; then
        echo "claims.sh: $claim is no claim" >&2
        exit 1
    fi
    "claim_$claim"
done
echo "$passed passed, $failed failed"
[ "$failed" = 0 ]
