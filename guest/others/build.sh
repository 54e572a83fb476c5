#!/usr/bin/env bash
# Builds the studies of what fetch.sh has fetched into out/, with line tables, or with what DEBUG says in their place: each code base by its
# own build, or its sources as they are, with guest/cc as its compiler; and again with the repair, which is a few words put in by sed.
#
#     build.sh [STUDY ..]        all of them, or those that are named
#
# `make`, `cmake` and a compiler of this machine (for the tools of SQLite's build, as `tclsh` is) are wanted beside those of the kit. What was
# built of SQLite, liburcu, zstd and xz stays, since that takes a minute each. ck_barriers and urcu_wfcq are for advice.py alone; PATCH=F builds
# urcu_wfcq as F changes it.
set -eu
here=$(cd "$(dirname "$(readlink -f "$0")")" && pwd)
cc=$here/../cc
fetched=$here/fetched
out=$here/out
lines=${DEBUG:--gline-tables-only}
studies=(ck_anderson ck_ring kt_for rte_ring sqlite urcu_qsbr zstd xz)
# The names of the autotools are those that aren't to be run again because a file is newer.
tools=(AUTOMAKE=: AUTOCONF=: ACLOCAL=: AUTOHEADER=:)

# Concurrency Kit, whose own build has no port to RISC-V, so it takes the compiler's atomic functions: a folder of its own for each build.
# Its configure runs what it compiled, so it looks at this machine's compiler, of which nothing is kept but ck_md.h and some flags.
ck() {
    rm -rf "${out:?}/$1"
    cp -r "$fetched/ck" "$out/$1"
    (cd "$out/$1" && ./configure --platform=unknown --use-cc-builtins --disable-double --without-pic >configure.log)
}

# NAME FOLDER PROGRAM WORDS FLAGS ..: a program of its regressions, as its own makefile has it, with main's words.
ck_program() {
    local name=$1 folder=$2 program=$3 words=$4
    shift 4
    ARGUMENTS=$words make -s -C "$out/$name/regressions/$folder" CC="$cc" PTHREAD_CFLAGS="-pthread $lines $*" "$program"
    mv "$out/$name/regressions/$folder/$program" "$out/$name.elf"
    rm -rf "${out:?}/$name"
}

build_ck_anderson() {
    local name
    for name in ck_anderson ck_anderson-apart; do
        ck "$name"
        # (a line for each slot)
        [ "$name" = ck_anderson ] ||
            sed -i '/^struct ck_spinlock_anderson_thread {$/,/^};$/s/^\tunsigned int position;$/&\n\tchar apart[56];/' \
                "$out/$name/include/spinlock/anderson.h"
        ck_program "$name" ck_spinlock/validate ck_anderson "7 1" -DITERATE=200
    done
}

build_ck_ring() {
    local name
    for name in ck_ring ck_ring-apart ck_ring-own_lines; do
        ck "$name"
        # (the end of a ring, which is read all the time, apart from the beginning of the next one)
        [ "$name" = ck_ring ] ||
            sed -i '/^struct ck_ring {$/,/^};$/s/^\tunsigned int mask;$/&\n\tchar apart[56];/' "$out/$name/include/ck_ring.h"
        # (and a line for each entry)
        [ "$name" != ck_ring-own_lines ] ||
            sed -i 's/^struct entry {$/struct __attribute__((aligned(64))) entry {/' "$out/$name/regressions/ck_ring/validate/ck_ring_spsc.c"
        ck_program "$name" ck_ring/validate ck_ring_spsc "7 1 32" -DITERATIONS=16
    done
}

# Its barriers: as they are, and as their first screens say (lines of its own for each flag, or for each group of fields, and for each counter).
build_ck_barriers() {
    local name barrier made
    for name in ck_dissemination ck_dissemination-own_lines ck_mcs ck_mcs-own_lines; do
        made=$out/$name barrier=${name#ck_}
        barrier=barrier_${barrier%-*}
        ck "$name"
        if [[ $name == *-own_lines ]]; then
            sed -i 's/^struct ck_barrier_dissemination_flag {$/struct __attribute__((aligned(64))) ck_barrier_dissemination_flag {/
                /^struct ck_barrier_mcs {$/,/^};$/{
                    /dummy;$/d
                    /havechild\[4\];$/d
                    /\*parent;$/d
                    s/\*children\[2\];$/*children[2] __attribute__((aligned(64)));\n\tunsigned int havechild[4];\n\tunsigned int *parent;/
                    s/childnotready\[4\];$/childnotready[4] __attribute__((aligned(64)));\n\tunsigned int dummy __attribute__((aligned(64)));/
                    s/parentsense;$/parentsense __attribute__((aligned(64)));/
                }' "$made/include/ck_barrier.h"
            sed -i 's/^static int counters\[ENTRIES\];$/static struct __attribute__((aligned(64))) own_line { int value; } counters[ENTRIES];/
                s/&counters\[i\]/&.value/
                s/malloc(sizeof(ck_barrier_\(dissemination_flag\|mcs\)_t) \*/aligned_alloc(64, sizeof(ck_barrier_\1_t) */' \
                "$made/regressions/ck_barrier/validate/$barrier.c"
        fi
        ck_program "$name" ck_barrier/validate "$barrier" "7 1" -DITERATE=200
    done
}

# NAME FLAGS ..: a table of numbers by klib's kt_for, of which minimap2 has the source.
kt_for() {
    local name=$1 source=$out/$1.kthread.c
    shift
    cp "$fetched/minimap2/kthread.c" "$source"
    # (a line for each worker)
    [ "$name" = kt_for ] || sed -i 's/^} ktf_worker_t;$/} __attribute__((aligned(64))) ktf_worker_t;/' "$source"
    "$cc" "$lines" -I "$fetched/minimap2" "$@" "$source" "$here/kt_for.c" -o "$out/$name.elf"
    rm "$source"
}

build_kt_for() {
    kt_for kt_for
    kt_for kt_for-apart
    kt_for kt_for-blocks -DBLOCK=16
}

# NAME MAKES: an object of SQLite's one source, which is put together by its own build and changed by a sed script.
sqlite() {
    local name=$1
    shift
    [ ! -f "$out/$name.o" ] || return 0
    if [ ! -f "$out/sqlite3/sqlite3.c" ]; then
        mkdir -p "$out/sqlite3"
        make -s -C "$out/sqlite3" -f "$fetched/sqlite3/Makefile.linux-gcc" TOP="$fetched/sqlite3" BCC="cc -O0" TCC=cc sqlite3.c
    fi
    sed "$@" "$out/sqlite3/sqlite3.c" >"$out/$name.c"
    # (files aren't there, and databases in memory want none)
    "$cc" -c "$lines" -w -DPREDATOR_REFUSE_AT_RUN -DSQLITE_THREADSAFE=1 -DSQLITE_OMIT_LOAD_EXTENSION=1 "$out/$name.c" -o "$out/$name.new"
    mv "$out/$name.new" "$out/$name.o"
    rm "$out/$name.c"
}

build_sqlite() {
    sqlite sqlite3 ""
    sqlite sqlite3-apart '/^struct sqlite3_mutex {$/,/^};$/s/^  pthread_mutex_t mutex;.*/&\n  char apart[112];/'
    local workload=("$cc" "$lines" -I "$out/sqlite3" "$here/sqlite.c")
    "${workload[@]}" "$out/sqlite3.o" -o "$out/sqlite.elf"
    "${workload[@]}" -DNO_STATISTICS "$out/sqlite3.o" -o "$out/sqlite-no_statistics.elf"
    "${workload[@]}" -DNO_STATISTICS "$out/sqlite3-apart.o" -o "$out/sqlite-apart.elf"
    "${workload[@]}" -DNO_STATISTICS -DOWN_LINES "$out/sqlite3.o" -o "$out/sqlite-own_lines.elf"
}

# NAME FLAGS ..: DPDK's ring over its port to RISC-V, with what its build says of that (config/riscv/meson.build).
rte_ring() {
    local name=$1 dpdk=$fetched/dpdk made=$out/$1.headers it words=(-w) source=$here/rte_ring.c
    shift
    rm -rf "$made"
    cp -r "$dpdk/lib/ring" "$made"
    # (both sides for many threads, with indices of 8 bytes)
    if [ "$name" = rte_ring-hts ]; then
        sed 's/RING_F_SP_ENQ/RING_F_MP_HTS_ENQ/; s/RING_F_SC_DEQ/RING_F_MC_HTS_DEQ/; s/rte_ring_s[pc]_/rte_ring_/' "$source" >"$made/hts.c"
        source=$made/hts.c
    # (indices of both sides side by side, which the source checks against)
    elif [ "$name" != rte_ring ]; then
        sed -i '/^struct rte_ring {$/,/^};$/{/pad[012]/d;s/} *__rte_cache_aligned;/};/}' "$made/rte_ring_core.h"
        sed -i '/^\tRTE_BUILD_BUG_ON((offsetof/,/;$/d' "$made/rte_ring.c"
    fi
    for it in RTE_ARCH_RISCV RTE_FORCE_INTRINSICS RTE_EXEC_ENV_LINUX RTE_EXEC_ENV_IS_LINUX RTE_USE_C11_MEM_MODEL RTE_MAX_NUMA_NODES; do
        echo "#define $it 1"
    done >"$made/rte_build_config.h"
    printf '#define %s %s\n' RTE_EXEC_ENV_IS_FREEBSD 0 RTE_EXEC_ENV_IS_WINDOWS 0 RTE_CACHE_LINE_SIZE 64 RTE_MAX_LCORE 128 >>"$made/rte_build_config.h"
    for it in "$made" "$dpdk/config" "$dpdk"/lib/eal/{riscv/include,linux/include,include,common} "$dpdk"/lib/{log,kvargs,telemetry}; do
        words+=(-I "$it")
    done
    "$cc" "$lines" "${words[@]}" -DALLOW_EXPERIMENTAL_API -include rte_config.h "$@" "$source" "$made/rte_ring.c" \
        -o "$out/$name.elf"
    rm -rf "$made"
}

build_rte_ring() {
    rte_ring rte_ring
    rte_ring rte_ring-together
    rte_ring rte_ring-together-at-24 -DPLACE=24
    rte_ring rte_ring-hts
}

# liburcu's own benchmark, by its configure: six readers and one that waits for them, for a second of 500,000 steps.
build_urcu_qsbr() {
    local made=$out/liburcu
    [ ! -f "$out/urcu_qsbr.elf" ] || return 0
    rm -rf "$made"
    mkdir "$made"
    (cd "$made" && "$fetched/liburcu/configure" -q CC="$cc" CPPFLAGS=-D__DragonFly__ CFLAGS="-O2 $lines" --host=riscv32 --disable-shared)
    make -s -C "$made/src" "${tools[@]}" liburcu-common.la liburcu-qsbr.la
    ARGUMENTS='6 1 1' STEP_TIME=2000 make -s -C "$made/tests/benchmark" "${tools[@]}" test_urcu_qsbr
    mv "$made/tests/benchmark/test_urcu_qsbr" "$out/urcu_qsbr.elf"
    rm -rf "$made"
}

# liburcu's benchmark of its queue, by its configure: three that put in and three that take out, for a second of 500,000 steps. It is
# configured in a copy of its sources, so that a patch finds them; with PATCH it is built once more, as that changes it.
build_urcu_wfcq() {
    local made=$out/urcu_wfcq name=urcu_wfcq
    if [ ! -f "$made/src/.libs/liburcu-cds.a" ]; then
        rm -rf "$made"
        cp -r "$fetched/liburcu" "$made"
        (cd "$made" && ./configure -q CC="$cc" CPPFLAGS=-D__DragonFly__ CFLAGS="-O2 $lines" --host=riscv32 --disable-shared)
        make -s -C "$made/src" "${tools[@]}" liburcu-common.la liburcu-cds.la
    fi
    if [ -n "${PATCH:-}" ]; then
        name=urcu_wfcq-patched
        rm -rf "${out:?}/$name"
        cp -r "$made" "$out/$name"
        made=$out/$name
        patch -p1 -s -d "$made" -i "$PATCH"
    fi
    ARGUMENTS='3 3 1' STEP_TIME=2000 make -s -C "$made/tests/benchmark" "${tools[@]}" test_urcu_wfcq
    mv "$made/tests/benchmark/test_urcu_wfcq" "$out/$name.elf"
    [ -z "${PATCH:-}" ] || rm -rf "$made"
}

# zstd's library by CMake, with jobs of 32 KiB at least in place of 512.
build_zstd() {
    local made=$out/zstd words=(-DZSTD_MULTITHREAD_SUPPORT=ON -DZSTD_LEGACY_SUPPORT=OFF -DZSTD_BUILD_SHARED=OFF -DZSTD_BUILD_PROGRAMS=OFF)
    if [ ! -f "$made/lib/libzstd.a" ]; then
        rm -rf "$made"
        cmake -S "$fetched/zstd/build/cmake" -B "$made" -DCMAKE_TOOLCHAIN_FILE="$here/../toolchain.cmake" "${words[@]}" \
            -DCMAKE_C_FLAGS="$lines -w -DZSTDMT_JOBSIZE_MIN=32768" >"$out/zstd.log"
        cmake --build "$made" >>"$out/zstd.log"
    fi
    "$cc" "$lines" -I "$fetched/zstd/lib" "$here/zstd.c" "$made/lib/libzstd.a" -o "$out/zstd.elf"
}

# liblzma by xz's configure.
build_xz() {
    local made=$out/xz
    if [ ! -f "$made/src/liblzma/.libs/liblzma.a" ]; then
        rm -rf "$made"
        mkdir "$made"
        (cd "$made" && "$fetched/xz/configure" -q CC="$cc" CFLAGS="-O2 $lines" --host=riscv32 --disable-shared --disable-nls)
        make -s -C "$made/src/liblzma" "${tools[@]}"
    fi
    "$cc" "$lines" -I "$fetched/xz/src/liblzma/api" "$here/xz.c" "$made/src/liblzma/.libs/liblzma.a" -o "$out/xz.elf"
}

mkdir -p "$out"
(($# > 0)) || set -- "${studies[@]}"
for study; do
    if [ ! -d "$fetched" ] || ! declare -F "build_$study" >/dev/null; then
        echo "build.sh: $study: fetch.sh fetches the sources first, and the studies are ${studies[*]}" >&2
        exit 1
    fi
    "build_$study"
done
