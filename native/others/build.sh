#!/usr/bin/env bash
# Builds the studies of what fetch.sh has fetched into out/, with debug information: as it is, and again with the repair, which is put in by sed.
#
#     build.sh [STUDY ..]        all of them, or those that are named
#
# (Debian: apt-get install gcc g++ make libevent-dev libtbb-dev libopenblas-dev; the first two packages have the settings that Debian builds libevent with, and oneTBB's
# library, of which the headers are what is looked at.)
set -eu
here=$(cd "$(dirname "$(readlink -f "$0")")" && pwd)
fetched=$here/fetched
out=$here/out
flags=(-g -O2 -w -pthread)
studies=(lmdb libevent queue gomp haproxy blas)

# NAME: a copy of a source that a repair changes.
copy() {
    rm -rf "${out:?}/$1"
    cp -r "$fetched/$2" "$out/$1"
}

build_lmdb() {
    local name from=libraries/liblmdb
    for name in lmdb lmdb-apart; do
        copy "$name.source" lmdb
        # (what a writer writes apart from what readers read)
        if [ "$name" = lmdb-apart ]; then
            sed -i '/^struct MDB_env {$/,/^};$/{
                s/^\tMDB_txn\t\t\*me_txn;.*/\tchar apart0[64];\n&/
                s/^\tsize_t\t\tme_mapsize;.*/\tchar apart1[64];\n&/
                s/^\ttxnid_t\t\tme_pgoldest;.*/\tchar apart2[64];\n&/
                s/^\tint\t\t\tme_maxfree_1pg;.*/\tchar apart3[64];\n&/
            }' "$out/$name.source/$from/mdb.c"
        fi
        gcc "${flags[@]}" -I "$out/$name.source/$from" "$here/lmdb.c" "$out/$name.source/$from"/{mdb,midl}.c -o "$out/$name"
    done
}

build_libevent() {
    local name sources=(event evmap evthread evthread_pthread evutil evutil_rand evutil_time log signal epoll poll select strlcpy)
    for name in libevent libevent-once; do
        copy "$name.source" libevent
        [ "$name" = libevent ] ||
            sed -i 's/^\tevent_debug_mode_too_late = 1;$/\tif (!event_debug_mode_too_late)\n\t\t&/' "$out/$name.source/event.c"
        printf '#define _GNU_SOURCE 1\n' >"$out/$name.source/evconfig-private.h"
        (cd "$out/$name.source" && gcc "${flags[@]}" -DHAVE_CONFIG_H -I . -I include -I "/usr/include/$(gcc -print-multiarch)" "$here/libevent.c" \
            "${sources[@]/%/.c}" -o "$out/$name")
    done
}

build_queue() {
    local name
    for name in queue queue-apart; do
        copy "$name.source" onetbb
        # (lines of its own for each element, and in it for each of its two ends)
        [ "$name" = queue ] || sed -i '/^class micro_queue {$/,/^};/{
            s/^class micro_queue {$/class alignas(max_nfs_size) micro_queue {/
            s/^    std::atomic<padded_page\*> tail_page{};$/    alignas(max_nfs_size) &/
        }' "$out/$name.source/include/oneapi/tbb/detail/_concurrent_queue_base.h"
        g++ "${flags[@]}" -std=c++17 -I "$out/$name.source/include" "$here/queue.cpp" -ltbb -o "$out/$name"
    done
}

build_gomp() {
    gcc "${flags[@]}" -fopenmp "$here/gomp.c" -o "$out/gomp"
    gcc "${flags[@]}" -fopenmp -DAPART "$here/gomp.c" -o "$out/gomp-apart"
}

build_blas() {
    gcc "${flags[@]}" "$here/blas.c" -o "$out/blas" -lopenblas
}

build_haproxy() {
    local name source aligned='THREAD_ALIGNED(64)'
    for name in haproxy haproxy-apart; do
        # (each takes three minutes of a processor; what is there stays)
        [ ! -x "$out/$name" ] || continue
        copy "$name.source" haproxy
        source=$out/$name.source
        # (what a connection writes apart from what each round reads, and what threads have in arrays apart from each other)
        if [ "$name" = haproxy-apart ]; then
            sed -i -E "s/^int +(jobs|killed|pid)( = 0)?;/int \1 $aligned\2;/; s/^(volatile unsigned long sleeping_thread_mask)/\1 $aligned/" \
                "$source/src/haproxy.c"
            sed -i -E "s/^(\tunsigned int (thr_idx|analysers));/\1 $aligned;/
                s/^\tunsigned int (thr_conn\[MAX_THREADS\];)/\tstruct { unsigned int count; } $aligned \1/" "$source/include/haproxy/listener-t.h"
            sed -i "/^struct mux_stopping_data {$/,/^};$/s/^};$/} $aligned;/" "$source/include/haproxy/connection-t.h"
            sed -i -E 's/->thr_conn\[[a-z0-9]+\]/&.count/
                s/^(\t+)l = calloc\(1, sizeof\(\*l\)\);/\1if ((l = aligned_alloc(64, sizeof(*l))))\n\1\tmemset(l, 0, sizeof(*l));/' "$source/src/listener.c"
        fi
        nice make -C "$source" -j"$(nproc)" TARGET=linux-glibc DEBUG_CFLAGS=-g OPT_CFLAGS=-O2 haproxy >/dev/null
        cp "$source/haproxy" "$out/$name"
    done
}

mkdir -p "$out"
(($# > 0)) || set -- "${studies[@]}"
for study; do
    if ! declare -F "build_$study" >/dev/null; then
        echo "build.sh: $study: the studies are ${studies[*]}" >&2
        exit 1
    fi
    "build_$study"
done
