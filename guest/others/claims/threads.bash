# shellcheck shell=bash
# What it says of threads, signals and the clock (claims.sh sources this).
#
# (claims.sh sets the names that aren't set here, and flags that are several words are parted where they stand bare)
# shellcheck disable=SC2154,SC2086,SC2206,SC2046

claim_harts() {
    local advice="pthread_create: each of the 8 harts is in use, so there is none for another thread: the settings may have more, as harts = 16"
    built "harts: kt_for with nine threads is built" "$cc" $lines -DTHREADS=9 -I "$fetched/minimap2" "$fetched/minimap2/kthread.c" \
        "$here/kt_for.c" -o kt_for-9.elf
    ran "harts: kt_for says at once what would help" kt_for-9.elf 0 "$advice"
    said "harts: and so does the line behind its report" "predator: the last thread could not start: all 8 harts are in use .*"
    MORE="harts = 16" ran "harts: kt_for with that" kt_for-9.elf 0 ""
    ! grep -q pthread_create put
    record_status "harts: no advice then" $?
    ran "harts: liburcu's qsbr says at once what would help" "$studies/urcu_qsbr.elf" 1 "$advice" -- 8 1 1
    said "harts: and so does the line behind liburcu's report" "predator: the last thread could not start: all 8 harts are in use .*"
    MORE="harts = 16" ran "harts: liburcu's qsbr with that" "$studies/urcu_qsbr.elf" 0 "nr_readers   8" -- 8 1 1
}

claim_clock() {
    built "clock: a program of SQLite's is built" env STEP_TIME=10000 "$cc" $lines -I "$studies/sqlite3" "$here/claims/clock.c" \
        "$studies/sqlite3.o" -o clock.elf
    ran "clock: SQLite sees a wait of two seconds" clock.elf 0 " seconds"
    built "clock: liblzma with waits that end by it is built" env STEP_TIME=10000 "$cc" $lines -DTIMEOUT=1 -I "$fetched/xz/src/liblzma/api" \
        "$here/xz.c" "$studies/xz/src/liblzma/.libs/liblzma.a" -o xz-timed.elf
    ran "clock: liblzma comes back in time, again and again" xz-timed.elf 0 "several turns"
    ran "clock: liburcu's benchmark ends by it" "$studies/urcu_qsbr.elf" 0 "testdur    1" -- 2 1 1
    cp put first
    ran "clock: liburcu's benchmark once more" "$studies/urcu_qsbr.elf" 0 "" -- 2 1 1
    cmp put first >said 2>&1
    record_status "clock: it counts the same in its second" $?
    ran "clock: liblzma once more" xz-timed.elf 0 ""
    cp put first
    ran "clock: liblzma a third time" xz-timed.elf 0 ""
    cmp put first >said 2>&1
    record_status "clock: it takes as many turns" $?
}

# late WHAT FUNCTION LEAST MOST SOURCE WORD ..: how many steps more it takes where the first call of the function is late by 200,000 steps,
# with the words of a compiler.
late() {
    local what=$1 function=$2 least=$3 most=$4 rounds steps=() more words
    shift 4
    words=(env STEP_TIME=100000 "$cc" "$lines" -w "-DLATE=$function" "-Wl,--wrap=$function" "$here/claims/late.c" "$@" -o late.elf)
    for rounds in 0 100000; do
        built "$what with $rounds rounds is built" "${words[@]}" "-DROUNDS=$rounds"
        MORE="harts = 24" ran "$what with $rounds rounds" late.elf 0 ""
        steps+=("$(sed -n 's/^steps //p' said)")
    done
    more=$((steps[1] - steps[0]))
    echo "$more steps more" >said
    ((least <= more && more <= most))
    record_status "$what: $more steps more" $?
}

# Who waits makes no step: the run is longer by what was late, whoever waits for it, but for some steps by which turns are other ones. With a
# lock that spins each of those who wait makes as many.
claim_waits() {
    local it function threads=$glibc/sysdeps/pthread words=(-O1 -I . -I "$valgrind")
    glibc_checks
    while read -r it function; do
        late "waits: glibc's $it, $function" "$function" 200000 204000 "${glibc_words[@]}" "$threads/$it.c" glibc.a
    done <<'END'
tst-cond2 pthread_cond_broadcast
tst-barrier4 pthread_barrier_wait
tst-cond2 pthread_mutex_unlock
END
    while read -r it function; do
        late "waits: valgrind's $it, $function" "$function" 200000 204000 "${words[@]}" "$valgrind/drd/tests/$it.c"
    done <<'END'
pth_cond_destroy_busy pthread_cond_signal
pth_barrier pthread_barrier_wait
pth_cond_race pthread_mutex_unlock
pth_detached_sem sem_post
END
    late "spins: glibc's tst-spin4" pthread_spin_unlock 400000 10000000 "${glibc_words[@]}" "$threads/tst-spin4.c" glibc.a
    late "spins: valgrind's pth_spinlock" pthread_spin_unlock 400000 10000000 "${words[@]}" "$valgrind/drd/tests/pth_spinlock.c"
}

# poll with a time and nothing that would be ready before it.
claim_poll() {
    liburcu
    built "poll: what looks at it is built" "$cc" -c $lines "$here/claims/poll.c" -o poll.o
    built "poll: liburcu's tap is built" make -s -C urcu/tests/utils "${tools[@]}" libtap.a
    urcu "poll: liburcu's rcutorture is built" 200 regression rcutorture_urcu_bp -Wl,--wrap=poll "$out/poll.o"
    ran "poll: liburcu's rcutorture" urcu/tests/regression/rcutorture_urcu_bp 0 "ok 1 - perftest readers: 3" -- 3 perf
    holds "poll: liburcu's rcutorture waits until the time is over" "poll: waited, 0 early" 1
    built "poll: valgrind's badpoll is built" env STEP_TIME=2000 "$cc" $lines -w "$valgrind/memcheck/tests/badpoll.c" poll.o -Wl,--wrap=poll \
        -o badpoll.elf
    ran "poll: valgrind's badpoll waits until the time is over" badpoll.elf 0 "poll: waited, 0 early"
    built "poll: what takes its time away is built" "$cc" -c $lines -DFOR_EVER "$here/claims/poll.c" -o poll-for_ever.o
    urcu "poll: liburcu's rcutorture for ever is built" 200 regression rcutorture_urcu_bp -Wl,--wrap=poll "$out/poll-for_ever.o"
    ran "poll: liburcu's rcutorture for ever" urcu/tests/regression/rcutorture_urcu_bp 134 "poll: no file becomes ready" -- 3 perf
    built "poll: valgrind's badpoll for ever is built" "$cc" $lines -w "$valgrind/memcheck/tests/badpoll.c" poll-for_ever.o -Wl,--wrap=poll \
        -o badpoll.elf
    ran "poll: valgrind's badpoll for ever" badpoll.elf 134 "poll: no file becomes ready"
}

claim_barriers() {
    glibc barriers sysdeps/pthread/tst-{barrier3,barrier4}
    valgrind barriers helgrind/tests/bar_trivial "x = 2"
    valgrind barriers drd/tests/pth_barrier_thr_cr "Done."
    # (the thread that ends a round destroys the barrier at once; valgrind's sleeps before that)
    local more=("$here/claims/ended.c" -Wl,--wrap=pthread_barrier_destroy,--wrap=pthread_create,--wrap=predator_wait)
    built "barriers: glibc's tst-barrier4, whose barriers end, is built" "$cc" $lines "${glibc_words[@]}" "$glibc/sysdeps/pthread/tst-barrier4.c" \
        glibc.a "${more[@]}" -o ended.elf
    MORE="harts = 24" ran "barriers: glibc's tst-barrier4, whose barriers end" ended.elf 0 ""
    sed 's/^  sleep(1);$//' "$valgrind/drd/tests/pth_barrier_race.c" >pth_barrier_race.c
    built "barriers: valgrind's pth_barrier_race, whose barrier ends, is built" "$cc" $lines -w pth_barrier_race.c "${more[@]}" -o ended.elf
    ran "barriers: valgrind's pth_barrier_race, whose barrier ends" ended.elf 0 ""
}

claim_cleanup() {
    glibc "cleanup handlers" sysdeps/pthread/tst-cleanup3
    valgrind "cleanup handlers" drd/tests/pth_cleanup_handler "Test succeeded."
    holds "cleanup handlers: both of valgrind's threads call theirs" "Cleanup handler has been called." 2
}

claim_once() {
    glibc once sysdeps/pthread/tst-{once1,once2}
    valgrind once none/tests/pth_once "main: Goodbye"
}

claim_spin() {
    glibc "spin locks" sysdeps/pthread/tst-{spin3,spin4}
    valgrind "spin locks" drd/tests/pth_spinlock "Test successful."
}

claim_semaphores() {
    glibc semaphores sysdeps/pthread/tst-{sem1,sem14,sem15}
    valgrind semaphores drd/tests/pth_detached_sem "Done."
}

claim_c11() {
    glibc threads.h sysdeps/pthread/tst-{call-once,cnd-basic,cnd-broadcast,mtx-basic,mtx-recursive,mtx-trylock,thrd-detach,tss-basic}
}

# Mutexes that know their holder.
claim_kinds() {
    glibc "kinds of mutexes" sysdeps/pthread/tst-{mutex-errorcheck,mutex2,pthread-mutexattr}
    valgrind "kinds of mutexes" drd/tests/recursive_mutex "Done." \
        -DHAVE_PTHREAD_{RECURSIVE_MUTEX_INITIALIZER,MUTEX_RECURSIVE,MUTEX_ERRORCHECK}_NP
    holds "kinds of mutexes: valgrind's checking one and its plain one are locked once" "second lock call failed !" 2
}

# Detached threads, hundreds in all, whose harts come free; and attributes that have no effect.
claim_detached() {
    local it
    for it in detach1 thrd-detach; do
        glibc "detached threads" "sysdeps/pthread/tst-$it"
        ran "detached threads: glibc's tst-$it, forty times with eight harts" "tst-$it.elf" 0 "" -- 40
    done
    valgrind "detached threads" drd/tests/pth_detached "Done."
    glibc attributes sysdeps/pthread/tst-{basic5,join4}
    valgrind attributes drd/tests/rwlock_test "Finished."
}

claim_timed() {
    glibc "waits for a time" sysdeps/pthread/tst-{mtx-timedlock,cnd-timedwait,thrd-sleep}
    valgrind "waits for a time" drd/tests/trylock "Locking mutex via pthread_mutex_timedlock()."
}

# The number of processors, by sysconf and by sets of harts.
claim_processors() {
    local words=(-w -DGNULIB -include stdbool.h -D_GL_INLINE_HEADER_BEGIN= -D_GL_INLINE_HEADER_END= "-DC_CTYPE_INLINE=static inline" -I .)
    words+=(-idirafter "$fetched/gnulib/lib" "$here/claims/harts.c" "$fetched/gnulib/lib/nproc.c")
    built "processors: gnulib's nproc by sysconf is built" "$cc" $lines "${words[@]}" -o nproc.elf
    MORE="harts = 12" ran "processors: gnulib's nproc by sysconf" nproc.elf 0 "12 harts"
    built "processors: gnulib's nproc by a set is built" "$cc" $lines "${words[@]}" -DHAVE_SCHED_GETAFFINITY_LIKE_GLIBC=1 -o nproc-set.elf
    MORE="harts = 12" ran "processors: gnulib's nproc by a set" nproc-set.elf 0 "12 harts"
    xz_all
    grep -q "define TUKLIB_CPUCORES_SCHED_GETAFFINITY 1" xz-configure/config.h
    record_status "processors: xz's configure finds sets of harts" $?
    built "processors: liblzma's count is built" "$cc" $lines -I "$fetched/xz/src/liblzma/api" "$here/claims/harts.c" \
        xz-configure/src/liblzma/.libs/liblzma.a -o cputhreads.elf
    MORE="harts = 12" ran "processors: liblzma's count" cputhreads.elf 0 "12 harts"
}

# Signals of the program's own, and how a program ends.
claim_signals() {
    local it tests=$fetched/gnulib/tests
    glibc signals signal/tst-{signal,raise}
    for it in raise sigaction; do
        built "signals: gnulib's test-$it is built" "$cc" $lines -w -D_GL_UNUSED= -I . -I "$tests" -idirafter "$fetched/gnulib/lib" \
            "$tests/test-$it.c" -o "test-$it.elf"
        ran "signals: gnulib's test-$it" "test-$it.elf" 0 ""
    done
}

# locked WHAT PROGRAM [WORD ..]: of its first mutex, which it puts out and nobody else wants, a call that locks is a read and a write of its word, one
# that releases a write, and for each two calls there are three reads of its kind.
locked() {
    local what=$1 elf=$2
    shift 2
    ran "$what" "$elf" 0 "mutex: 0x" "$@"
    "$predator" run --settings settings --trace trace --output put "$elf" "$@" >/dev/null 2>&1
    python3 - "$here/../../tools" $(sed -n 's/^mutex: \(0x[0-9a-f]*\), \([0-9]*\) times$/\1 \2/p' put) >said 2>&1 <<'END'
import sys
sys.path.insert(0, sys.argv[1])
from traces import accesses
mutex, times = int(sys.argv[2], 16), int(sys.argv[3])
with open("trace", "rb") as file:
    seen = [(addr - mutex, is_write) for _, addr, is_write in accesses(file.read()) if 0 <= addr - mutex < 16]
counts = [seen.count((at, is_write)) for at in (0, 4) for is_write in (False, True)]
print(times, counts)
sys.exit(times == 0 or counts[:3] != [times // 2, times, times // 2 * 3] or len(seen) != sum(counts))
END
    record_status "$what: reads and writes of its mutex" $?
}

# What a report sees of a mutex that nobody else wants.
claim_locks() {
    local wrap=-Wl,--wrap=pthread_mutex_lock,--wrap=pthread_mutex_unlock
    built "locks: a program of SQLite's is built" env STEP_TIME=10000 "$cc" $lines -I "$studies/sqlite3" "$here/claims/clock.c" \
        "$studies/sqlite3.o" "$here/claims/locks.c" $wrap -o locks.elf
    locked "locks: SQLite" locks.elf
    liburcu
    built "locks: what counts them is built" "$cc" -c $lines "$here/claims/locks.c" -o locks.o
    urcu "locks: liburcu's test_urcu_mb is built" 20000 benchmark test_urcu_mb $wrap "$out/locks.o"
    locked "locks: liburcu" urcu/tests/benchmark/test_urcu_mb -- 0 1 1
}

# Waits that nobody ends. (The lock is the caller's own; and the barrier is for ten threads.)
claim_deadlocks() {
    glibc_checks
    built "deadlocks: glibc's tst-rwlock3 is built" "$cc" $lines "${glibc_words[@]}" "$glibc/nptl/tst-rwlock3.c" glibc.a -o tst-rwlock3.elf
    ran "deadlocks: glibc's tst-rwlock3" tst-rwlock3.elf deadlock "rwlock_trywrlock on unlocked rwlock succeeded"
    built "deadlocks: valgrind's pth_spinlock is built" "$cc" $lines -w -I . -I "$valgrind" "$valgrind/drd/tests/pth_spinlock.c" -o deadlock.elf
    ran "deadlocks: valgrind's pth_spinlock with eight harts" deadlock.elf deadlock "each of the 8 harts is in use"
}

# gnulib's tests of what pthread.h and threads.h have, up to eleven threads at once, each with fewer rounds.
claim_threads() {
    local it tests=$fetched/gnulib/tests kind
    # (a time of a second or two is 10,000 steps of these)
    export STEP_TIME=100000
    for it in pthread-{mutex,cond,rwlock,spin,once1,once2,tss,thread} call_once cnd tss thrd_create thrd_current thread_local; do
        kind=(-DUSE_ISOC_THREADS=1)
        [[ $it != pthread-* ]] || kind=(-DUSE_POSIX_THREADS=1 -DHAVE_SEMAPHORE_H=1)
        sed 's/^#define REPEAT_COUNT .*/#define REPEAT_COUNT 100/' "$tests/test-$it.c" >"test-$it.c"
        built "threads: gnulib's test-$it is built" "$cc" $lines -w "${kind[@]}" -I . -I "$tests" -idirafter "$fetched/gnulib/lib" "test-$it.c" \
            -include errno.h -o "test-$it.elf"
        MORE="harts = 24" ran "threads: gnulib's test-$it" "test-$it.elf" 0 ""
    done
    unset STEP_TIME
}
