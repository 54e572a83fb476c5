# shellcheck shell=bash
# What it says of the calls, and of what the kit does and doesn't do by them (claims.sh sources this).
#
# (claims.sh sets the names that aren't set here, and flags that are several words are parted where they stand bare)
# shellcheck disable=SC2154,SC2086,SC2206,SC2046

# marked WHAT PROGRAM KIND [NUMBER ..]: between its marks a hart of the last run accesses what claims/marks.py says.
marked() {
    local what=$1 elf=$2
    shift 2
    "$here/claims/marks.py" "$elf" trace "$@" >said 2>&1
    record_status "$what" $?
}

# traced WHAT PROGRAM LINE [WORD ..]: as `ran` with exit 0, with its trace kept.
traced() {
    local what=$1 elf=$2 line=$3
    shift 3
    printf 'quantum = 10\nmemory = 67108864\n%s' "${MORE:-}" >settings
    "$predator" run --settings settings --trace trace --output put "$elf" "$@" >said 2>&1
    grep -q -x "outcome exit 0" said && grep -q -F -e "$line" put
    record_status "$what" $?
}

# The calls that the kit makes, each answer against the table. (The memory of `ran` ends there.)
claim_calls() {
    local it blocks=-Wl,--wrap=malloc,--wrap=free wrap=-Wl words=(-DTOP=0x4010000u)
    for it in write spawn_thread join wait wake hart_id; do
        wrap+=,--wrap=predator_$it
    done
    built "calls: kt_for is built" "$cc" $lines "${words[@]}" -DTHREADS=9 -I "$fetched/minimap2" "$fetched/minimap2/kthread.c" \
        "$here/kt_for.c" "$here/claims/calls.c" $blocks $wrap -o calls.elf
    ran "calls: kt_for, which wants more harts than there are" calls.elf 0 "calls: 0 wrong"
    answers "calls: kt_for" alloc free spawn join write
    liburcu
    built "calls: what looks at them is built" "$cc" -c $lines "${words[@]}" "$here/claims/calls.c" -o calls.o
    urcu "calls: liburcu's test_urcu_wfq is built" 200 benchmark test_urcu_wfq $blocks $wrap "$out/calls.o"
    ran "calls: liburcu's test_urcu_wfq" urcu/tests/benchmark/test_urcu_wfq 0 "calls: 0 wrong" -- 2 2 1
    answers "calls: liburcu's test_urcu_wfq" alloc free spawn join write hart_id
    built "calls: valgrind's pth_barrier is built" "$cc" $lines -w -I . -I "$valgrind" "$valgrind/drd/tests/pth_barrier.c" calls.o \
        $blocks $wrap -o calls.elf
    ran "calls: valgrind's pth_barrier" calls.elf 0 "calls: 0 wrong"
    answers "calls: valgrind's pth_barrier" spawn join wait wake hart_id
    # (whose checks ask for blocks in their own way)
    glibc_checks
    built "calls: glibc's tst-barrier4 is built" "$cc" $lines "${glibc_words[@]}" "${words[@]}" -DHARTS=24 \
        "$glibc/sysdeps/pthread/tst-barrier4.c" glibc.a "$here/claims/calls.c" $wrap -o calls.elf
    MORE="harts = 24" ran "calls: glibc's tst-barrier4" calls.elf 0 "calls: 0 wrong"
    answers "calls: glibc's tst-barrier4" spawn join wait wake
}

# answers WHAT CALL ..: the last program made each of these calls, and none was answered wrongly.
answers() {
    local what=$1 it
    shift
    for it; do
        grep -q -x -E "calls: $it [1-9][0-9]*, 0 wrong" put
        record_status "$what: $it" $?
    done
}

# laid_out WHAT PROGRAM: `check` says where its parts lie with the usual settings.
laid_out() {
    local what=$1 elf=$2
    "$predator" check "$elf" >said 2>&1
    python3 - >placed 2>&1 <<'PYTHON'
import sys
rows = [line.split() for line in open("said")]
code, data = [(int(it[1], 0), int(it[2]), it[3]) for it in rows if it[0] == "segment"]
heap, stacks = [[int(at, 0) for at in it[1:]] for it in rows if it[0] in ("heap", "stacks")]
page = lambda at: (at + 4095) // 4096 * 4096
top = 0x10000 + (16 << 20)
print(code, data, heap, stacks)
wanted = [(0x10000, "r-x"), (page(sum(code[:2])), "rw-"), [page(sum(data[:2])), top - 8 * 65536], [top - 8 * 65536, top]]
sys.exit([(code[0], code[2]), (data[0], data[2]), heap, stacks] != wanted)
PYTHON
    record_status "$what: its parts lie where they are said to" $?
}

# Where the parts of a program lie, and what each hart has for itself.
claim_layout() {
    local it
    laid_out "layout: kt_for" "$studies/kt_for.elf"
    laid_out "layout: Concurrency Kit's lock" "$studies/ck_anderson.elf"
    traced "layout: liburcu's benchmark" "$studies/urcu_qsbr.elf" "nr_readers   3" -- 3 1 1
    owned "layout: liburcu's benchmark" 4
    built "layout: valgrind's tls_threads is built" "$cc" $lines -w -DHAVE_TLS -I . "$valgrind/helgrind/tests/tls_threads.c" \
        -o tls_threads.elf
    traced "layout: valgrind's tls_threads" tls_threads.elf "" -- 1
    owned "layout: valgrind's tls_threads" 2
}

# owned WHAT COUNT: in the last trace, what each of so many harts or more has for itself is a block at the upper end of its stack.
owned() {
    local what=$1
    python3 - "$here/../../tools" "$2" >said 2>&1 <<'PYTHON'
import sys
sys.path.insert(0, sys.argv[1])
from traces import Alloc, records
top, stack = 0x4010000, 65536
with open("trace", "rb") as file:
    blocks = {(it.addr, it.size) for it in records(file.read()) if isinstance(it, Alloc) and it.addr >= top - 8 * stack}
ends = {addr: [top - hart * stack for hart in range(8) if (top - hart * stack - size) & -256 == addr] for addr, size in blocks}
print(blocks, ends)
sys.exit(len(blocks) < int(sys.argv[2]) or not all(ends.values()))
PYTHON
    record_status "$what: each hart's own lie at the upper end of its stack" $?
}

# Nothing is cleared: neither a block that was freed nor the stack of a hart that starts.
claim_kept() {
    local wrap=-Wl,--wrap=malloc,--wrap=pthread_create words=(-DTOP=0x4010000u)
    ck
    built "kept: what looks at them is built" "$cc" -c $lines "${words[@]}" "$here/claims/kept.c" -o kept.o
    built "kept: Concurrency Kit's ck_anderson is built" make -B -s -C ck/regressions/ck_spinlock/validate CC="$cc" \
        PTHREAD_CFLAGS="-pthread $lines -DITERATE=200 $wrap $out/kept.o" ck_anderson
    ran "kept: Concurrency Kit's ck_anderson" ck/regressions/ck_spinlock/validate/ck_anderson 0 \
        "kept: 1 blocks, 0 cleared; threads, 0 stacks cleared" -- 7 1
    liburcu
    urcu "kept: liburcu's test_urcu_wfq is built" 20000 benchmark test_urcu_wfq $wrap "$out/kept.o"
    ran "kept: liburcu's test_urcu_wfq" urcu/tests/benchmark/test_urcu_wfq 0 "kept: 1 blocks, 0 cleared; threads, 0 stacks cleared" -- 2 2 1
}

# sched_yield has nothing to do.
claim_yield() {
    local tests=$fetched/gnulib/tests wrap=-Wl,--wrap=sched_yield more=(-DMARKED=sched_yield "$here/claims/marked.c")
    sed 's/^#define REPEAT_COUNT .*/#define REPEAT_COUNT 100/' "$tests/test-pthread-mutex.c" >yield.c
    built "yield: gnulib's test-pthread-mutex is built" "$cc" $lines -w -DUSE_POSIX_THREADS=1 -DHAVE_SEMAPHORE_H=1 -include errno.h -I . \
        -I "$tests" -idirafter "$fetched/gnulib/lib" yield.c "${more[@]}" $wrap -o yield.elf
    MORE="harts = 24" traced "yield: gnulib's test-pthread-mutex" yield.elf " calls, 0 answers other than 0"
    marked "yield: gnulib's makes no access" yield.elf quiet
    built "yield: valgrind's reach_thread_register is built" "$cc" $lines -w -I . "$valgrind/memcheck/tests/reach_thread_register.c" \
        "${more[@]}" $wrap -o yield.elf
    traced "yield: valgrind's reach_thread_register" yield.elf " calls, 0 answers other than 0"
    marked "yield: valgrind's makes no access" yield.elf quiet
}

# malloc and free make no access.
claim_blank() {
    local it wrap=-Wl,--wrap=malloc,--wrap=free
    for it in malloc free; do
        built "blank: what marks $it is built" "$cc" -c $lines -DMARKED=$it "$here/claims/marked.c" -o marked-$it.o
    done
    ck
    built "blank: Concurrency Kit's ck_anderson is built" make -B -s -C ck/regressions/ck_spinlock/validate CC="$cc" \
        PTHREAD_CFLAGS="-pthread $lines -DITERATE=200 $wrap $out/marked-malloc.o $out/marked-free.o" ck_anderson
    traced "blank: Concurrency Kit's ck_anderson" ck/regressions/ck_spinlock/validate/ck_anderson "marked: malloc, " -- 7 1
    marked "blank: its malloc makes no access" ck/regressions/ck_spinlock/validate/ck_anderson quiet
    liburcu
    urcu "blank: liburcu's test_urcu_wfq is built" 20000 benchmark test_urcu_wfq $wrap "$out/marked-malloc.o" "$out/marked-free.o"
    traced "blank: liburcu's test_urcu_wfq" urcu/tests/benchmark/test_urcu_wfq "marked: free, " -- 1 1 1
    marked "blank: its malloc and free make no access" urcu/tests/benchmark/test_urcu_wfq quiet
}

# cleared WHAT PROGRAM [WORD ..]: what it was given was cleared, by a read of each word and a write of every other one, as it was left.
cleared() {
    local what=$1 elf=$2
    shift 2
    traced "$what" "$elf" "words, 0 left" "$@"
    marked "$what is cleared by reads, and by writes of what isn't 0" "$elf" cleared \
        $(sed -n 's/^cleared: \(0x[0-9a-f]*\) of \([0-9]*\) words.*/\1 \2/p' put)
}

claim_cleared() {
    local more=("$here/claims/cleared.c" -Wl,--wrap=sbrk) dlmalloc
    dlmalloc=(-DMALLOC=dlmalloc -DREALLOC=dlrealloc -DFREE=dlfree -DUSE_DL_PREFIX -DUSE_LOCKS "$allocators/dlmalloc/src/dlmalloc.c")
    built "cleared: dlmalloc is built" "$cc" $lines -w "$here/claims/blocks.c" "${dlmalloc[@]}" "${more[@]}" -o cleared.elf
    cleared "cleared: dlmalloc's by sbrk" cleared.elf
    bash_malloc "cleared" "${more[@]}"
    cleared "cleared: bash's by sbrk" bash_malloc.elf
    more=(-DMMAP "$here/claims/cleared.c" -Wl,--wrap=mmap)
    built "cleared: mimalloc is built" "$cc" $lines -w -DNDEBUG -DMALLOC=mi_malloc -DREALLOC=mi_realloc -DFREE=mi_free \
        -I "$allocators/mimalloc/include" "$here/claims/blocks.c" "$allocators/mimalloc/src/static.c" "${more[@]}" -o cleared.elf
    cleared "cleared: mimalloc's by mmap" cleared.elf
    liburcu
    built "cleared: what looks at mmap is built" "$cc" -c $lines -DMMAP "$here/claims/cleared.c" -o cleared.o
    urcu "cleared: liburcu's test_urcu_bp is built" 20000 benchmark test_urcu_bp -Wl,--wrap=mmap "$out/cleared.o"
    cleared "cleared: liburcu's by mmap" urcu/tests/benchmark/test_urcu_bp -- 4 1 1
}

# A wait of a condition variable that ends after a time reads its word each time round.
claim_rounds() {
    local tests=$fetched/gnulib/tests more=(-DMARKED=pthread_cond_timedwait "$here/claims/marked.c" -Wl,--wrap=pthread_cond_timedwait)
    built "rounds: liblzma is built" env STEP_TIME=1000 "$cc" $lines -DTIMEOUT=1 -I "$fetched/xz/src/liblzma/api" "$here/xz.c" \
        "${more[@]}" "$studies/xz/src/liblzma/.libs/liblzma.a" -o rounds.elf
    traced "rounds: liblzma" rounds.elf "marked: pthread_cond_timedwait"
    marked "rounds: liblzma's wait reads its word again and again" rounds.elf reads $(sed -n 's/^marked: .* of //p' put)
    built "rounds: gnulib's test-pthread-cond is built" env STEP_TIME=100000 "$cc" $lines -w -DUSE_POSIX_THREADS=1 -DHAVE_SEMAPHORE_H=1 -I . \
        -I "$tests" -idirafter "$fetched/gnulib/lib" "$tests/test-pthread-cond.c" -include errno.h "${more[@]}" -o rounds.elf
    MORE="harts = 24" traced "rounds: gnulib's test-pthread-cond" rounds.elf "marked: pthread_cond_timedwait"
    marked "rounds: gnulib's wait reads its word again and again" rounds.elf reads $(sed -n 's/^marked: .* of //p' put)
}

# What is printed goes out in pieces of up to 256 bytes.
claim_pieces() {
    local tests=$fetched/gnulib/tests wrap=-Wl,--wrap=predator_write
    xz_all
    built "pieces: what counts them is built" "$cc" -c $lines "$here/claims/pieces.c" -o pieces.o
    rm -f xz-configure/src/xzdec/xzdec
    built "pieces: xzdec is built" make -s -C xz-configure/src/xzdec "${tools[@]}" LDFLAGS="$wrap $out/pieces.o" xzdec
    ran "pieces: xzdec's help, which is one call" xz-configure/src/xzdec/xzdec 0 "pieces: 2 of 256 bytes, 1 of fewer, 0 of more" -- --help
    rm -f xz-configure/src/xzdec/xzdec
    built "pieces: xzdec is built as it was" make -s -C xz-configure/src/xzdec "${tools[@]}" LDFLAGS= xzdec
    # (there is no limit of memory to be asked, and two rounds do)
    sed -e 's/get_rusage_as ()/1/' -e 's/is_running_under_qemu_user ()/0/' -e 's/^#define NUM_ROUNDS .*/#define NUM_ROUNDS 2/' \
        "$tests/test-fprintf-posix3.c" >test-fprintf-posix3.c
    built "pieces: gnulib's test-fprintf-posix3 is built" "$cc" $lines -w -D_GL_ATTRIBUTE_PURE= -include stdbool.h -I . -I "$tests" \
        -idirafter "$fetched/gnulib/lib" test-fprintf-posix3.c pieces.o $wrap -o pieces.elf
    ran "pieces: gnulib's test-fprintf-posix3, two calls of 11,001 bytes" pieces.elf 0 "pieces: 84 of 256 bytes, 2 of fewer, 0 of more" -- 1
}

# No file is a terminal.
claim_terminals() {
    local xz=$fetched/xz/src
    xz_all
    # (which it asks on a system that says it has POSIX)
    built "terminals: zstd's question is built" "$cc" $lines -w -DPLATFORM_POSIX_VERSION=200112L -I "$fetched/zstd/programs" "$here/claims/terminal.c" -o terminal.elf
    ran "terminals: zstd finds none" terminal.elf 0 "0 terminals"
    # (its other functions want more of it)
    built "terminals: xz's question is built" "$cc" $lines -w -DXZ -DHAVE_CONFIG_H -DPREDATOR_REFUSE_AT_RUN -DLOCALEDIR='""' -I xz-configure \
        -I "$xz/xz" -I "$xz/common" -I "$xz/liblzma/api" "$here/claims/terminal.c" "$xz/xz/util.c" \
        -Wl,--unresolved-symbols=ignore-all -o terminal.elf
    ran "terminals: xz finds none" terminal.elf 0 "0 terminals"
}

# Masks hold nothing back: two tests that want a signal held back fail by it.
claim_masks() {
    local tests=$fetched/gnulib/tests
    # (from within, since there is no other process)
    sed 's/ASSERT (system (command) == 0)/ASSERT (raise (SIGINT) == 0)/' "$tests/test-sigprocmask.c" >test-sigprocmask.c
    built "masks: gnulib's test-sigprocmask is built" env STEP_TIME=100000 "$cc" $lines -w -D_GL_UNUSED= -I . -I "$tests" \
        -idirafter "$fetched/gnulib/lib" test-sigprocmask.c -o masks.elf
    ran "masks: gnulib's test-sigprocmask gets it at once" masks.elf 134 "sigint_occurred == 0"
    built "masks: valgrind's pending is built" env STEP_TIME=100000 "$cc" $lines -w -I . "$valgrind/none/tests/pending.c" -o masks.elf
    ran "masks: valgrind's pending gets it at once" masks.elf 1 "FAILED: signal delivered early"
}

# poll of the files that are there comes back at once.
claim_ready() {
    liburcu
    built "ready: what asks for them is built" "$cc" -c $lines -DREADY "$here/claims/poll.c" -o poll-ready.o
    built "ready: liburcu's tap is built" make -s -C urcu/tests/utils "${tools[@]}" libtap.a
    urcu "ready: liburcu's rcutorture is built" 200 regression rcutorture_urcu_bp -Wl,--wrap=poll "$out/poll-ready.o"
    ran "ready: liburcu's rcutorture" urcu/tests/regression/rcutorture_urcu_bp 0 "ok 1 - perftest readers: 3" -- 3 perf
    holds "ready: liburcu's rcutorture is answered at once" "poll: ready, 0 late" 1
    built "ready: valgrind's badpoll is built" env STEP_TIME=2000 "$cc" $lines -w "$valgrind/memcheck/tests/badpoll.c" poll-ready.o \
        -Wl,--wrap=poll -o badpoll.elf
    ran "ready: valgrind's badpoll is answered at once" badpoll.elf 0 "poll: ready, 0 late"
}

# A run begins at 0 by its clock.
claim_zero() {
    built "zero: a program of SQLite's is built" env STEP_TIME=1000 "$cc" $lines -DSQLITE -I "$studies/sqlite3" "$here/claims/zero.c" \
        "$studies/sqlite3.o" -o zero.elf
    ran "zero: SQLite begins at 0" zero.elf 0 "begins at 1970-01-01 00:00:00"
    built "zero: minimap2's clock is built" "$cc" $lines -w -DPREDATOR_REFUSE_AT_RUN "$here/claims/zero.c" "$fetched/minimap2/misc.c" -lm \
        -o zero.elf
    ran "zero: minimap2 begins at 0" zero.elf 0 "begins at 0.000"
}

# Code is optimised and has full debug information where the words don't say otherwise: with these words the object is the same, and with others
# another one.
claim_default() {
    local it
    for it in minimap2/kthread.c zstd/lib/common/xxhash.c; do
        for words in "" "-O2 -g" -O1 -g0; do
            built "default: ${it%%/*}'s ${it##*/} with '$words'" "$cc" -c $words "$fetched/$it" -o "default$words.o"
        done
        cmp default.o "default-O2 -g.o" >said 2>&1
        record_status "default: ${it%%/*}'s ${it##*/} is as with -O2 -g" $?
        ! cmp -s default.o default-O1.o && ! cmp -s default.o default-g0.o
        record_status "default: and not as with -O1 or -g0" $?
    done
}

# Neither the heap nor a stack can be executed: who begins there is stopped.
claim_executed() {
    local it wrap=-Wl,--wrap=pthread_create trap="outcome trap hart 1 pc 0x[0-9a-f]+ fetch-outside,.*"
    liburcu
    for it in HEAP STACK; do
        built "executed: kt_for with threads in the ${it,,} is built" "$cc" $lines -D$it -I "$fetched/minimap2" \
            "$fetched/minimap2/kthread.c" "$here/kt_for.c" "$here/claims/jumps.c" $wrap -o jumps.elf
        viewed "executed: kt_for is stopped in the ${it,,}" 3 "outcome trap hart 1" --fail-above 1000000 jumps.elf
        said "executed: by a fetch in kt_for" "$trap"
        built "executed: what leads to the ${it,,} is built" "$cc" -c $lines -D$it "$here/claims/jumps.c" -o jumps.o
        urcu "executed: liburcu's test_urcu_bp with threads there is built" 20000 benchmark test_urcu_bp $wrap "$out/jumps.o"
        viewed "executed: liburcu's test_urcu_bp is stopped in the ${it,,}" 3 "outcome trap hart 1" --fail-above 1000000 \
            urcu/tests/benchmark/test_urcu_bp -- 4 1 1
        said "executed: by a fetch in liburcu's test_urcu_bp" "$trap"
    done
}

# grown WHAT HARTS HART PROGRAM: with stacks of 4 KiB this hart of so many writes below its own, among much else later on.
grown() {
    printf 'quantum = 10\nmemory = 67108864\nbudget = 1000000\nstack = 4096\nharts = %d\n' "$2" >settings
    "$predator" run --settings settings --trace trace --output put "$4" >said 2>&1
    python3 - "$here/../../tools" "$3" >said 2>&1 <<'PYTHON'
import sys
sys.path.insert(0, sys.argv[1])
from traces import accesses
hart, end = int(sys.argv[2]), 0x4010000 - (int(sys.argv[2]) + 1) * 4096
with open("trace", "rb") as file:
    below = [it == hart and is_write and end - 4096 <= addr < end for it, addr, is_write in accesses(file.read())]
print(sum(below), "of", len(below))
sys.exit(not any(below[:-1000]))
PYTHON
    record_status "$1" $?
}

# A stack that grows too far runs into the next one, and the last one into the heap. (What the second program finds of strings is left aside.)
claim_stacks() {
    grown "stacks: a thread of SQLite's runs into the next one" 8 1 "$studies/sqlite.elf"
    grown "stacks: SQLite's last one runs into the heap" 5 4 "$studies/sqlite.elf"
    built "stacks: valgrind's str_tester is built" "$cc" $lines -O1 -w -I . "$valgrind/memcheck/tests/str_tester.c" -o str_tester.elf
    grown "stacks: valgrind's str_tester runs into the next one" 8 0 str_tester.elf
    grown "stacks: valgrind's str_tester runs into the heap where its is the last" 1 0 str_tester.elf
}
