# shellcheck shell=bash
# What it says of building programs, of their words, their ends and their reports (claims.sh sources this).
#
# (claims.sh sets the names that aren't set here, and flags that are several words are parted where they stand bare)
# shellcheck disable=SC2154,SC2086,SC2206

claim_cxx() {
    local it no="a thread_local variable has no destructor here: free it where the thread ends"
    local pugi=(-DPUGIXML_NO_STL -DPUGIXML_NO_EXCEPTIONS -I "$fetched/pugixml/src" "$here/claims/pugixml.cc" "$fetched/pugixml/src/pugixml.cpp")
    # (the name of a system without <cstdio> and its like)
    local tiny=(-DANDROID_NDK -I "$fetched/tinyxml2" "$here/claims/tinyxml2.cc" "$fetched/tinyxml2/tinyxml2.cpp")
    built "C++: pugixml is built" "$cxx" $lines -O1 -DPREDATOR_REFUSE_AT_RUN "${pugi[@]}" -o pugixml.elf
    ran "C++: pugixml runs in four threads" pugixml.elf 0 "0: "
    as_native "C++: pugixml does what it does here" "${pugi[@]}"
    llvm-nm pugixml.elf | grep -q __cxa_guard_acquire
    record_status "C++: its query is a static of a function" $?
    built "C++: TinyXML-2 is built" "$cxx" $lines -O1 -DPREDATOR_REFUSE_AT_RUN "${tiny[@]}" -o tinyxml2.elf
    ran "C++: TinyXML-2 runs in four threads" tinyxml2.elf 0 "0: "
    as_native "C++: TinyXML-2 does what it does here" "${tiny[@]}"
    for it in drd/tests/{new_delete,annotate_static} massif/tests/{new-cpp,overloaded-new} memcheck/tests/{new_nothrow,new_override}; do
        built "C++: valgrind's ${it##*/} is built" "$cxx" $lines -w -I . -I "$valgrind" -I "$valgrind/include" "$valgrind/$it.cpp" -o it.elf
        ran "C++: valgrind's ${it##*/}" it.elf 0 ""
    done
    built "C++: valgrind's local_static is built" "$cxx" $lines -w -I "$here/claims/c++" "$valgrind/drd/tests/local_static.cpp" -o it.elf
    ran "C++: valgrind's local_static, two threads with a static of a function" it.elf 0 "Done."
    holds "C++: local_static's was made before each look at it" 42 10
    llvm-nm it.elf | grep -q __cxa_guard_acquire
    record_status "C++: local_static's is one" $?
    # (each thread its document, which has a destructor)
    for it in pugixml tinyxml2; do
        sed 's/^    \(pugi::xml_document\|tinyxml2::XMLDocument\) document;/    static thread_local&/' "$here/claims/$it.cc" >"$it.cc"
    done
    pugi[4]=pugixml.cc tiny[3]=tinyxml2.cc
    refused "C++: a thread_local document of pugixml's" "$no" "$cxx" -DPREDATOR_REFUSE_AT_RUN "${pugi[@]}" -o no.elf
    refused "C++: a thread_local document of TinyXML-2's" "$no" "$cxx" -DPREDATOR_REFUSE_AT_RUN "${tiny[@]}" -o no.elf
    glibc_checks
    for it in quick_exit thread-quick_exit; do
        refused "C++: a thread_local variable in glibc's tst-$it" "$no" "$cxx" "${glibc_words[@]}" "$glibc/stdlib/tst-$it.cc" glibc.a -o no.elf
    done
}

claim_words() {
    ran "words: liburcu's benchmark" "$studies/urcu_qsbr.elf" 0 "nr_readers   3" -- 3 1 1
    ran "words: Concurrency Kit's test" "$studies/ck_ring.elf" 0 "" -- 3 1 16
    ran "words: Concurrency Kit's test asks for more of them" "$studies/ck_ring.elf" 1 "Usage: validate" -- 3
    # (the words stand behind the others of explain and of view run too; and in a copy of the file)
    viewed "words: liburcu's benchmark by view run" 0 "outcome exit 0" "$studies/urcu_qsbr.elf" -- 3 1 1
    viewed "words: Concurrency Kit's test by view run" 3 "outcome exit 1" --fail-above 1000000 "$studies/ck_ring.elf" -- 3
    explained "words: liburcu's benchmark by explain" "$studies/urcu_qsbr.elf" -- 3 1 1
    explained "words: Concurrency Kit's test by explain" "$studies/ck_ring.elf" -- 3 1 16
    built "words: liburcu's benchmark has a copy" "$here/../words.py" "$studies/urcu_qsbr.elf" urcu-words.elf 3 1 1
    ran "words: that copy" urcu-words.elf 0 "nr_readers   3"
    built "words: Concurrency Kit's test has a copy" "$here/../words.py" "$studies/ck_ring.elf" ck-words.elf 3
    ran "words: this copy" ck-words.elf 1 "Usage: validate"
}

# explained WHAT PROGRAM [WORD ..]: `explain` of the first line of its report with these words has the count that is listed.
explained() {
    local what=$1 elf=$2 line
    shift 2
    printf 'quantum = 10\nreport = 1\n' >settings
    read -r -a line < <("$predator" run --settings settings --output put "$elf" "$@" 2>/dev/null | sed -n '/^line observed /{s///;p;q;}')
    [ ${#line[@]} -gt 5 ] && "$predator" explain --settings settings "$elf" "${line[0]}" "${line[1]}" "${line[3]}" "$@" >said 2>&1 &&
        grep -q "^line .* count ${line[5]}$" said
    record_status "$what" $?
}

# What reads files is refused where it is called, with the reason; and at run time where the build says so.
claim_refusals() {
    local no="there are no files but an empty stdin, stdout and stderr" what test why
    refused "refusals: pugixml's files" "$no" "$cxx" -c -DPUGIXML_NO_STL -DPUGIXML_NO_EXCEPTIONS -I "$fetched/pugixml/src" \
        "$fetched/pugixml/src/pugixml.cpp" -o no.o
    refused "refusals: TinyXML-2's files" "$no" "$cxx" -c -DANDROID_NDK -I "$fetched/tinyxml2" "$fetched/tinyxml2/tinyxml2.cpp" -o no.o
    glibc_checks
    while IFS='|' read -r what test why; do
        refused "refusals: $what, in glibc's ${test##*/}" "$why" "$cc" -c "${glibc_words[@]}" "$glibc/$test.c" -o no.o
    done <<'END'
cancellation|sysdeps/pthread/tst-cancel1|a hart can't be ended by another one: let the thread look at a flag
signals of others|sysdeps/pthread/tst-kill1|there are no signals: harts meet by mutexes and condition variables
alarms|sysdeps/pthread/tst-sem6|nothing comes by itself after a time: let a thread look at the clock
a stack of one's own|sysdeps/pthread/tst-stack1|each hart has the stack of the settings
priorities|sysdeps/pthread/tst-cond-except|harts have no priorities: a schedule says who runs
other processes|sysdeps/pthread/tst-fork1|there is one process, and no other
files|sysdeps/pthread/tst-mutex4|there are no files but an empty stdin, stdout and stderr
END
    mkdir -p valgrind-headers/sys && : >valgrind-headers/sys/syscall.h
    # (what a signal handler gets beside the number isn't in the C library's header)
    local words=(-O1 -w -Dsa_sigaction=sa_handler -DSIGRTMAX=31 -I valgrind-headers -I . -I "$valgrind")
    while IFS='|' read -r what test why; do
        refused "refusals: $what, in valgrind's ${test##*/}" "$why" "$cc" -c "${words[@]}" "$valgrind/$test.c" -o no.o
    done <<'END'
cancellation|none/tests/pth_cancel2|a hart can't be ended by another one: let the thread look at a flag
signals of others|none/tests/pth_self_kill|there are no signals: harts meet by mutexes and condition variables
alarms|drd/tests/pth_broadcast|nothing comes by itself after a time: let a thread look at the clock
a stack of one's own|helgrind/tests/stackteardown|each hart has the stack of the settings
priorities|drd/tests/pth_mutex_signal|harts have no priorities: a schedule says who runs
other processes|none/tests/pth_term_signal|there is one process, and no other
files|none/tests/threadederrno|there are no files but an empty stdin, stdout and stderr
END
    built "refusals: glibc's tst-cancel1 for a run" "$cc" $lines "${glibc_words[@]}" -DPREDATOR_REFUSE_AT_RUN \
        "$glibc/sysdeps/pthread/tst-cancel1.c" glibc.a -o cancel1.elf
    ran "refusals: glibc's tst-cancel1 as it runs" cancel1.elf 134 "can't be had: a hart can't be ended by another one"
    built "refusals: valgrind's pth_cancel_locked for a run" "$cc" $lines "${words[@]}" -DPREDATOR_REFUSE_AT_RUN \
        "$valgrind/drd/tests/pth_cancel_locked.c" -o pth_cancel_locked.elf
    ran "refusals: valgrind's pth_cancel_locked as it runs" pth_cancel_locked.elf 134 "can't be had: a hart can't be ended by another one"
}

# Addresses of what can't be had, which a program keeps: the linker refuses these. (SQLite keeps those of a system's calls in a table; the two
# calls that it makes itself are taken out.)
claim_addresses() {
    glibc_checks
    built "addresses: glibc's tst-compat-forwarder-mod is built" "$cc" -c "${glibc_words[@]}" "$glibc/nptl/tst-compat-forwarder-mod.c" -o forwarder.o
    refused "addresses: of system, in glibc's tst-compat-forwarder" "error: 'system' can't be had: there is one process, and no other" \
        "$cc" "${glibc_words[@]}" "$glibc/nptl/tst-compat-forwarder.c" forwarder.o glibc.a -o no.elf
    sed -e 's/return open(zFile, flags, mode);/return -1;/' -e 's/^ *utimes(zLockFile, NULL);//' "$studies/sqlite3/sqlite3.c" >sqlite3.c
    built "addresses: SQLite is built" "$cc" -c $lines -O0 -w -DSQLITE_THREADSAFE=1 -DSQLITE_OMIT_LOAD_EXTENSION=1 sqlite3.c -o sqlite3.o
    refused "addresses: of files, in SQLite's table" "error: 'unlink' can't be had: there are no files but an empty stdin, stdout and stderr" \
        "$cc" $lines -I "$studies/sqlite3" "$here/sqlite.c" sqlite3.o -o no.elf
    [ "$(grep -c "aSyscall" said)" = 11 ]
    record_status "addresses: SQLite's are eleven" $?
}

# Functions in headers, which nobody calls in one program, and which are refused in another that calls them.
claim_unused() {
    local zstd=(-I "$fetched/zstd/lib" "$studies/zstd/lib/libzstd.a" -o memory.elf)
    local words=(CC="$cc" "PTHREAD_CFLAGS=-pthread $lines")
    ck
    built "unused: an alarm in a header of Concurrency Kit's, ck_ring_spsc" make -B -s -C ck/regressions/ck_ring/validate "${words[@]}" ck_ring_spsc
    ran "unused: ck_ring_spsc" ck/regressions/ck_ring/validate/ck_ring_spsc 1 "Usage: validate"
    refused "unused: Concurrency Kit's parallel_direct calls the alarm" "call to alarm declared with 'error' attribute: nothing comes by itself" \
        make -B -s -C ck/regressions/ck_ht/benchmark "${words[@]}" parallel_direct
    built "unused: files in a header of zstd's, streaming_memory_usage" "$cc" $lines -DMAX_TESTED_LEVEL=1 \
        "$fetched/zstd/examples/streaming_memory_usage.c" "${zstd[@]}"
    ran "unused: streaming_memory_usage" memory.elf 0 "Level  1 : Compression Mem"
    refused "unused: zstd's simple_compression calls for a file" "call to fopen declared with 'error' attribute: there are no files" \
        "$cc" $lines "$fetched/zstd/examples/simple_compression.c" "${zstd[@]}"
}

# pthread.h alone, without the C library's package.
claim_bare() {
    local it
    for it in valgrind/helgrind/tests/hg02_deadlock valgrind/drd/tests/pth_barrier_reinit glibc/nptl/test-rwlock-printers; do
        built "bare: ${it%%/*}'s ${it##*/} is built" env PICOLIBC=/nowhere "$here/../build.sh" "${it##*/}.elf" "$fetched/$it.c" -- $lines -w
        ran "bare: ${it%%/*}'s ${it##*/}" "${it##*/}.elf" 0 ""
    done
}

# predator.h alone, without a library: a counter of Concurrency Kit's, and a sum of gnulib's.
claim_small() {
    ck
    built "small: a counter of Concurrency Kit's is built" "$here/../build.sh" small-ck.elf "$here/claims/small.c" -- $lines -w -DCK -I ck/include
    built "small: a sum of gnulib's is built" "$here/../build.sh" small-gnulib.elf "$here/claims/small.c" "$fetched/gnulib/lib/hash-pjw-bare.c" \
        -- $lines -w -D_GL_ATTRIBUTE_PURE= -I . -I "$fetched/gnulib/lib"
    ran "small: the counter" small-ck.elf 5 "counted 2000"
    ran "small: the sum" small-gnulib.elf 5 "counted 1114"
    ! llvm-nm small-ck.elf small-gnulib.elf | grep -q -E " (exit|printf|__libc_init_array)$"
    record_status "small: neither has a library" $?
}

# shown WHAT FILE LINE COUNT: so many results of false sharing in sharing.sarif stand at this line of the file.
shown() {
    python3 - "$2" "$3" "$4" >said 2>&1 <<'END'
import json, sys
name, line, count = sys.argv[1], int(sys.argv[2]), int(sys.argv[3])
record = json.load(open("sharing.sarif"))
places = [it["locations"][0]["physicalLocation"] for it in record["runs"][0]["results"] if it["ruleId"] == "false-sharing"]
print(record["version"], places)
found = [it for it in places if it["artifactLocation"]["uri"].endswith("/" + name) and it["region"]["startLine"] == line]
sys.exit(record["version"] != "2.1.0" or len(found) != count)
END
    record_status "$1" $?
}

# A build's test of sharing.
claim_sharing() {
    local sarif=(--sarif sharing.sarif)
    viewed "sharing: kt_for is above 100" 1 "" --fail-above 100 "$studies/kt_for.elf"
    viewed "sharing: kt_for by blocks isn't" 0 "" --fail-above 100 "$studies/kt_for-blocks.elf"
    viewed "sharing: Concurrency Kit's lock is above 100" 1 "" --fail-above 100 "$studies/ck_anderson.elf"
    viewed "sharing: Concurrency Kit's lock with slots apart isn't" 0 "" --fail-above 100 "$studies/ck_anderson-apart.elf"
    viewed "sharing: kt_for's lengths are above 100" 1 "lengths has " --fail-above 100 --object lengths "$studies/kt_for.elf"
    viewed "sharing: the harts' own words in kt_for aren't" 0 "" --fail-above 100 --object pthread_harts "$studies/kt_for.elf"
    viewed "sharing: the slots of Concurrency Kit's lock are above 100" 1 "validate.h:152 < main has " --fail-above 100 \
        --object validate.h:152 "$studies/ck_anderson.elf"
    viewed "sharing: the lock beside them isn't" 0 "" --fail-above 100 --object lock "$studies/ck_anderson.elf"
    rm -f sharing.sarif
    viewed "sharing: kt_for as SARIF" 0 "" "${sarif[@]}" "$studies/kt_for.elf"
    shown "sharing: kt_for's line as SARIF" kt_for.kthread.c 45 1
    viewed "sharing: kt_for by blocks as SARIF" 0 "" "${sarif[@]}" "$studies/kt_for-blocks.elf"
    shown "sharing: kt_for by blocks has no such line" kt_for-blocks.kthread.c 45 0
    viewed "sharing: Concurrency Kit's lock as SARIF" 0 "" "${sarif[@]}" "$studies/ck_anderson.elf"
    shown "sharing: the line of Concurrency Kit's lock as SARIF" ck_pr.h 102 1
    viewed "sharing: Concurrency Kit's lock with slots apart as SARIF" 0 "" "${sarif[@]}" "$studies/ck_anderson-apart.elf"
    shown "sharing: it has no such line" ck_pr.h 102 0
}

# useless QUANTUM PROGRAM: how many useless misses its run has.
useless() {
    printf 'quantum = %d\n' "$1" >settings
    "$predator" run --settings settings --trace trace --output put "$2" >said 2>&1
    "$predator" misses trace | sed -n 's/^total .* useless //p'
}

# Turns of one step and of ten: mostly those of one have more useless misses, but not where harts go in step.
claim_worst() {
    local it one ten
    for it in kt_for ck_anderson ck_ring rte_ring-together; do
        one=$(useless 1 "$studies/$it.elf")
        ten=$(useless 10 "$studies/$it.elf")
        case $it in
            kt_for | ck_anderson) ((one > ten)) ;;
            *) ((0 < one && one < ten)) ;;
        esac
        record_status "turns: of $it, $one useless misses with one step and $ten with ten" $?
    done
}

# A test of sharing by make, as guest/README.md has it; and by ctest, for projects that CMake builds and for kt_for, which it finds.
claim_checks() {
    local it
    for it in valgrind/drd/tests/pth_barrier glibc/nptl/test-rwlock-printers; do
        rm -rf check && mkdir check && cp "$fetched/$it.c" check/
        sed -n '/^    check: queue_test.elf$/,/build.sh/s/^    //p' "$here/../README.md" | sed "s/queue_test/${it##*/}/" >check/Makefile
        built "checks: ${it%%/*}'s ${it##*/} by make" env PATH="${predator%/*}:$PATH" make -C check PREDATOR="$here/../.." check
    done
    rm -rf ctest
    built "checks: CMake" cmake -S "$here/claims/ctest" -B ctest -DCMAKE_TOOLCHAIN_FILE="$here/../toolchain.cmake" -DFETCHED="$fetched" \
        -DOTHERS="$here" -DPREDATOR="$predator" -DBUILD_TESTING=OFF -Dtinyxml2_BUILD_TESTING=OFF -DPUGIXML_NO_STL=ON \
        -DPUGIXML_NO_EXCEPTIONS=ON -DCMAKE_CXX_FLAGS="-O1 $lines -DPREDATOR_REFUSE_AT_RUN -DANDROID_NDK"
    built "checks: CMake builds them" cmake --build ctest
    built "checks: TinyXML-2 and pugixml by ctest" ctest --test-dir ctest -E kt_for
    grep -q -F "tests passed, 0 tests failed out of 2" said
    record_status "checks: ctest ran both" $?
    refused "checks: kt_for by ctest is above 100" "kt_for_sharing (Failed)" ctest --test-dir ctest -R kt_for
}

# What a program's report says of the kit's blocks, and where its words go.
claim_listed() {
    missed "listed: the slots of Concurrency Kit's lock are a block of their size, made by main" "^object block 0x[0-9a-f]+ 448 " "^main$" \
        "$studies/ck_anderson.elf"
    missed "listed: what SQLite's own malloc asks for" "^object block " "^sqlite3MemMalloc$" "$studies/sqlite.elf"
    missed "listed: liburcu's variables of each thread" "^object block " "^thread_locals$" "$studies/urcu_qsbr.elf"
    built "listed: valgrind's tls_threads is built" "$cc" $lines -w -DHAVE_TLS -I . "$valgrind/helgrind/tests/tls_threads.c" -o tls_threads.elf
    missed "listed: valgrind's variables of each thread" "^object block " "^thread_locals$" tls_threads.elf -- 1
    ran "output: liburcu's benchmark" "$studies/urcu_qsbr.elf" 0 "nr_readers   3" -- 3 1 1
    run_to_stderr "output: to standard error, where no file is named" "$studies/urcu_qsbr.elf" "nr_readers   3" -- 3 1 1
    ran "output: kt_for" "$studies/kt_for.elf" 0 ""
    run_to_stderr "output: of kt_for" "$studies/kt_for.elf" "$(head -n 1 put)"
}

# A run that is longer than its budget.
claim_budget() {
    MORE="budget = 100000" ran "budget: liburcu's benchmark" "$studies/urcu_qsbr.elf" budget "" -- 3 1 1
    said "budget: so many steps" "steps 100000"
    MORE="budget = 100000" ran "budget: kt_for" "$studies/kt_for.elf" budget ""
    said "budget: as many" "steps 100000"
}

# What atexit was given, lines of many threads, failed assertions, and errno.
claim_ends() {
    local tests=$fetched/gnulib/tests words
    words=(-w -D_GL_UNUSED= -I . -I "$tests" -idirafter "$fetched/gnulib/lib")
    glibc "ends: exit by another thread" sysdeps/pthread/tst-exit1
    # (it is to end by a signal, which is the 30th here)
    built "ends: glibc's tst-basic3 is built" "$cc" $lines "${glibc_words[@]}" "$glibc/sysdeps/pthread/tst-basic3.c" glibc.a -o tst-basic3.elf
    MORE="harts = 24" ran "ends: glibc's tst-basic3 calls what atexit was given" tst-basic3.elf 158 "final_test has been called"
    holds "lines: each of glibc's 21 threads puts out one" " left" 21
    whole "lines: glibc's are whole" "starting 20 \+ 1 threads|[ 0-9]{2} left|final_test has been called"
    valgrind lines helgrind/tests/pth_mempcpy_false_races "Thread 3: 99"
    whole "lines: valgrind's are whole" "Thread [123]: [0-9]+"
    # (what it does there is to remove a file)
    sed 's/unlink (TEMPFILE)/puts (TEMPFILE)/' "$tests/test-atexit.c" >test-atexit.c
    built "ends: gnulib's test-atexit is built" "$cc" $lines "${words[@]}" -include stdio.h test-atexit.c -o test-atexit.elf
    ran "ends: gnulib's test-atexit calls what atexit was given" test-atexit.elf 7 "t-atexit.tmp" -- 7
    coded "exit code: gnulib's test-atexit's" 7 test-atexit.elf -- 7
    # (asserts that it has room for its threads, and here it hasn't)
    built "ends: gnulib's test-pthread-spin is built" "$cc" $lines "${words[@]}" -DUSE_POSIX_THREADS=1 -DHAVE_SEMAPHORE_H=1 -include errno.h \
        "$tests/test-pthread-spin.c" -o assert-spin.elf
    MORE="harts = 2" ran "ends: gnulib's test-pthread-spin aborts with two harts" assert-spin.elf 134 "assertion 'pthread_create"
    # (asserts that it gets memory to be executed)
    built "ends: valgrind's custom_alloc is built" "$cc" $lines -w -I "$valgrind" -I "$valgrind/include" "$valgrind/drd/tests/custom_alloc.c" \
        -o custom_alloc.elf
    ran "ends: valgrind's custom_alloc fails its assertion" custom_alloc.elf 134 'assertion "p != ((void*)(-1))" failed'
    built "errno of each hart: dlmalloc is built" "$cc" $lines -w -DUSE_DL_PREFIX -DUSE_LOCKS "$here/claims/errno.c" \
        "$allocators/dlmalloc/src/dlmalloc.c" -o errno.elf
    ran "errno of each hart: dlmalloc" errno.elf 0 "wrong 0"
    valgrind "errno of each hart" none/tests/threadederrno "errno  = 50" -include errno.h
    holds "errno of each hart: valgrind's other thread has its own" "errno  = 51" 1
    holds "errno of each hart: valgrind's first thread has its own" "errno  = 0" 1
}

# An empty stdin.
claim_files() {
    xz_all
    ran "files: xzdec finds no input" xz-configure/src/xzdec/xzdec 1 "(stdin): Unexpected end of input"
    coded "exit code: xzdec's" 1 xz-configure/src/xzdec/xzdec
    glibc_checks
    built "files: glibc's tst-ferror is built" "$cc" $lines "${glibc_words[@]}" "$glibc/stdio-common/tst-ferror.c" glibc.a -o tst-ferror.elf
    ran "files: glibc's tst-ferror finds no input" tst-ferror.elf 1 "fgets with existing input has problem"
    coded "exit code: glibc's tst-ferror's" 1 tst-ferror.elf
}

claim_configure() {
    local made=$out/xz-configure
    liburcu
    refused "no shared libraries: of minimap2's kthread.c" "there are no shared libraries" "$cc" -shared "$fetched/minimap2/kthread.c" -o no.so
    refused "no shared libraries: of zstd's xxhash.c" "there are no shared libraries" "$cc" -shared "$fetched/zstd/lib/common/xxhash.c" -o no.so
    ran "configure: liburcu's test_rwlock" urcu/tests/benchmark/test_rwlock 0 "SUMMARY" -- 4 1 1
    ran "configure: liburcu's test_mutex" urcu/tests/benchmark/test_mutex 0 "SUMMARY" -- 4 1 1
    xz_all
    ran "make: xzdec prints its version" "$made/src/xzdec/xzdec" 0 "xzdec (XZ Utils)" -- --version
    # (xz makes a pipe before it looks at its words)
    ran "make: xz is refused as it runs" "$made/src/xz/xz" 134 "can't be had: there is one process, and no other" -- --version
}

claim_cmake() {
    local it
    for it in tinyxml2 pugixml; do
        rm -rf "cmake-$it"
        built "CMake: $it" cmake -S "$fetched/$it" -B "cmake-$it" -DCMAKE_TOOLCHAIN_FILE="$here/../toolchain.cmake" -DBUILD_TESTING=OFF \
            -Dtinyxml2_BUILD_TESTING=OFF -DPUGIXML_NO_STL=ON -DPUGIXML_NO_EXCEPTIONS=ON \
            -DCMAKE_CXX_FLAGS="-O1 $lines -DPREDATOR_REFUSE_AT_RUN -DANDROID_NDK"
        built "CMake: $it is built" cmake --build "cmake-$it"
    done
    [ -f "$studies/zstd/lib/libzstd.a" ]
    record_status "CMake: zstd's library, by build.sh" $?
}
