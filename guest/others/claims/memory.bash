# shellcheck shell=bash
# What guest/README.md says of memory, and of data, on code that nobody here wrote (claims.sh sources this).
#
# (claims.sh sets the names that aren't set here, and flags that are several words are parted where they stand bare)
# shellcheck disable=SC2154,SC2086,SC2206

# The allocators ask the kit itself for memory, by sbrk or by mmap; `blocks` are large enough for both.
bash_malloc() {
    local bash=$fetched/bash what=$1 words=(-w -include stdint.h -DHAVE_UNISTD_H -DHAVE_STRING_H -DHAVE_STDLIB_H -DHAVE_MMAP -DHAVE_DECL_SBRK=1)
    # (as its configure would have them)
    words+=(-DSIZEOF_LONG=4 -Du_bits16_t=uint16_t -Du_bits32_t=uint32_t -Dbits64_t=int64_t)
    shift
    built "$what: bash's malloc is built" "$cc" $lines "${words[@]}" -I "$bash/lib/malloc" -I "$bash/include" -I "$bash" \
        "$here/claims/blocks.c" "$bash/lib/malloc/malloc.c" "$@" -o bash_malloc.elf
    ran "$what: bash's malloc runs" bash_malloc.elf 0 whole
}

claim_sbrk() {
    built "sbrk: dlmalloc is built" "$cc" $lines -w -DMALLOC=dlmalloc -DREALLOC=dlrealloc -DFREE=dlfree -DUSE_DL_PREFIX -DUSE_LOCKS \
        "$here/claims/blocks.c" "$allocators/dlmalloc/src/dlmalloc.c" -o dlmalloc.elf
    ran "sbrk: dlmalloc runs" dlmalloc.elf 0 whole
    # (in place of the kit's, as bash's is)
    built "sbrk: dlmalloc as malloc is built" "$cc" $lines -w -DUSE_LOCKS "$here/claims/blocks.c" "$allocators/dlmalloc/src/dlmalloc.c" \
        -o dlmalloc-own.elf
    ran "sbrk: dlmalloc as malloc runs" dlmalloc-own.elf 0 whole
    ! llvm-nm dlmalloc-own.elf | grep -q predator_keeps_sizes
    record_status "sbrk: dlmalloc as malloc has the kit's place" $?
    bash_malloc sbrk
}

# How much sbrk has to give: what it usually has, and what a program says.
claim_break() {
    local it more=("$here/claims/break.c") dlmalloc
    dlmalloc=(-DMALLOC=dlmalloc -DREALLOC=dlrealloc -DFREE=dlfree -DUSE_DL_PREFIX -DUSE_LOCKS "$allocators/dlmalloc/src/dlmalloc.c")
    for it in 4194304 1048576; do
        [ $it = 4194304 ] || more+=(-DBREAK=$it)
        built "sbrk of $it bytes: dlmalloc is built" "$cc" $lines -w "$here/claims/blocks.c" "${dlmalloc[@]}" "${more[@]}" -o dlmalloc-break.elf
        ran "sbrk of $it bytes: dlmalloc" dlmalloc-break.elf 0 "sbrk: $it bytes in all"
        bash_malloc "sbrk of $it bytes" "${more[@]}"
        ran "sbrk of $it bytes: bash's malloc" bash_malloc.elf 0 "sbrk: $it bytes in all"
    done
}

claim_mmap() {
    built "mmap: mimalloc is built" "$cc" $lines -w -DNDEBUG -DMALLOC=mi_malloc -DREALLOC=mi_realloc -DFREE=mi_free \
        -I "$allocators/mimalloc/include" "$here/claims/blocks.c" "$allocators/mimalloc/src/static.c" -o mimalloc.elf
    ran "mmap: mimalloc runs" mimalloc.elf 0 whole
    bash_malloc mmap
    liburcu
    ran "mmap: liburcu's bp runs" urcu/tests/benchmark/test_urcu_bp 0 "SUMMARY" -- 4 1 1
    missed "mmap: liburcu's mapping is a block" "^object block 0x[0-9a-f]+ 4096 " "^urcu_bp_register$" urcu/tests/benchmark/test_urcu_bp -- 4 1 1
    built "mmap: mimalloc in seven threads is built" "$cc" $lines -w -DNDEBUG -DMALLOC=mi_malloc -DFREE=mi_free -I "$here/.." \
        -I "$allocators/mimalloc/include" "$here/../allocators/workload.c" "$allocators/mimalloc/src/static.c" -o mimalloc-threads.elf
    missed "mmap: mimalloc's mapping is a block" "^object block 0x[0-9a-f]+ 4194304 " "^mi_os_mem_alloc$" mimalloc-threads.elf
}

# munmap of a part of a mapping, which keeps it. (valgrind's program unmaps each page by itself, and expects the place again.)
claim_munmap() {
    local words=($lines -w "$here/claims/blocks.c" "$here/claims/parts.c" -Wl,--wrap=mmap,--wrap=munmap)
    built "munmap: dlmalloc, which trims, is built" "$cc" "${words[@]}" -DMALLOC=dlmalloc -DREALLOC=dlrealloc -DFREE=dlfree -DUSE_DL_PREFIX \
        -DUSE_LOCKS -DHAVE_MORECORE=0 -DDEFAULT_TRIM_THRESHOLD=65536 "$allocators/dlmalloc/src/dlmalloc.c" -o dlmalloc-parts.elf
    ran "munmap: dlmalloc's parts are kept" dlmalloc-parts.elf 0 "munmap: of parts, 0 lost"
    built "munmap: mimalloc is built" "$cc" "${words[@]}" -DNDEBUG -DMALLOC=mi_malloc -DREALLOC=mi_realloc -DFREE=mi_free \
        -I "$allocators/mimalloc/include" "$allocators/mimalloc/src/static.c" -o mimalloc-parts.elf
    ran "munmap: mimalloc's parts are kept" mimalloc-parts.elf 0 "munmap: of parts, 0 lost"
    built "munmap: valgrind's map_unmap is built" "$cc" $lines -O1 -w -DPREDATOR_REFUSE_AT_RUN -I . -I "$valgrind" \
        "$valgrind/none/tests/map_unmap.c" -o map_unmap.elf
    ran "munmap: valgrind's map_unmap finds its mapping kept" map_unmap.elf 134 "FAIL i=1: m2="
}

# The number of blocks that a run makes, and how many of them the report knows as the program has them, where 16 bytes stand before each. (A word
# for the linker makes the two programs ones that use realloc.)
claim_blocks() {
    local wrap=-Wl,--wrap=malloc
    built "blocks: valgrind's heap is built" "$cc" $lines -O1 -w "$valgrind/perf/heap.c" "$here/claims/many.c" $wrap -o heap.elf
    MORE="budget = 1000000000" ran "blocks: valgrind's heap gets 2^20" heap.elf 0 "malloc: 1048576 blocks, then none"
    holds "blocks: valgrind's heap gets no other one" "malloc: refused 1951424 times, 0 otherwise" 1
    liburcu
    built "blocks: what counts them is built" "$cc" -c $lines "$here/claims/many.c" -o many.o
    urcu "blocks: liburcu's test_urcu_wfq is built" 10000 benchmark test_urcu_wfq $wrap "$out/many.o"
    MORE="budget = 1000000000" ran "blocks: liburcu's test_urcu_wfq gets 2^20" urcu/tests/benchmark/test_urcu_wfq 0 \
        "malloc: 1048576 blocks, then none" -- 0 1 2000
    holds "blocks: liburcu's test_urcu_wfq gets no other one" " times, 0 otherwise" 1
    wrap+=,-u,realloc
    built "fronts: valgrind's heap is built" "$cc" $lines -O1 -w "$valgrind/perf/heap.c" "$here/claims/fronts.c" $wrap -o fronts-heap.elf
    fronts "fronts: valgrind's heap" fronts-heap.elf
    built "fronts: what looks at them is built" "$cc" -c $lines "$here/claims/fronts.c" -o fronts.o
    urcu "fronts: liburcu's test_urcu_wfq is built" 10000 benchmark test_urcu_wfq $wrap "$out/fronts.o"
    fronts "fronts: liburcu's test_urcu_wfq" urcu/tests/benchmark/test_urcu_wfq -- 0 1 2000
}

# fronts WHAT PROGRAM [WORD ..]: of two blocks that it puts out the first stands in the report as the program has it, and the second with the 16
# bytes before it.
fronts() {
    local what=$1 elf=$2 it
    shift 2
    MORE="budget = 1000000000" ran "$what" "$elf" 0 "malloc: block" "$@"
    mapfile -t it < <(sed -n 's/^malloc: block at \(0x[0-9a-f]*\), \([0-9]*\) bytes$/\1 \2/p' put)
    [ ${#it[@]} = 2 ] && grep -q "^object block $(printf '0x%08x %d' ${it[0]}) born" said &&
        grep -q "^object block $(printf '0x%08x %d' $((${it[1]% *} - 16)) $((${it[1]#* } + 16))) born" said &&
        ! grep -q "^object block $(printf '0x%08x %d' ${it[1]}) born" said
    record_status "$what: 2^19 of its blocks are known as they are" $?
}

# float, double and division of 64 bits, in programs that check what comes out.
claim_floats() {
    local it tests=$fetched/gnulib/tests
    built "floats: valgrind's fbench is built" "$cc" $lines -O1 -w "$valgrind/perf/fbench.c" -lm -o fbench.elf
    ran "floats: valgrind's fbench" fbench.elf 0 "No errors in results." -- 20
    for it in modf float strtoull; do
        built "floats: gnulib's test-$it is built" "$cc" $lines -O1 -w -D_GL_UNUSED= -I . -I "$tests" -idirafter "$fetched/gnulib/lib" \
            "$tests/test-$it.c" "$tests/randomd.c" -lm -o "test-$it.elf"
        ran "floats: gnulib's test-$it" "test-$it.elf" 0 ""
    done
    llvm-nm test-strtoull.elf | grep -q __udivdi3
    record_status "floats: gnulib's test-strtoull divides by a function" $?
}

# A variable that is put apart, by a word before it: NAME is 256 bytes and more from any other.
alone() {
    local what=$1 elf=$2 name=$3
    shift 3
    built "$what is built" "$cc" $lines -w "$@" -o "$elf"
    llvm-nm -n --radix=d "$elf" | awk -v name="$name" '
        $2 ~ /[bBdD]/ { if ($3 == name || was == name) near += $1 - at < 256; seen += $3 == name; at = $1; was = $3 }
        END { exit !seen || near }'
    record_status "$what lies apart" $?
}

claim_alone() {
    local tests=$fetched/gnulib/tests
    sed 's/^static pthread_spinlock_t s_spinlock;/ALONE &/' "$valgrind/drd/tests/pth_spinlock.c" >alone-valgrind.c
    alone "alone: valgrind's s_spinlock" alone-valgrind.elf s_spinlock -include "$here/../predator.h" -I . -I "$valgrind" alone-valgrind.c
    MORE="harts = 24" ran "alone: valgrind's pth_spinlock" alone-valgrind.elf 0 "Test successful."
    sed -e 's/^static pthread_spinlock_t my_lock;/ALONE &/' -e 's/^#define REPEAT_COUNT .*/#define REPEAT_COUNT 100/' \
        "$tests/test-pthread-spin.c" >alone-gnulib.c
    alone "alone: gnulib's my_lock" alone-gnulib.elf my_lock -include "$here/../predator.h" -include errno.h -DUSE_POSIX_THREADS=1 \
        -DHAVE_SEMAPHORE_H=1 -I . -I "$tests" -idirafter "$fetched/gnulib/lib" alone-gnulib.c
    MORE="harts = 24" ran "alone: gnulib's test-pthread-spin" alone-gnulib.elf 0 ""
}

# Atomic variables of 8 bytes.
claim_wide() {
    local it
    ck
    for it in cas faa; do
        built "8 bytes: Concurrency Kit's ck_pr_$it is built" make -B -s -C ck/regressions/ck_pr/validate CC="$cc" \
            PTHREAD_CFLAGS="-pthread $lines -DR_REPEAT=2000" "ck_pr_$it"
        ran "8 bytes: Concurrency Kit's ck_pr_$it" "ck/regressions/ck_pr/validate/ck_pr_$it" 0 "ck_pr_${it}_64"
        llvm-nm "ck/regressions/ck_pr/validate/ck_pr_$it" | grep -q "__atomic_.*_8$"
        record_status "8 bytes: Concurrency Kit's ck_pr_$it has the kit's" $?
    done
    ran "8 bytes: DPDK's ring for many on both sides" "$studies/rte_ring-hts.elf" 0 1999000
    llvm-nm "$studies/rte_ring-hts.elf" | grep -q "__atomic_.*_8$"
    record_status "8 bytes: DPDK's ring has the kit's" $?
}

# Accesses at no multiple of their size, which are traps; as bytes, by memcpy or packed, they are none.
claim_places() {
    local it words=(-I "$fetched/zstd/lib/common" -DXXH_FORCE_ALIGN_CHECK=0 "$here/claims/xxhash.c")
    built "places: valgrind's tc19_shadowmem is built" "$cc" $lines -O1 -w -I "$valgrind" -I "$valgrind/include" \
        "$valgrind/helgrind/tests/tc19_shadowmem.c" -o shadowmem.elf
    viewed "places: valgrind's tc19_shadowmem is stopped, with its line" 3 "tc19_shadowmem.c:" --fail-above 1000000 shadowmem.elf
    for it in 0 1; do
        built "places: zstd's xxHash of kind $it is built" "$cc" $lines "-DXXH_FORCE_MEMORY_ACCESS=$it" "${words[@]}" -o xxhash.elf
        ran "places: zstd's xxHash of kind $it" xxhash.elf 0 "3 "
        as_native "places: zstd's xxHash of kind $it does what it does here" "${words[@]}"
    done
    built "places: zstd's xxHash by casts is built" "$cc" $lines -DXXH_FORCE_MEMORY_ACCESS=2 "${words[@]}" -o xxhash.elf
    viewed "places: zstd's xxHash by casts is stopped, with its line" 3 "xxhash.h:" --fail-above 1000000 xxhash.elf
}

# A free of what is no block, by programs that mean it.
claim_free() {
    local it no="free: no block begins there"
    glibc_checks
    for it in tcfree1 tcfree2; do
        built "free: glibc's tst-$it is built" "$cc" $lines "${glibc_words[@]}" "$glibc/malloc/tst-$it.c" glibc.a -o "tst-$it.elf"
        ran "free: glibc's tst-$it ends" "tst-$it.elf" 134 "$no"
    done
    for it in doublefree malloc2; do
        built "free: valgrind's $it is built" "$cc" $lines -O0 -w "$valgrind/memcheck/tests/$it.c" -o "$it.elf"
        ran "free: valgrind's $it ends" "$it.elf" 134 "$no"
    done
    # (addresses that are no multiple of 4, and lie outside of memory or in it)
    built "free: valgrind's badfree is built" "$cc" $lines -O0 -w "$valgrind/memcheck/tests/badfree.c" -o badfree.elf
    viewed "free: valgrind's badfree is stopped by a trap" 3 "outcome trap hart 0" --fail-above 1000000 badfree.elf
    liburcu
    built "free: what leads astray is built" "$cc" -c $lines "$here/claims/astray.c" -o astray.o
    urcu "free: liburcu's test_urcu_wfq is built" 10000 benchmark test_urcu_wfq -Wl,--wrap=free "$out/astray.o"
    viewed "free: liburcu's test_urcu_wfq is stopped by a trap" 3 "outcome trap hart 0" --fail-above 1000000 \
        urcu/tests/benchmark/test_urcu_wfq -- 0 1 1
}
