# shellcheck shell=bash
# Part of kit.sh, which reads it: what the programs do that were built so.
#
# (kit.sh sets the names that aren't set here)
# shellcheck disable=SC2154

# ---- more threads than harts

cat >many.c <<'C'
#include <pthread.h>
#include <stdlib.h>
static void *wait(void *gate) { pthread_mutex_lock(gate); return NULL; }
int main(void)
{
    pthread_mutex_t gate = PTHREAD_MUTEX_INITIALIZER;
    pthread_t thread;
    pthread_mutex_lock(&gate);
    for (int i = 0; i < 20; i++)
        if (pthread_create(&thread, NULL, wait, &gate) != 0)
            abort();
    exit(0);
}
C
builds "many threads" "$build" many.elf many.c
builds "many threads, by the driver" "$cc" many.c -o many2.elf
builds "many threads without a C library" env PICOLIBC=/nowhere "$build" few.elf threads.c
expect_success "the text is there" grep -q "harts is in use" many.elf many2.elf few.elf
expect_success "no text in the examples" bash -c '! grep -q "harts is in use" "$@"' all "$kit/built/as_is.elf" "$kit/built/atomics.elf"

# ---- what they do, where the built program is there

# runs WHAT PROGRAM CODE LINE [WORD ..]: it ends by exit with this code, and puts out this line.
runs() {
    local what=$1 elf=$2 code=$3 line=$4
    shift 4
    : >put
    if ! "$predator" run "$elf" "$@" --output put >report 2>err; then
        fail_check "$what: predator ended so" err
    elif ! grep -q -x "outcome exit $code" report; then
        fail_check "$what: $(grep ^outcome report), and not exit $code" put
    elif [ -n "$line" ] && ! grep -q -x -F -e "$line" put; then
        fail_check "$what: no line '$line'" put
    else
        pass_check
    fi
}
if [ -x "$predator" ]; then
    message="pthread_create: each of the 8 harts is in use, so there is none for another thread: the settings may have more, as harts = 16"
    runs "many threads" many.elf 134 "$message"
    runs "many threads, by the driver" many2.elf 134 "$message"
    echo "harts = 21" >settings
    : >put
    expect_success "enough harts" "$predator" run many.elf --settings settings --output put
    expect_success "no message then" test ! -s put
    echo "harts = 200" >settings
    sed 's/20/250/' many.c >more.c
    "$cc" more.c -o more.elf
    echo "memory = 67108864" >>settings
    message=${message/8 harts/200 harts}
    runs "200 harts" more.elf 134 "${message/= 16/= 256}" --settings settings
    if [ -n "$library" ]; then
        sed -i 's/200/256/' settings
        few="pthread_create: each of the 256 harts is in use, so there is none for another thread"
        runs "300 threads of C++" crowd.elf 134 "$few" --settings settings
        expect_in_file "300 threads of C++: the error" put "thread constructor failed: "
        runs "C and C++ together" mixed.elf 0 ""
        for it in sized*.elf casts.elf; do runs "$it" "$it" 0 ""; done
    fi
    runs "threads.h without a C library" threads.elf 0 ""
    runs "the driver's program" one.elf 0 "3 1.000"
    runs "words of main" words.elf 0 "[in the.txt]"
    runs "words of main, by build.sh" words2.elf 0 "[in the.txt]"
    mkdir copies
    launched=(env TMPDIR="$work/copies" PREDATOR_PROGRAM="$predator" "$here/../bin/predator" run)
    runs "other words of main" other.elf 0 "[b c]"
    expect_success "an empty word too" grep -q -x -F "[]" put
    expect_success "words of main at run time" "${launched[@]}" words.elf --output put -- 1 "two words" --output
    expect_success "all of them, and no other" cmp put <(printf '6 2.000\n[1]\n[two words]\n[--output]\n')
    expect_success "none at run time" "${launched[@]}" words.elf --output put --
    expect_success "those that it was built with then" grep -q -x -F "[in the.txt]" put
    expect_success "its name behind --" "${launched[@]}" --output put -- words.elf
    refuses "words of a small program" "there is no room for words of its own" "${launched[@]}" small.elf -- 1
    refuses "words of no program" "nowhere.elf: No such file" "${launched[@]}" nowhere.elf -- 1
    refuses "the program as the trace" "stays unchanged" "${launched[@]}" words.elf --trace ./words.elf -- 1
    expect_success "no copy is left" rmdir copies
    # What a report says of blocks and of what each hart has for itself.
    cat >blocks.c <<'C'
#include <pthread.h>
#include <stdint.h>
#include <stdio.h>
#include <stdlib.h>
#include <sys/mman.h>
static _Thread_local volatile int *shown;
static volatile int *words[3], **of_other;
static pthread_barrier_t both;
static void *run(void *at)
{
    int own[2] = {0, 0};
    if (at != NULL)
        shown = own, of_other = &shown;
    pthread_barrier_wait(&both);
    for (int i = 0; i < 300; i++) {
        for (int j = 0; j < 3; j++)
            words[j][at != NULL] += i;
        *of_other = words[0];
    }
    pthread_barrier_wait(&both);
    return NULL;
}
int main(void)
{
    pthread_t thread;
    words[0] = realloc(malloc(8), 24);
    words[1] = aligned_alloc(256, 40);
    words[2] = mmap(NULL, 100, PROT_READ | PROT_WRITE, MAP_PRIVATE | MAP_ANONYMOUS, -1, 0);
    printf("0x%08x 24\n0x%08x 40\n0x%08x 4096\n", (unsigned)(uintptr_t)words[0], (unsigned)(uintptr_t)words[1], (unsigned)(uintptr_t)words[2]);
    pthread_barrier_init(&both, NULL, 2);
    pthread_create(&thread, NULL, run, words);
    run(NULL);
    pthread_join(thread, NULL);
    free((void *)words[1]);
    return munmap((void *)words[2], 100);
}
C
    "$cc" blocks.c -o blocks.elf
    echo "quantum = 3" >settings
    runs "blocks of realloc, aligned_alloc and mmap" blocks.elf 0 "" --settings settings
    expect_success "three blocks" test "$(wc -l <put)" = 3
    while read -r at size; do
        expect_success "the block of $size bytes as its user sees it" grep -q "^object block $at $size born" report
    done <put
    awk '/^object block/ { it = $3 " " $4; getline; if ($3 != "thread_locals") print it; else own++ } END { exit own == 0 }' report >seen
    expect_success "a hart's own variables have a name" test $? = 0
    expect_success "no other blocks" cmp <(LC_ALL=C sort -u seen) <(LC_ALL=C sort put)
    runs "position independent" pic.elf 0 "3 1.000"
    runs "without optimisation" o0.elf 0 "3 1.000"
    runs "from joined objects" joined.elf 0 "3 1.000"
    runs "C++" plus.elf 0 "5 7 1 0"
    runs "C++ destructors" plus.elf 0 "gone"
    printf '#include <unistd.h>\nint main(void) { return (int)alarm(1); }\n' >late.c
    "$cc" -DPREDATOR_REFUSE_AT_RUN late.c -o late.elf
    runs "what is refused at run time" late.elf 134 ""
    at=$(sed -n "s/^the call before \(0x[0-9a-f]*\) can't be had: nothing comes by itself after a time: let a thread look at the clock\$/\1/p" put)
    expect_success "its reason, and the place of its call" grep -q -x main <(llvm-symbolizer --obj=late.elf "$((${at:-0} - 1))")
    printf '#include <time.h>\nint main(void) { struct timespec t; clock_getres(CLOCK_MONOTONIC, &t); return (int)t.tv_nsec; }\n' >step.c
    "$cc" step.c -o step.elf
    runs "the time of a step" step.elf 1 ""
    STEP_TIME=70 "$cc" step.c -o step.elf
    runs "a longer step" step.elf 70 ""
    STEP_TIME=71 "$build" step.elf step.c
    runs "a longer step, by build.sh" step.elf 71 ""
    printf '#include <sys/poll.h>\n#include <poll.h>\nint main(void) { return poll(0, 0, -1); }\n' >polls.c
    "$cc" polls.c -o polls.elf
    runs "poll as a wait" polls.elf 134 "poll: no file becomes ready: wait for another thread, or for a time"
else
    skip_checks 38 "the built program isn't at $predator; what programs do wants it"
fi
