# shellcheck shell=bash
# Part of kit.sh, which reads it: calls that the kit refuses, where a program makes one and there alone; and all headers in several standards.
#
# (kit.sh sets the names that aren't set here)
# shellcheck disable=SC2154

headers=$(cd "$here/include" && find . -name '*.h' | sed 's|^\./||' | grep -v -x predator_missing.h | LC_ALL=C sort)
all=$(for it in $headers; do echo "#include <$it>"; done)
# A call that can't be had, and the reason.
cat >cannot.txt <<'C'
pthread_cancel(pthread_self())|a hart can't be ended by another one
pthread_kill(pthread_self(), 2)|there are no signals
pthread_timedjoin_np(pthread_self(), 0, 0)|a thread has no clock of its own
pthread_attr_setstack(0, 0, 0)|each hart has the stack
pthread_mutex_consistent(0)|a mutex can't detect
pthread_setschedprio(0, 1)|harts have no priorities
pthread_atfork(0, 0, 0)|there is one process
sem_open("a", 0)|there is one process
alarm(1)|nothing comes by itself after a time
setitimer(0, 0, 0)|nothing comes by itself after a time
select(0, 0, 0, 0, 0)|nothing comes by itself after a time
fork()|there is one process
execv("a", 0)|there is one process
system("a")|there is one process
popen("a", "r")|there is one process
waitpid(1, 0, 0)|there is one process
sigwait(0, 0)|there are no signals
open("a", O_RDONLY)|there are no files
fopen("a", "r")|there are no files
lstat("a", 0)|there are no files
unlink("a")|there are no files
opendir("a")|there are no files
shm_open("a", 0, 0)|there are no files
mremap(0, 0, 0, 0)|a mapping can't be made larger
C
# Each in a function of its own, begun so, and main.
calls() {
    echo "$all"
    awk -F'|' -v begun="$1" '{ printf "%s f%d(void) { %s; }\n", begun, NR, $1 }' cannot.txt
    echo 'int main(void) { return 0; }'
}
calls "void" >cannot.c
calls "static inline void" >can.c
for level in -O0 -O1 -O2 -Os; do
    refuses "calls that can't be had, $level" "declared with 'error' attribute" "$cc" -w -ferror-limit=0 $level -c cannot.c -o cannot.o
    cp err err.$level
    while IFS='|' read -r call reason; do
        expect_success "$call, $level, is refused otherwise" grep -q -F "call to ${call%%(*} declared with 'error' attribute: $reason" err.$level
    done <cannot.txt
    builds "the same where nobody calls it, $level" "$cc" -w $level can.c -o can.elf
    builds "the same, refused at run time, $level" "$cc" -w $level -DPREDATOR_REFUSE_AT_RUN cannot.c -o can.elf
done
builds "the same where nobody calls it, by build.sh" "$build" can.elf can.c -- -w
builds "the same where nobody calls it, in C++" "$cxx" -w -x c++ -fpermissive can.c -o can.elf

# Constants that belong to such calls: none by which a program tests for the feature is a macro.
cat >constants.c <<'C'
#include <pthread.h>
#if defined PTHREAD_MUTEX_ROBUST || defined PTHREAD_PRIO_INHERIT || defined PTHREAD_PRIO_PROTECT
#error "they aren't there"
#endif
const int robust[] = {PTHREAD_MUTEX_STALLED, PTHREAD_MUTEX_ROBUST};
const int kinds[] = {PTHREAD_PRIO_NONE, PTHREAD_PRIO_INHERIT, PTHREAD_PRIO_PROTECT, PTHREAD_MUTEX_RECURSIVE_NP, PTHREAD_MUTEX_ERRORCHECK_NP};
void *const canceled = PTHREAD_CANCELED;
C
builds "constants of what can't be had" "$cc" -Wall -Werror -c constants.c -o constants.o

# Each marked name may be named where nobody calls it; and where a program wants it, the linker's line has a reason.
names=$(grep -rhoE '[ *][a-z_0-9]+\(.*\) PREDATOR_NO_[A-Z]+;' "$here/include" | sed -E 's/^[ *]([a-z_0-9]+)\(.*/\1/' | LC_ALL=C sort -u)
{
    echo "$all"
    echo 'void *const all[] = {'
    for it in $names; do echo "    (void *)$it,"; done
    echo '};'
} >named.c
builds "all names, as addresses" "$cc" -Wall -Werror -c named.c -o named.o
builds "all names, at run time" "$cc" -Wall -Werror -DPREDATOR_REFUSE_AT_RUN -c named.c -o at_run.o
printf 'extern void *const all[];\nint main(int count, char **words) { (void)words; return all[count] == 0; }\n' >wants.c
builds "all names at run time, linked" "$cc" at_run.o wants.c -o wants.elf
# (names that the C library has, over others that it hasn't)
wanted=$({ echo "$names" && grep -v '^#' "$here/clib/missing.txt" | tr -s ' ' '\n' | grep -v '^PREDATOR_NO_'; } |
    grep -v -x -E 'fopen|freopen|remove|tmpfile|mkstemp')
{
    for it in $wanted; do echo "void $it(void);"; done
    echo 'void *volatile all[] = {'
    for it in $wanted; do echo "    $it,"; done
    printf '};\nint main(int count, char **words) { (void)words; return all[count] == 0; }\n'
} >linker.c
refuses "all names, by the linker" "can't be had" "$cc" -w -fno-builtin linker.c -o linker.elf -Wl,--error-limit=0
cp err linker.err
for it in $wanted; do
    expect_success "$it has no reason where the linker lacks it" grep -q "error: '$it' can't be had: " linker.err
done
cat >address.c <<'C'
#include <stdio.h>
FILE *(*volatile opens)(const char *, const char *) = fopen;
int main(void) { return opens("a", "r") != 0; }
C
refuses "fopen, by its address" "'open' can't be had: there are no files" "$cc" address.c -o x.elf
refuses "fopen, by its address, and build.sh" "'open' can't be had: there are no files" "$build" x.elf address.c
refuses "cancel and build.sh" "a hart can't be ended by another one" "$build" x.elf cancel.c -- -include pthread.h
echo 'int no_such_name(void); int main(void) { return no_such_name(); }' >no_such.c
refuses "a name that nobody knows" "undefined symbol: no_such_name" "$cc" no_such.c -o x.elf

# ---- headers, each first and the others behind it, in several standards

headers_by() {
    local what=$1 compiler=$2 first it
    shift 2
    for first in $headers; do
        { for it in $first $headers; do echo "#include <$it>"; done; } >first.c
        if ! "$compiler" -fsyntax-only -Wall -Werror "$@" first.c 2>err; then
            fail_check "$first, and then all headers, as $what" err
            return
        fi
    done
    pass_check
}
headers_by "C" "$cc"
headers_by "strict C99" "$cc" -std=c99 -pedantic -U_DEFAULT_SOURCE -D_POSIX_C_SOURCE=200809L -D_XOPEN_SOURCE=700
headers_by "GNU C" "$cc" -D_GNU_SOURCE
headers_by "C, refused at run time" "$cc" -DPREDATOR_REFUSE_AT_RUN
headers_by "C++" "$cxx" -x c++ -std=c++17
for it in $headers; do
    echo "#include <$it>" >alone.c
    builds "$it alone" "$cc" -Wall -Wextra -Werror -c alone.c
done
