# shellcheck shell=bash
# Part of kit.sh, which reads it: programs without a C library, and the words that `ARGUMENTS` gives main.
#
# (kit.sh sets the names that aren't set here)
# shellcheck disable=SC2154

cat >small.c <<'C'
#include "predator.h"
struct pair { int one, other; } pair;
int main(void) { pair.one = 3; print_number((unsigned)pair.one); return 0; }
C
builds "a small program" "$build" small.elf small.c
expect_success "types of a default build" grep -q DW_TAG_structure_type <(llvm-dwarfdump small.elf)
builds "a small program without debug information" "$build" bare.elf small.c -- -g0
expect_success "what is loaded with debug information and without" same small.elf bare.elf
refuses "no source" "build.sh OUT.elf" "$build" small.elf
refuses "a source that isn't there" "nowhere.c" "$build" small.elf nowhere.c
echo 'int main(void) { return one; }' >wrong.c
refuses "a source that is wrong" "wrong.c:1:25: error: use of undeclared identifier 'one'" "$build" wrong.elf wrong.c
expect_success "no program then" test ! -e wrong.elf
cat >threads.c <<'C'
#include <threads.h>
static int run(void *unused) { return unused == NULL; }
int main(void) { thrd_t t; int r; return thrd_create(&t, run, NULL) != thrd_success || thrd_join(t, &r) != thrd_success || r != 1; }
C
builds "threads.h without a C library" env PICOLIBC=/nowhere "$build" threads.elf threads.c
echo 'int main(void) { return pthread_cancel(pthread_self()); }' >cancel.c
refuses "cancel without a C library" "a hart can't be ended by another one" \
    env PICOLIBC=/nowhere "$build" x.elf cancel.c -- -include pthread.h
printf '#include <stdio.h>\nint main(void) { return puts("a"); }\n' >puts.c
refuses "stdio.h without a C library" "there is none" env PICOLIBC=/nowhere "$build" x.elf puts.c
refuses "the driver without a C library" "there is no picolibc" env PICOLIBC=/nowhere "$cc" puts.c

# ---- the words of main

words_are() {
    local text=$1 wanted=$2 got
    got=$(bash -c 'self=kit.sh here=$1; . "$here/common.bash"; part_words "$2" && echo "${words[*]}"' all "$here" "$text")
    if [ "$got" = "$wanted" ]; then pass_check; else fail_check "ARGUMENTS=$text gives $got and not $wanted"; fi
}
words_are '' ''
words_are '   ' ''
words_are '4 a.txt "x y"' '"4", "a.txt", "x y",'
words_are "'x  \"y\"'  z" '"x  \"y\"", "z",'
words_are '"" a '"''" '"", "a", "",'
words_are 'a\ b \"c "d\"e" "f\g"' '"a b", "\"c", "d\"e", "f\\g",'
words_are '* $HOME `id` ~ {1,2}' '"*", "$HOME", "`id`", "~", "{1,2}",'
words_are 'a"b c"d' '"ab cd",'
words_are "a'"$'\n\t'"'b" '"a\012\011b",'
words_are $'1\n2\t3' '"1", "2", "3",'
words_are 'grün ä' '"grün", "ä",'
words_are "a\\" '"a\\",'
refuses "an open quote" "has a \" that isn't closed" env ARGUMENTS='4 "a' "$cc" puts.c
refuses "another open quote" "has a ' that isn't closed" env ARGUMENTS="it's" "$cc" puts.c
