# shellcheck shell=bash
# Part of kit.sh, which reads it: guest/cc as a compiler, and a program's words in a copy of it.
#
# (kit.sh sets the names that aren't set here)
# shellcheck disable=SC2154

cat >main.c <<'C'
#include <math.h>
#include <pthread.h>
#include <stdio.h>
int add(int, int);
static pthread_mutex_t lock = PTHREAD_MUTEX_INITIALIZER;
int main(int count, char **words)
{
    pthread_mutex_lock(&lock);
    printf("%d %.3f\n", add(count, 2), sqrt(count));
    pthread_mutex_unlock(&lock);
    for (int i = 1; i < count; i++)
        printf("[%s]\n", words[i]);
    return 0;
}
C
echo 'int add(int a, int b) { return a + b; }' >add.c
mkdir "a folder"
cp add.c "a folder/an add.c"
builds "a program in one call" "$cc" main.c add.c -o one.elf
builds "the same again" "$cc" main.c add.c -o again.elf
expect_success "the same bytes" cmp one.elf again.elf
builds "an object" "$cc" -c main.c
expect_success "an object by its name" test -s main.o
builds "an object of a name with a space" "$cc" -c "a folder/an add.c" -o "a folder/an add.o"
builds "objects linked" "$cc" main.o "a folder/an add.o" -o linked.elf
builds "an archive by ar" ar rcs liboften.a "a folder/an add.o"
builds "linked with ar's archive" "$cc" main.o -L. -loften -o archive.elf
rm liboften.a
builds "an archive by llvm-ar" llvm-ar rcs liboften.a "a folder/an add.o"
there=(-lpthread -lm -lrt -lc -latomic -lgcc)
builds "linked with llvm-ar's archive, and what is there in any case" "$cc" -pthread main.o -L. -loften "${there[@]}" -o archive.elf
expect_success "the same program, however it was linked" same linked.elf archive.elf
builds "no output's name" "$cc" main.c add.c
expect_success "a.out" test -s a.out
builds "an output's name behind -o" "$cc" main.c add.c -oanother.elf
expect_success "another.elf" test -s another.elf
printf -- '-O1\nmain.c "a folder/an add.c"\n-o response.elf\n' >words
builds "a file of words" "$cc" @words
expect_success "response.elf" test -s response.elf
printf -- '-c main.c\n-o response.o\n' >words
builds "a file of words that don't link" "$cc" @words
expect_success "a source from standard input" bash -c 'echo "int main(void) { return 0; }" | "$0" -x c - -o from.elf && test -s from.elf' "$cc"
builds "preprocessed" "$cc" -E main.c -o main.i
builds "assembled" "$cc" -S main.c -o main.s
builds "from assembly" "$cc" main.s add.c -o s.elf
builds "position independent" "$cc" -fPIC -fPIE -pie main.c add.c -o pic.elf
builds "another optimisation and no debug information" "$cc" -O0 -g0 main.c add.c -o o0.elf
expect_success "no debug information of the source then" bash -c '! llvm-dwarfdump "$0" | grep -q main.c' o0.elf
builds "joined objects" "$cc" -r main.o "a folder/an add.o" -o joined.o
builds "linked from joined objects" "$cc" joined.o -o joined.elf
printf '.globl _start\n_start:\n li a7, 94\n ecall\n' >start.s
builds "without the kit" "$cc" -nostdlib start.s -o nostdlib.elf
builds "for Linux too" env PAGE=4096 "$cc" main.c add.c -o page.elf
for it in --version -v -dumpmachine -print-search-dirs; do
    expect_success "$it" "$cc" $it
done
expect_success "the machine" grep -q riscv32 <("$cc" -dumpmachine)
refuses "no word" "no input files" "$cc"
refuses "no such file" "no such file or directory: 'nowhere.c'" "$cc" nowhere.c
refuses "an error in a source" "main.c" "$cc" -Dprintf=1= main.c
refuses "an undefined name" "undefined symbol: add" "$cc" main.c
refuses "a shared library" "there are no shared libraries" "$cc" -shared main.c -o x.so
refuses "another machine's object" "incompatible" bash -c 'clang -c add.c -o x86.o && "$0" main.c x86.o' "$cc"
refuses "no place to write" "nowhere/x.elf" "$cc" main.c add.c -o nowhere/x.elf
refuses "no place to keep the kit" "no folder for the kit" env XDG_CACHE_HOME=/dev/null HOME=/dev/null TMPDIR=/dev/null "$cc" main.c add.c
# (and another for C++, where LLVM's headers of its library are installed)
kits=1
! compgen -G "/usr/lib/llvm-*/include/c++/v1/__config" >/dev/null || kits=2
expect_equal "kits that are kept" $kits "$(find "$XDG_CACHE_HOME/predator/guest" -mindepth 1 -maxdepth 1 | wc -l)"
ln -s "$cc" linked-cc
ln -s "$cxx" linked-c++
builds "through a link" ./linked-cc main.c add.c -o link.elf
expect_success "the same through a link" same one.elf link.elf
expect_success "two first calls at once" bash -c 'export XDG_CACHE_HOME=$PWD/two
    "$0" main.c add.c -o 1.elf & one=$!
    "$0" main.c add.c -o 2.elf && wait "$one" && cmp 1.elf 2.elf &&
        test "$(find two/predator/guest -mindepth 1 -maxdepth 1 | wc -l)" = 1' "$cc"
builds "words of main" env ARGUMENTS='4 "in the.txt"' "$cc" main.c add.c -o words.elf
builds "words of main, by build.sh" env ARGUMENTS='4 "in the.txt"' "$build" words2.elf main.c add.c
expect_success "the words are there" bash -c 'for it; do llvm-strings "$it" | grep -x -q "in the.txt" || exit; done' all words.elf words2.elf
builds "by build.sh" "$build" built.elf main.c add.c

# ---- other words of main, in a copy

expect_success "other words, and what was left" "$here/words.py" words.elf other.elf a "b c" ""
expect_success "the file of the words is as it was" bash -c 'llvm-strings words.elf | grep -x -q "in the.txt"'
expect_success "the copy differs in its room alone" bash -c 'test "$(cmp -l words.elf other.elf | wc -l)" -le 4096'
refuses "words of a program without a C library" "there is no room for words of its own" "$here/words.py" small.elf x.elf a
refuses "words of one that is plain" "there is no room for words of its own" "$here/words.py" "$kit/built/as_is.elf" x.elf a
PLAIN=yes "$build" plain.elf main.c add.c
refuses "words of one that was built plain" "there is no room for words of its own" "$here/words.py" plain.elf x.elf a
refuses "too many words" "its words take more than 4096 bytes" "$here/words.py" words.elf x.elf "$(printf 'x%.0s' {1..4080})"
expect_success "no copy then" test ! -e x.elf
# (4096 bytes: the count, two places, the null, "program" and the word, each with its 0)
expect_success "as many as there is room for" "$here/words.py" words.elf full.elf "$(printf 'x%.0s' {1..4071})"
refuses "one more byte" "its words take more than 4096 bytes" "$here/words.py" words.elf x.elf "$(printf 'x%.0s' {1..4072})"
for it in main.c nowhere.elf /dev/null; do
    "$here/words.py" $it x.elf a >out 2>err
    expect_success "$it is left to the program" test $? = 3
done
head -c 3000 words.elf >short.elf
"$here/words.py" short.elf x.elf a >out 2>err
expect_success "a part of a program is left to the program" test $? = 3
