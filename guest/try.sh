#!/usr/bin/env bash
# Tries the program and its launcher as a user would, in a folder of its own, and says what answered otherwise than it should:
#
#     try.sh [PART ..]     of program, install, kit, c_library and unproved; the first four, unless some are named
#
# It builds the program where that is still to do. bin/try calls it, with all else that isn't proved.
set -u
here=$(cd "$(dirname "$(readlink -f "$0")")" && pwd)
top=$(dirname "$here")
predator=$top/bin/predator
work=$(mktemp -d)
trap 'rm -rf "$work"' EXIT
cd "$work" || exit 1
# shellcheck source=../tools/checks.bash
. "$top/tools/checks.bash"

# same WHAT: the program that was a file of the last command is there as it was.
same() {
    if cmp -s "$here/built/counters.elf" programs/counters.elf; then pass_check; else fail_check "$1: the program was lost"; fi
    cp "$here/built/counters.elf" programs/counters.elf
}

# cannot WHAT SOURCE REASON: such a program isn't built, and the reason is printed.
cannot() {
    echo "$2" >cannot.c
    expect_status "cannot $1" 1 "$here/build.sh" cannot.elf cannot.c
    expect_in_file "cannot $1: the reason" err "declared with 'error' attribute: $3"
}

# What the parts share: the programs, copied, and settings that list each line.
cp -r "$here/built" programs
printf 'tracking = 1\nreport = 1\n' >settings
printf 'harts = 0\n' >bad

try_launcher() {
    "$predator" >/dev/null 2>&1
    expect_status "help" 0 "$predator" --help
    expect_line "help" "Usage:"
    for it in "run --help" "help run" "run p.elf -h"; do
        # (the words apart)
        # shellcheck disable=SC2086
        expect_status "$it" 0 "$predator" $it
        expect_line "$it" "$(head -n 1 "$top/crates/worked_runs/data/usage.txt")"
    done
    expect_status "help of two lines" 0 "$predator" caches --help
    expect_line "help of two lines" "evictions of each line."
    expect_line "help of two lines" "  --ways W       sets the lines in each set, from 1 to 64; sets times ways is at most 4096"
    expect_status "help of no command" 1 "$predator" help reply
    expect_error "help of no command" "'reply' is not a command: see predator --help"
    expect_status "version" 0 "$predator" --version
    ln -s "$predator" linked
    expect_status "through a link" 0 ./linked --version
    expect_status "without rt, once built" 0 env PATH=/usr/bin:/bin "$predator" check "$here/built/counters.elf"
}

# completes WANTED WORD ..: what bash is offered for the last word.
completes() {
    local wanted=$1 got
    shift
    got=$(bash -c '. "$0/bin/predator.bash"; COMP_WORDS=(predator "$@"); COMP_CWORD=$#; _predator; echo "${COMPREPLY[*]}"' "$top" "$@")
    expect_equal "completion of '$*'" "$wanted" "$got"
}

try_completion() {
    completes "replay" rep
    completes "--settings --set --schedule" run p --s
    completes "--settings --set --size --shift --save" replay t --s
    completes "--help" convert --
    completes "--sources --sarif" view r --s
    completes "--sources --sarif --settings --set --schedule" view run p --s
    completes "--sources --sarif --settings --set --size --shift --save" view replay t --s
    completes "--sources --sarif --skip --settings --set --size --shift" view native p --s
    completes "" view run p --ma
    completes "--sources --sarif --settings --set --schedule" view "$here/built/counters.elf" --s
    completes "--map" view r --ma
    completes "--size --top --html --help" view sweep t --
    completes "--shape --top --html --help" view caches t --
    completes "--map" view replay t --ma
    completes "false-sharing invalidations" view run p --fail-above 3 --by ""
    completes "run" view ru
    completes "--cores --check" campaign p.yaml --c
    completes "--trace --table" native --t
    completes "" native -- ./a --t
    completes "1 2 4 8 16 32 64 128 256 512 1024" caches t --sets ""
}

try_commands() {
    expect_status "counters" 0 "$predator" run "$here/built/counters.elf"
    expect_error_lines "counters" "sum 80000"
    expect_line "counters" "outcome exit 0"
    expect_line "counters" "accesses 160042"
    expect_in_file "counters" out "line observed 0x00011000 64 start 41 count 4007"
    expect_status "apart" 0 "$predator" run programs/apart.elf
    expect_line "apart" "lines 0"
    expect_status "a trace" 0 "$predator" run programs/counters.elf --trace t --output o
    expect_status "the output" 0 grep -x "sum 80000" o
    expect_status "a replay" 0 "$predator" replay t
    expect_status "a replay under words" 0 "$predator" replay t --size 4
    expect_line "a replay under words" "lines 0"
    expect_status "a conversion" 0 "$predator" convert t converted
    expect_line "a conversion" "convert 2 160042"
    expect_status "a conversion back" 0 "$predator" convert converted back
    expect_status "the first trace again" 0 cmp t back
    expect_status "a cut" 0 "$predator" split t 100000 before behind
    expect_line "a cut" "split 100000 60042"
    expect_status "a half over its trace" 8 "$predator" split t 100000 other ./t
    expect_status "the trace, still there" 0 cmp t back
    expect_status "takings" 0 "$predator" explain programs/counters.elf 0x00011000 64 41
    expect_silent "takings"
    expect_line "takings" "line 0x00011000 64 start 41 count 4007"
    expect_status "takings of all lines" 0 bash -c '"$0" run programs/counters.elf --trace sited --pcs --output o >/dev/null && "$0" blame sited' "$predator"
    expect_line "takings of all lines" "line 0x00011000 takings 4007 pairs 4 harts 10"
    expect_status "no pcs" 5 "$predator" blame t
    expect_line "no pcs" "predator: trace NoPcs"
    expect_status "misses" 0 "$predator" misses t
    expect_line "misses" "line 0x00011000 cold 8 useful 1 useless 4000"
    expect_status "a sweep" 0 "$predator" sweep t --size 64
    expect_line "a sweep" "sweep 64"
    expect_status "caches of a shape" 0 "$predator" caches t --size 64 --sets 64 --ways 8
    expect_line "caches of a shape" "caches 64 64 8"
    expect_status "new places" 0 "$predator" place t counters
    expect_line "new places" "place counters 0x00011000 32 line 64"
    expect_status "a summary" 0 "$predator" check programs/counters.elf
    expect_line "a summary" "entry 0x00010000"
}

try_refusals() {
    expect_status "no words" 1 "$predator"
    expect_status "a wrong word" 1 "$predator" run programs/counters.elf --fast
    expect_error "a wrong word" "unexpected argument '--fast' found"
    expect_status "no program" 2 "$predator" run settings
    printf '9 1\n' >schedule
    expect_status "no schedule" 3 "$predator" run programs/counters.elf --schedule schedule
    expect_status "bad settings" 4 "$predator" run programs/counters.elf --settings bad
    expect_error "bad settings" "bad: \`harts\` must be a whole number from 1 to 256"
    # (which can't be looked at again)
    expect_status "settings by a pipe" 4 bash -c 'echo quantum | "$0" check programs/counters.elf --settings /dev/stdin' "$predator"
    expect_error "settings by a pipe" "/dev/stdin: the file is not TOML: write a key and a whole number on each line, like \`quantum = 1\`"
    expect_status "no trace" 5 "$predator" replay settings
    expect_status "no object" 13 "$predator" place t missing
    expect_line "no object" "predator: place NoObject"
    expect_status "an object without a name" 13 "$predator" place t ''
    expect_status "a file without a name" 8 "$predator" split t 18446744073709551615 a ''
    expect_line "a file without a name" "predator: write fault"
    # (the gate runs the program with exit status 0 alone)
    expect_status "a missing file" 7 "$predator" replay missing
    expect_output "a missing file" "predator: read fault"
    expect_error "a missing file" "missing: No such file or directory"
    expect_status "a folder" 7 "$predator" replay programs
    expect_error "a folder" "programs: Is a directory"
    expect_status "no place to write" 8 "$predator" run programs/counters.elf --trace missing/t
    expect_error "no place to write" "missing/t: No such file or directory"
    printf 'budget = 10\n' >few
    expect_status "a small budget" 10 "$predator" run programs/counters.elf --settings few
    expect_status "its own name as an output" 1 "$predator" run programs/counters.elf --trace programs/counters.elf
    expect_error "its own name as an output" "'programs/counters.elf' is named twice: an output file must differ from all other files"
}

# Nothing is lost by the name of an output. (tools/edges tries each name that a file may have)
try_outputs() {
    ln -s programs/counters.elf soft.elf
    expect_status "a link as a trace" 8 "$predator" run programs/counters.elf --trace soft.elf
    expect_error "a link as a trace" "soft.elf: the file is in use under another name and stays unchanged: name another file"
    same "a link as a trace"
    expect_status "a device" 0 "$predator" run programs/counters.elf --trace /dev/null --output /dev/./null
    expect_silent "a device"
}

try_messages() {
    expect_status "an output that can't be printed" 8 bash -c '"$0" check programs/counters.elf >/dev/full' "$predator"
    expect_error "an output that can't be printed" "standard output: No space left on device"
    expect_status "no word" 1 "$predator"
    expect_error "no word" "the command is missing: see predator --help"
    expect_status "a wrong command" 1 "$predator" reply t
    expect_error "a wrong command" "'reply' is not a command: see predator --help"
    expect_status "a lone option" 1 "$predator" run programs/counters.elf --trace
    expect_error "a lone option" "a value is required for '--trace <trace>' but none was supplied"
    expect_status "no layout" 1 "$predator" replay t --size 48
    expect_error "no layout" "'--size 48 --shift 0' is not a layout: --size must be a power of two from 4 to 1024, --shift a multiple of 4 below the size"
    expect_status "a word of other bytes" 1 "$predator" run $'p\xff'
    expect_error "a word of other bytes" "an argument is not UTF-8: arguments and file names must be UTF-8"
    { printf '\177ELF\2\1\1'; head -c 9 /dev/zero; printf '\3\0\76\0'; head -c 40 /dev/zero; } >x86
    expect_status "another machine" 2 "$predator" check x86
    expect_error_lines "another machine" "predator: \`predator native -- x86\` reports on a program of this machine, and \`predator view x86\` shows it" \
        "predator: x86: the file is an ELF file for x86-64: build it for RV32IMA with guest/build.sh"
    local by_hand="predator run PROGRAM --trace F"
    expect_status "a program of this machine as a trace" 5 "$predator" misses x86 --size 64
    expect_error_lines "a program of this machine as a trace" "predator: \`predator native --trace F -- x86\` writes a trace of a program of this machine" \
        "predator: x86: the file is not a trace: write one with \`$by_hand\` or tools/to_trace.py"
    expect_status "a program as a trace" 5 "$predator" replay --set report=1 programs/counters.elf
    expect_error_lines "a program as a trace" "predator: programs/counters.elf is a program: \`predator run programs/counters.elf\` runs it, and with \`--trace F\` it writes a trace" \
        "predator: programs/counters.elf: the file is not a trace: write one with \`$by_hand\` or tools/to_trace.py"
    expect_status "a trace as a program" 2 "$predator" run t
    expect_error_lines "a trace as a program" "predator: t is a trace: \`predator replay t\` counts it, and \`predator view t\` shows it" \
        "predator: t: the file is not an ELF file: build it for RV32IMA with guest/build.sh"
    head -c 1000 t >cut.t
    expect_status "a trace that was cut" 5 "$predator" replay cut.t
    expect_error_lines "a trace that was cut" "predator: cut.t: where a kill or Ctrl-C cut it, \`predator native --mend cut.t\` gives it an end" \
        "predator: cut.t: the trace is cut off after 1000 bytes: record or copy it again"
    expect_status "an unknown object" 13 "$predator" place t missing
    expect_error_lines "an unknown object" "predator: no object symbol of the trace has this name, and not exactly one block was allocated at that address: name another object" \
        "predator: objects on lines that are taken: counters"
    printf '#!/bin/sh\n' >$'a\nscript'
    expect_status "a script" 2 "$predator" check $'a\nscript'
    expect_error "a script" 'a\x0ascript: the file is a script: build it for RV32IMA with guest/build.sh'
    printf 'quantum = 1\nquantum = 2\n' >twice
    expect_status "a key twice" 4 "$predator" check programs/counters.elf --settings twice
    expect_error "a key twice" "twice: line 2: duplicate key: write a key and a whole number on each line, like \`quantum = 1\`"
    expect_status "settings in a pipe" 4 bash -c 'cat twice | "$0" check programs/counters.elf --settings /dev/stdin' "$predator"
    expect_error "settings in a pipe" "/dev/stdin: the file is not TOML: write a key and a whole number on each line, like \`quantum = 1\`"
    expect_status "a changed setting" 4 "$predator" check programs/counters.elf --settings settings --set harts=0
    expect_error "a changed setting" "\`harts\` must be a whole number from 1 to 256"
    expect_status "no key of the settings" 1 "$predator" check programs/counters.elf --set turns=1
    local keys="The keys are: harts memory stack tracking prediction report quantum budget line seed"
    expect_error_lines "no key of the settings" "predator: $keys" "predator: 'turns=1' in --set names an unknown key"
    expect_status "a key with a slip" 1 "$predator" run programs/counters.elf --set=report=1,quantom=3
    expect_error_lines "a key with a slip" "predator: did you mean \`quantum\`? $keys" "predator: 'quantom=3' in --set names an unknown key"
    printf 'memory = 65536\n' >small
    expect_status "a small memory" 2 "$predator" run programs/counters.elf --settings small
    expect_error "a small memory" "programs/counters.elf: the segments, the stacks and a heap do not fit in memory: set a larger \`memory\`, fewer \`harts\` or a smaller \`stack\` in the settings"
    printf '0  1\n' >spaces
    expect_status "a schedule's line" 3 "$predator" run programs/counters.elf --schedule spaces
    expect_error "a schedule's line" "spaces: line 1 is not a hart, one space and a count: write it like \`0 500\`"
}

# fails WHAT STATUS LINE COMMAND ..: within ten seconds the command ends so, and says this one line.
fails() {
    local what=$1 status=$2 line=$3
    shift 3
    expect_status "$what" "$status" timeout 10 "$@"
    expect_error "$what" "$line"
}

# calls ARRAY KIND: the calls of all commands that read or write a file of a kind, with IT in its place.
calls() {
    local -n into=$1
    mapfile -t into < <(python3 "$top/tools/commands.py" "--calls=$2")
    [ ${#into[@]} != 0 ] || fail_check "there is no call for $2"
}

# refused STATUS FILE WORDS ..: within ten seconds each of these calls, with the file in the place of IT, ends so, and says one line.
refused() {
    local status=$1 file=$2 words
    shift 2
    for words in "$@"; do
        # (the words apart)
        # shellcheck disable=SC2086
        expect_status "$words of $file" "$status" timeout 10 "$predator" ${words/IT/$file}
        if [ "$(grep -c "" err)" = 1 ] && grep -q "^predator: " err; then pass_check; else fail_check "$words of $file: not one line:" err; fi
    done
}

# What a run lets be seen on standard error, whatever that is; the report and the status stay the same.
try_shown() {
    local written="$top/crates/worked_runs/data/writes.elf" it
    expect_status "what is put out, into a file" 0 "$predator" run programs/counters.elf --output put
    expect_silent "what is put out, into a file"
    cp out report
    expect_status "what is in the file" 0 grep -x "sum 80000" put
    for it in ">shown" ">shown 2>/dev/null" ">shown 2>&-" ">shown 2>/dev/full" ">shown 2> >(true)" "2>&1 >shown | cat"; do
        rm -f shown
        expect_status "a run with $it" 0 bash -c 'set -o pipefail; "$0" run programs/counters.elf '"$it" "$predator"
        expect_status "the report of a run with $it" 0 cmp shown report
    done
    # Standard error may be what the call writes, and then gets nothing.
    for it in "2>over" "2>>over"; do
        rm -f over
        expect_status "a trace over $it" 0 bash -c '"$0" run programs/counters.elf --trace over >shown '"$it" "$predator"
        expect_status "the report of a trace over $it" 0 cmp shown report
        expect_status "a replay of a trace over $it" 0 bash -c '"$0" replay over | cmp - report' "$predator"
    done
    # Bytes that are no text come as they are, and a line that isn't ended is.
    expect_status "bytes" 0 "$predator" run "$written" --output put
    expect_error "bytes" "the program ended with exit code 4"
    cp out report
    expect_status "bytes on standard error" 0 "$predator" run "$written"
    { cat put; printf '\npredator: the program ended with exit code 4\n'; } >wanted
    cp out shown
    cp err first
    expect_status "their report" 0 cmp shown report
    expect_status "the bytes" 0 cmp first wanted
    expect_status "an exit code" 0 "$predator" run programs/linked.elf
    expect_error_lines "an exit code" "linked" "predator: the program ended with exit code 14"
    for it in "2>&-" "2>/dev/full"; do
        expect_status "an exit code with $it" 0 bash -c '"$0" run programs/linked.elf '"$it" "$predator"
        expect_line "an exit code with $it" "outcome exit 14"
    done
    expect_status "an exit code, explained" 0 "$predator" explain programs/linked.elf 0x00011000 64 0
    expect_silent "an exit code, explained"
    printf 'harts = 4\n' >four
    expect_status "too few harts" 0 "$predator" run programs/counters.elf --settings four
    expect_line "too few harts" "outcome exit 1"
    expect_error_lines "too few harts" "predator: the last thread could not start: all 4 harts are in use (setting \`harts\`, at most 256)" \
        "predator: the program ended with exit code 1"
}

# Pipes, and files that are missing, closed, endless or full.
try_streams() {
    local once="a pipe or a terminal can be read only once: write it to a file first" words
    local -a programs traces tables twice settings schedules states written
    calls programs PROGRAM
    calls traces TRACE
    calls tables TABLE
    calls twice twice
    calls settings --settings
    calls schedules --schedule
    calls states --resume
    calls written written
    "$predator" gen 40000 made >/dev/null
    echo "0xfffffff0 4 0xfffffff8" >table
    "$predator" run programs/counters.elf --trace run.trace --output run.output >report 2>/dev/null
    "$predator" replay made >wanted
    expect_status "a trace by standard input" 0 bash -c '"$0" replay - <made' "$predator"
    cp out piped
    expect_status "the same report" 0 cmp piped wanted
    expect_status "a trace by a pipe" 0 bash -c 'cat made | "$0" replay -' "$predator"
    cp out piped
    expect_status "the same report by a pipe" 0 cmp piped wanted
    expect_status "a trace by a name of a pipe" 0 bash -c '"$0" replay <(cat made) >piped && cmp piped wanted' "$predator"
    expect_status "settings by a pipe" 0 bash -c '"$0" run programs/counters.elf --settings <(echo "quantum = 1")' "$predator"
    mkfifo fifo
    cat fifo >through &
    expect_status "a FIFO as a trace" 0 timeout 60 "$predator" run programs/counters.elf --trace fifo
    wait $!
    expect_status "the trace through the FIFO" 0 cmp through run.trace
    expect_status "a pipe as a trace" 0 bash -c '"$0" run programs/counters.elf --trace /dev/fd/3 3> >(cat >through3)' "$predator"
    expect_status "the trace through the pipe" 0 bash -c 'sleep 1; cmp through3 run.trace'
    cp made ./-
    expect_status "a file of that name" 0 "$predator" replay ./-
    for words in "${twice[@]}"; do
        rm -f a b
        expect_status "$words of a pipe" 7 bash -c 'cat made | "$0" '"${words/IT//dev/stdin}" "$predator"
        expect_error "$words of a pipe" "/dev/stdin: $once"
        expect_status "$words of a pipe writes nothing" 1 test -e a
    done
    fails "a missing trace" 7 "missing: No such file or directory" "$predator" replay missing
    fails "a missing settings file" 7 "missing: No such file or directory" "$predator" replay made --settings missing
    fails "a folder as settings" 7 "programs: Is a directory" "$predator" replay made --settings programs
    : >nothing
    # What is empty, endless, missing, or there and can't be read, in the place of each file that a command reads.
    local it
    for it in nothing /dev/null /dev/zero; do
        refused 2 $it "${programs[@]}"
        refused 5 $it "${traces[@]}"
        expect_status "$it gives nothing" 1 test -e a
    done
    refused 6 nothing "${states[@]}"
    refused 6 /dev/null "${states[@]}"
    # A state is held whole, so an endless one ends where memory does.
    expect_status "an endless state" 9 timeout 60 bash -c 'ulimit -v 1000000; exec "$0" replay made --resume /dev/zero' "$predator"
    expect_line "an endless state" "predator: no memory"
    for it in missing programs /proc/self/mem; do
        refused 7 $it "${programs[@]}" "${traces[@]}" "${tables[@]}" "${settings[@]}" "${schedules[@]}" "${states[@]}"
    done
    refused 4 /dev/zero "${settings[@]}"
    refused 3 /dev/zero "${schedules[@]}"
    refused 14 /dev/zero "${tables[@]}"
    refused 7 /dev/fd/9 "replay IT" "run programs/counters.elf --settings IT" "replay made --resume IT"
    for it in nothing /dev/null; do
        expect_status "$it as settings" 0 timeout 10 "$predator" replay made --settings $it
        expect_status "$it as a schedule" 0 timeout 10 "$predator" run programs/counters.elf --schedule $it
        expect_status "$it as a table" 0 timeout 10 "$predator" move made $it a
        expect_status "what it moves" 0 cmp a made
    done
    # What is full, and an input stays as it was.
    "$predator" run programs/counters.elf --trace sited --pcs >/dev/null
    for words in "${written[@]}"; do
        # (it needs pcs)
        if [[ $words == "filter "* ]]; then words=${words/made/sited}; fi
        # (the words apart)
        # shellcheck disable=SC2086
        fails "$words of /dev/full" 8 "/dev/full: No space left on device" "$predator" ${words/IT//dev/full}
    done
    expect_status "the trace is there" 0 bash -c '"$0" replay made | cmp - wanted' "$predator"
    # (tools/edges tries each command so)
    # shellcheck disable=SC2016
    fails "a closed output" 8 "standard output: Bad file descriptor" bash -c '"$0" gen 3 three >&-' "$predator"
    expect_status "what it wrote" 0 "$predator" replay three
    expect_status "a closed input" 5 timeout 10 bash -c '"$0" replay - <&-' "$predator"
    expect_status "a closed standard error" 7 timeout 10 bash -c '"$0" replay missing 2>&-' "$predator"
    rm -f both
    fails "a report over its trace" 8 "both: the file is in use under another name and stays unchanged: name another file" \
        bash -c '"$0" run programs/counters.elf --trace both >both' "$predator"
}

try_install() {
    expect_status "install" 0 "$top/bin/install" "$work/prefix"
    expect_silent "install"
    expect_status "install without a folder" 1 "$top/bin/install"
    expect_status "install's help" 0 "$top/bin/install" --help
    expect_status "installed" 0 env PATH=/usr/bin:/bin "$work/prefix/bin/predator" check programs/counters.elf
    expect_status "installed help" 0 env PATH=/usr/bin:/bin "$work/prefix/bin/predator" --help
    expect_status "installed version" 0 env PATH=/usr/bin:/bin "$work/prefix/bin/predator" --version
    for file in share/man/man1/predator.1 share/bash-completion/completions/predator share/predator/docs/FORMATS.md share/predator/guest/build.sh; do
        expect_status "$file" 0 test -s "$work/prefix/$file"
    done
}

try_kit() {
    cat >init.c <<'C'
#include "predator.h"
ALONE volatile uint32_t first = 5;
ALONE volatile uint32_t second = 6;
int main(void)
{
    print_number(first + second);
    print("\n");
    return (((uintptr_t)&first ^ (uintptr_t)&second) & ~255u) != 0 ? 0 : 1;
}
C
    expect_status "a build" 0 "$here/build.sh" init.elf init.c -- -O1
    expect_status "what was built" 0 "$predator" run init.elf --output o
    expect_line "what was built" "outcome exit 0"
    expect_status "initialised variables" 0 grep -x 11 o
    expect_status "a build without words" 1 "$here/build.sh"
    cp init.c init.cpp
    expect_status "a build of C++" 0 "$here/build.sh" cxx.elf init.cpp
    expect_status "what was built of C++" 0 "$predator" run cxx.elf
    expect_line "what was built of C++" "outcome exit 0"
    # Alone, and with free lines before and behind.
    cat >alone.c <<'C'
#include "predator.h"
ALONE volatile uint32_t first;
ALONE static volatile uint32_t second[64] = {1};
ALONE volatile uint8_t third;
volatile uint32_t other = 1;
int main(void)
{
    first = third = 1;
    return (uintptr_t)second - (uintptr_t)&first < 260 || (uintptr_t)&third - (uintptr_t)second < 512 ||
        (uintptr_t)&other - (uintptr_t)&third < 257;
}
C
    expect_status "a build of lone variables" 0 "$here/build.sh" alone.elf alone.c
    expect_status "lone variables" 0 "$predator" run alone.elf
    expect_line "lone variables" "outcome exit 0"

    # A hole of 16 bytes low in the heap stays free while blocks that don't fit there are made behind it.
    expect_status "a build of a low hole" 0 "$here/build.sh" hole.elf "$here/tries/hole.c"
    expect_status "where its heap begins" 0 "$predator" check hole.elf
    local heap
    heap=$(sed -n 's/^heap \(0x[0-9a-f]*\) .*/\1/p' out)
    expect_status "a low hole" 0 "$predator" run hole.elf --output o
    expect_line "a low hole" "outcome exit 0"
    { echo $((heap)) && seq $((heap + 16)) 176 $((heap + 16 + 176 * 3999)) && echo $((heap)); } >places
    expect_status "the blocks behind a low hole, and the one in it" 0 cmp o places

    # Nine harts of eight; of which one more starts once another one is free; and 257 of 256.
    cat >nine.c <<'C'
#include "predator.h"
static int end(void *unused)
{
    (void)unused;
    return 0;
}
int main(void)
{
    int last = 0;
    for (int i = 0; i < MORE; i++)
        last = predator_spawn(end, 0);
    if (last != -EAGAIN)
        return 1;
#ifdef AGAIN
    predator_join(1);
    return predator_spawn(end, 0) != 1;
#endif
    return 0;
}
C
    local few="the last thread could not start: all"
    expect_status "a build for nine harts" 0 "$here/build.sh" nine.elf nine.c -- -DMORE=8
    expect_status "nine harts" 0 "$predator" run nine.elf
    expect_line "nine harts" "outcome exit 0"
    expect_error "nine harts" "$few 8 harts are in use (setting \`harts\`, at most 256)"
    printf 'harts = 9\n' >enough
    expect_status "nine of nine" 0 "$predator" run nine.elf --settings enough
    expect_error_lines "nine of nine" "predator: the program ended with exit code 1"
    expect_status "a build for one more" 0 "$here/build.sh" again.elf nine.c -- -DMORE=8 -DAGAIN
    expect_status "one more" 0 "$predator" run again.elf
    expect_line "one more" "outcome exit 0"
    expect_silent "one more"
    expect_status "a build for 257 harts" 0 "$here/build.sh" most.elf nine.c -- -DMORE=256
    printf 'harts = 256\nstack = 4096\n' >most
    expect_status "257 harts" 0 "$predator" run most.elf --settings most
    expect_error "257 harts" "$few 256 harts are in use, and there are never more"

    cannot "cancel" '#include <pthread.h>
    int main(void) { return pthread_cancel(pthread_self()); }' "a hart can't be ended by another one"
    cannot "signal" '#include <pthread.h>
    int main(void) { return pthread_kill(pthread_self(), 2); }' "there are no signals"
    cannot "join for a time" '#define _GNU_SOURCE
    #include <pthread.h>
    int main(void) { return pthread_timedjoin_np(pthread_self(), 0, 0); }' "a thread has no clock of its own"
    cannot "bring a stack" '#include <pthread.h>
    int main(void) { pthread_attr_t a; return pthread_attr_setstack(&a, 0, 0); }' "each hart has the stack"
}

try_c_library() {
    cannot "be woken by a clock" '#include <unistd.h>
    int main(void) { return (int)alarm(1); }' "nothing comes by itself after a time"
    for it in as_is atomics; do
        expect_status "a build of $it" 0 "$here/build.sh" $it.elf "$here/examples/$it.c"
        expect_status "$it" 0 "$predator" run $it.elf --output $it.out
        expect_line "$it" "outcome exit 0"
        if command -v cc >/dev/null; then
            expect_status "$it natively" 0 cc -pthread -w "$here/examples/$it.c" -o $it.native
            ./$it.native >$it.wanted
            expect_status "the same from $it" 0 cmp $it.wanted $it.out
        fi
    done
    cat >words.c <<'C'
#include <assert.h>
#include <stdio.h>
#include <stdlib.h>
static void last(void) { puts("last"); }
int main(int count, char **words)
{
    atexit(last);
    for (int i = 1; i < count; i++)
        printf("word %s\n", words[i]);
    assert(count == 3);
    exit(3);
}
C
    expect_status "a build with words" 0 env ARGUMENTS="4 in.txt" "$here/build.sh" words.elf words.c
    expect_status "words" 0 "$predator" run words.elf --output o
    expect_line "words" "outcome exit 3"
    expect_status "the last words" 0 grep -x -c -e last -e "word in.txt" o
    expect_status "a build without words" 0 "$here/build.sh" words.elf words.c
    expect_status "a failed claim" 0 "$predator" run words.elf --output o
    expect_line "a failed claim" "outcome exit 134"
    expect_error "a failed claim" "the program ended with exit code 134"
    expect_status "a failed claim is said" 0 grep "count == 3" o
    cat >nine.c <<'C'
#include <pthread.h>
#include <stdio.h>
#include <unistd.h>
static void *wait(void *gate) { return pthread_barrier_wait(gate), gate; }
int main(int count, char **words)
{
    pthread_t threads[8];
    pthread_barrier_t gate;
    int made = 0;
    (void)words;
    printf("%ld harts\n", sysconf(_SC_NPROCESSORS_ONLN));
    pthread_barrier_init(&gate, NULL, 8);
    while (made < 6 + count && pthread_create(&threads[made], NULL, wait, &gate) == 0)
        made++;
    wait(&gate);
    for (int i = 0; i < made; i++)
        pthread_join(threads[i], NULL);
    return made != 7;
}
C
    expect_status "a build of eight threads" 0 "$here/build.sh" eight.elf nine.c
    expect_status "eight threads" 0 "$predator" run eight.elf
    expect_line "eight threads" "outcome exit 0"
    expect_error_lines "eight threads" "8 harts"
    expect_status "a build of nine threads" 0 env ARGUMENTS=more "$here/build.sh" nine.elf nine.c
    expect_status "nine threads" 0 "$predator" run nine.elf
    expect_line "nine threads" "outcome exit 0"
    expect_error_lines "nine threads" "8 harts" \
        "pthread_create: each of the 8 harts is in use, so there is none for another thread: the settings may have more, as harts = 16" \
        "predator: the last thread could not start: all 8 harts are in use (setting \`harts\`, at most 256)"
}

# It takes minutes.
try_unproved() {
    expect_status "unproved" 0 env PREDATOR_TRY=1 "$predator" check "$here/built/counters.elf" --settings=settings
    expect_line "unproved" "entry 0x00010000"
    expect_status "unproved, refused" 4 env PREDATOR_TRY=1 "$predator" check programs/counters.elf --settings=bad
}

"$predator" check "$here/built/apart.elf" >/dev/null || exit
[ $# -gt 0 ] || set -- program install kit c_library
for part in "$@"; do
    case $part in
        program) for it in launcher completion commands refusals outputs shown messages streams; do "try_$it"; done ;;
        install | kit | c_library | unproved) "try_$part" ;;
        *)
            sed -n '2,/^[^#]/s/^# \{0,1\}//p' "$here/try.sh" >&2
            exit 1
            ;;
    esac
done
finish_checks
