#!/usr/bin/env bash
# Tries the tool and its launcher on good and bad input (Debian: gcc, valgrind, python3). With --short it tries what is recorded, and how
# programs end; without, also what is refused, what a full disk or a signal does, and the reports, for some minutes.
# Its last line is `N passed, M failed, K skipped`.
set -u
here=$(dirname "$(readlink -f "$0")")
run=$here/predator-native
judge=$here/tries/judge.py
work=$(mktemp -d "${TMPDIR:-/tmp}/native-try.XXXXXX") || exit 1
trap 'rm -rf "$work"' EXIT
cd "$work" || exit 1
# shellcheck source=../tools/checks.bash
. "$here/../tools/checks.bash"

if ! command -v gcc >/dev/null || ! command -v python3 >/dev/null || [ ! -x /usr/bin/valgrind.bin ]; then
    skip_checks 1 "all: gcc, python3 and valgrind are wanted"
    echo "0 passed, 0 failed, 1 skipped"
    exit 0
fi
# (built anew where a source was changed since)
old=$(find "$here/build" "$here/lib" "$here/tool" -newer "$here/out/predator-amd64-linux" -print -quit 2>&1)
if { [ ! -x "$here/out/predator-amd64-linux" ] || [ -n "$old" ]; } && ! "$here/build" >build.log 2>&1; then
    cat build.log
    echo "0 passed, 1 failed, 0 skipped"
    exit 1
fi
for name in counters kinds odd locks heap; do
    gcc -O1 -g -pthread "$here/tries/$name.c" -o $name 2>gcc.log || { cat gcc.log; echo "0 passed, 1 failed, 0 skipped"; exit 1; }
done
gcc -O1 -g -pthread -DAPART "$here/tries/counters.c" -o apart
gcc -O1 -g -pthread -static "$here/tries/counters.c" -o static 2>/dev/null
gcc -O1 -g -pthread -DMARKS "$here/tries/odd.c" -o marked
gcc -O1 -g -pthread "$here/tries/wide.c" -o wide

# The turns, and what is taken.
for row in "1 79000 80000" "10 15000 16500" "100 1500 1700" "1000 150 170"; do
    read -r quantum least most <<<"$row"
    expect_equal "counters at $quantum" "sum 80000" "$("$run" --quantum "$quantum" --trace t -- ./counters 2>&1)"
    expect_between "takings at $quantum" "$least" "$most" "$("$judge" taken t counters)"
    expect_equal "end at $quantum" "exit 0" "$("$judge" end t)"
done
expect_equal "a word's accesses" "10000 10000 1" "$("$judge" word t counters 4)"
"$run" --quantum 50 --trace t -- ./counters >/dev/null 2>&1
expect_between "longest turn" 50 300 "$("$judge" turns t)"
"$run" --trace t -- ./apart >/dev/null 2>&1
expect_equal "apart: nothing is taken" 0 "$("$judge" taken t counters)"

# The address map leads to where the program has its variable: its file's address, and where the file was mapped.
back() { # NAME TRACE PROGRAM
    local place was bias in_file
    place=$("$judge" place "$2" counters)
    was=$("$here/../tools/to_trace.py" --back "$2.table" "$place")
    bias=$(awk -v file="/$3" '$1 == "map" && substr($0, length($0) - length(file) + 1) == file { print $4 }' "$2.table")
    in_file=$(nm "$3" | awk '$3 == "counters" { print $1 }')
    expect_equal "$1" "$(printf '%s was 0x%x' "$place" $((bias + 0x$in_file)))" "$was"
}
"$run" --quantum 1000 --trace t -- ./counters >/dev/null 2>&1
back "the address map" t counters
expect_part "the address map: no such page" "is no address of the trace" "$("$here/../tools/to_trace.py" --back t.table 0x00000010)"

# The same bytes on every run.
for name in counters kinds; do
    for it in 1 2 3; do "$run" --trace same$it -- ./$name >/dev/null 2>&1; done
    expect_equal "$name: the same trace" "same same" "$(cmp -s same1 same2 && echo same) $(cmp -s same1 same3 && echo same)"
    expect_equal "$name: the same table" "same" "$(cmp -s same1.table same3.table && echo same)"
done

# What is recorded of each kind of access.
right="right 4 added 4000 swapped 4000 counted 4000 turn 200 spinning 200
7"
expect_equal "kinds" "$right" "$("$run" --trace t -- ./kinds 2>&1; echo $?)"
expect_equal "kinds at 3" "$right" "$("$run" --quantum 3 --trace t3 -- ./kinds 2>&1; echo $?)"
expect_equal "an atomic is one write" "0 4000 4" "$("$judge" word t added 0)"
expect_equal "8 bytes are two" "0 4000 4" "$("$judge" word t added 4)"
"$run" --trace w -- ./wide
while read -r at want; do
    expect_equal "wide at $at" "$want" "$("$judge" word w area "$at")"
done <<'ROWS'
0 0 1000 1
4 0 1000 1
12 0 2000 1
16 0 1000 1
20 0 1000 1
64 2000 0 1
128 0 1000 1
140 0 1000 1
192 1000 0 1
220 1000 0 1
256 1000 0 1
512 1000 0 1
524 1000 0 1
576 0 1000 1
588 0 1000 1
640 0 1000 1
704 0 1000 1
768 1000 1000 1
832 0 0 0
2048 0 4000 1
ROWS

sums="begun 1 written 2400 right 1200 spun 1200 passed 600 late 4 signalled 4 busy 1 timed 1"
for quantum in 1 100; do
    expect_equal "locks at $quantum" "$sums" "$("$run" --quantum $quantum --trace t3 -- ./locks 2>&1)"
done
"$run" --quantum 3 --trace t3 -- ./kinds >/dev/null 2>&1

# Blocks: each function that makes them, and where they lie in the source.
expect_part "blocks" "24 freed 24 freed 24 freed 24 freed" "$("$judge" blocks t work)"
for size in 10 5000 128 100; do
    expect_part "a block of $size" "$size" "$("$judge" blocks t3 work)"
done
expect_part "a refused realloc leaves the block" "100 live" "$("$judge" blocks t work)"
expect_part "a call site's line" "kinds.c:" "$(grep ' work ' t.table)"
expect_equal "the table's program" "program $PWD/kinds" "$(sed -n '1s|/\./|/|p' t.table)"
expect_part "the table's files" "/libc.so.6" "$(grep '^map ' t.table)"

# What is recorded when.
"$run" --trace part -- ./odd >/dev/null 2>&1
"$run" --all --trace whole -- ./odd >/dev/null 2>&1
expect_between "--all records more" "$(($("$judge" accesses part) + 1000))" 100000000 "$("$judge" accesses whole)"
"$run" --most 1000 --trace few -- ./odd >few.log 2>&1
expect_equal "--most" "1000 part" "$("$judge" accesses few) $("$judge" end few)"
expect_part "--most says so" "that many accesses were asked for" "$(cat few.log)"
"$run" --marked --trace marked.t -- ./marked >/dev/null 2>&1
expect_equal "--marked" "0 0 0" "$("$judge" word marked.t shared 8)"
expect_equal "--marked has what is marked" "20000 20000 1" "$("$judge" word marked.t shared 4)"
expect_part "--marked without marks" "no PREDATOR_START was reached" "$("$run" --marked --trace t -- ./odd 2>&1)"
expect_part "one thread" "had one thread" "$("$run" --trace t -- /bin/true 2>&1)"
expect_equal "one thread is a whole trace" "exit 0" "$("$judge" end t)"

# Programs that end or behave in odd ways: the status, what they print, and how the trace ends.
odd() { # MODE STATUS END OUTPUT
    local said status
    said=$(echo hello | "$run" --trace o -- ./odd "$1" 2>o.log)
    status=$?
    expect_equal "$1: status" "$2" "$status"
    expect_equal "$1: end" "$3" "$("$judge" end o)"
    expect_equal "$1: output" "$4" "$said"
}
odd kill 137 part "" 2>/dev/null
odd fault 139 part "" 2>/dev/null
odd abort 134 part "" 2>/dev/null
odd catch 6 "exit 6" caught
odd fork 6 "exit 6" "child
parent 0"
odd vfork 6 "exit 6" "vfork 3"
odd system 6 "exit 6" "system 3"
odd childless 6 "exit 6" "no child"
odd exec 0 part "another program"
odd close 6 "exit 6" closed
odd closeall 6 "exit 6" ""
odd large 6 part large
expect_part "large says so" "more than 4080 MiB" "$(cat o.log)"
odd block 6 "exit 6" block
odd detached 9 "exit 9" ""
odd main-ends 0 "exit 0" ""
odd limit 6 "exit 6" limited
odd input 6 "exit 6" hello
expect_part "standard error" "to standard error" "$(cat o.log)"
odd signals 6 "exit 6" ""
odd churn 6 "exit 6" churned
rm -f o o.*

said=$("$run" --trace t -- ./odd many 300 2>t.log; echo $?)
expect_equal "300 threads" "many 300
6" "$said"
expect_part "300 threads say so" "more than 256 threads" "$(cat t.log)"
expect_equal "300 threads: end" part "$("$judge" end t)"
expect_equal "256 threads" "many 255 exit 6" "$("$run" --trace t -- ./odd many 255 2>&1) $("$judge" end t)"
if [ -x static ]; then
    said=$("$run" --trace t -- ./static 2>&1)
    expect_part "static" "sum 80000" "$said"
    expect_part "static says so" "loads no libraries" "$said"
    expect_between "static: takings" 1500 1700 "$("$judge" taken t counters)"
else
    skip_checks 1 "a static program: it can't be linked here"
fi
rm -f t t3 w same* whole part
. "$here/tries/filtered.sh"
if [ "${1:-}" = --short ]; then
    finish_checks
    exit
fi

. "$here/tries/spans.sh"

# What is refused before the program runs.
refused() { # NAME STATUS PART WORDS ..
    local name=$1 status=$2 part=$3 said
    shift 3
    said=$("$run" "$@" 2>&1 </dev/null)
    expect_equal "$name: status" "$status" "$?"
    expect_part "$name" "$part" "$said"
}
printf 'no program\n' >text
cp text script
printf '#!/bin/sh\n' >script
head -c 4 ./odd >elf32
printf '\001\001\001\000\000\000\000\000\000\000\000\000\002\000\003\000' >>elf32
head -c 18 ./odd >arm
printf '\267\000' >>arm
cp odd cut
truncate -s 100 cut
cp odd owned
chmod u+s owned
cp odd unread
chmod +x text script elf32 arm cut
mkdir folder
refused "no words" 125 "no program is named"
refused "no program" 125 "no program is named" --quantum 5 --
refused "an unknown option" 125 "'--quick' is no option" --quick -- ./odd
refused "no --" 125 "stands before --" ./odd
refused "quantum 0" 125 "'--quantum' is 1 to 100000" --quantum 0 -- ./odd
refused "quantum 100001" 125 "'--quantum' is 1 to 100000" --quantum=100001 -- ./odd
refused "quantum x" 125 "'--quantum' is 1 to 100000" --quantum 1x -- ./odd
refused "quantum without a value" 125 "wants a value" --quantum
refused "most 0" 125 "'--most' is" --most 0 -- ./odd
refused "all and marked" 125 "two ways" --all --marked -- ./odd
refused "trace and report" 125 "there is no report" --trace t --report r -- ./odd
refused "trace and size" 125 "has no use" --trace t --size 4 -- ./odd
refused "the table is the trace" 125 "it is named twice" --trace t --table t -- ./odd
refused "the table is the program's" 125 "this is the program" --table odd -- ./odd
refused "a mend and a program" 125 "stands alone" --mend t -- ./odd
refused "a mend without its trace" 1 "No such file or directory" --mend nowhere
expect_equal "--help" "  predator native [OPTIONS] -- PROGRAM [ARGUMENTS ..]" "$("$run" --help | sed -n 3p)"
refused "not there" 127 "there is no such program" --trace t -- ./nowhere
refused "a folder" 126 "this is no file" --trace t -- ./folder
refused "not executable" 126 "may not be executed" --trace t -- ./gcc.log
refused "a text" 126 "this is no program" --trace t -- ./text
refused "a script" 126 "this is a script" --trace t -- ./script
refused "32 bits" 126 "no program for x86-64" --trace t -- ./elf32
refused "another machine" 126 "no program for x86-64" --trace t -- ./arm
refused "a program for RV32" 126 "this is a program for RV32; \`predator run $here/../guest/built/counters.elf\` runs it" --trace t -- "$here/../guest/built/counters.elf"
refused "set-user-id" 126 "another user's" --trace t -- ./owned
refused "the trace is a folder" 125 "this is a folder" --trace folder -- ./odd
refused "the trace is the program" 125 "this is the program" --trace odd -- ./odd
ln -s odd odd.link
refused "the trace is the program by a link" 125 "this is the program" --trace odd.link -- ./odd
ln -s odd x.table
refused "the table is the program" 125 "this is the program" --trace x -- ./odd
refused "the trace can't be written" 125 "No such file or directory" --trace no/where -- ./odd
refused "a cut program" 126 "ends before its header does" --trace t -- ./cut
expect_equal "the program stays as it is" 6 "$(./odd; echo $?)"
if [ "$(id -u)" = 0 ]; then
    skip_checks 1 "a program that may not be read: root reads all"
else
    chmod a-r unread
    refused "may not be read" 126 "may not be read" --trace t -- ./unread
fi

# A full disk, a limit, a pipe that nobody reads any more: the program goes on, and what stands is a whole trace where it can be.
refused "a full device" 125 "/dev/full: No space left on device" --trace /dev/full -- ./odd
said=$(ulimit -f 1500; "$run" --trace t -- ./odd close 2>&1)
expect_equal "a limit: status" 6 "$?"
expect_part "a limit" "t: File too large" "$said"
expect_part "a limit: the program goes on" "closed" "$said"
expect_equal "a limit: end" part "$("$judge" end t)"
mkdir disk
if mount -t tmpfs -o size=3m tmpfs disk 2>/dev/null; then
    said=$("$run" --trace disk/t -- ./odd close 2>&1)
    expect_equal "a small disk: status" 6 "$?"
    expect_part "a small disk" "half of what was free: the trace ends here" "$said"
    expect_equal "a small disk: end" "part disk" "$("$judge" end disk/t) $(awk '$1 == "end" { print $3 }' disk/t.table)"
    expect_between "a small disk: half of it is left" $((3 << 19)) $((3 << 20)) $(($(stat -f -c '%a * %S' disk)))
    rm disk/t disk/t.table
    head -c 3100000 /dev/zero >disk/full 2>/dev/null
    said=$("$run" --trace disk/t -- ./odd close 2>&1)
    expect_equal "a full disk: status" 125 "$?"
    expect_part "a full disk" "half of what was free" "$said"
    umount disk
else
    skip_checks 1 "a full disk: no file system can be mounted"
fi
mkfifo pipe
head -c 100000 pipe >/dev/null &
said=$("$run" --trace pipe -- ./odd close 2>&1)
expect_equal "a pipe that ends: status" 6 "$?"
expect_part "a pipe that ends" "pipe: Broken pipe" "$said"
expect_part "a pipe that ends: the program goes on" "closed" "$said"
cat pipe >from-pipe &
"$run" --trace pipe -- ./counters >/dev/null 2>&1
wait
"$run" --trace file -- ./counters >/dev/null 2>&1
expect_equal "through a pipe" same "$(cmp -s from-pipe file && echo same)"
rm -f t
"$run" --trace t -- "$work/odd" endless >/dev/null 2>&1 &
pid=$!
longer() { # FILE BYTES: waits until it is longer, two minutes at most
    for _ in $(seq 1 600); do
        if [ "$(stat -c %s "$1" 2>/dev/null || echo 0)" -gt "$2" ]; then return; fi
        sleep 0.2
    done
}
longer t 3000000
kill -9 $pid
wait $pid 2>/dev/null
# (the recorder ends with its launcher, in a moment)
for _ in $(seq 1 100); do
    if ! pgrep -f "$work/odd endless" >/dev/null; then break; fi
    sleep 0.1
done
expect_equal "killed: nothing is left" "" "$(pgrep -f "$work/odd endless")"
# (where the kill came while a piece was written, the file ends in it, and is mended)
"$judge" end t >ended 2>/dev/null || "$run" --mend t >/dev/null
expect_equal "killed: end" part "$("$judge" end t)"
expect_between "killed: accesses" 250000 1000000000 "$("$judge" accesses t)"
rm -f t
# (words of the environment move the stack; the pipe has no instructions)
export KEPT=$work/from-pipe PREDATOR=$work/keeps
"$run" --quantum 10 --no-pcs --trace whole -- ./kinds >/dev/null 2>&1
unset PREDATOR
for at in 20 27 1000 1000003; do
    head -c $at whole >cut.t
    expect_part "mended at $at" "where it ends now" "$("$run" --mend cut.t)"
    expect_equal "mended at $at: end" part "$("$judge" end cut.t)"
    expect_equal "mended at $at: the same records" same "$(cmp -s -n $((at - 24 > 20 ? at - 24 : 20)) cut.t whole && echo same)"
done
cp whole kept
expect_part "mended: a whole one stays" "it stays as it is" "$("$run" --mend kept)"
expect_equal "mended: the same bytes" same "$(cmp -s kept whole && echo same)"
for it in odd cut; do
    cp $it kept
    expect_part "mended: no trace" "this is no trace" "$("$run" --mend kept 2>&1)"
    expect_equal "mended: no trace stays" same "$(cmp -s kept $it && echo same)"
done

# Through the pipe, without a file: here to what stands for `predator` and keeps what it reads, counts it, or goes away.
printf '#!/bin/sh\n[ $# -gt 0 ] || exit 1\n[ "$1 $2" = "replay -" ] || exit 9\nhead -c 2000000000 >"$KEPT"\necho read\n' >keeps
printf '#!/bin/sh\n[ $# -gt 0 ] || exit 1\nwc -c\n' >counts
printf '#!/bin/sh\n[ $# -gt 0 ] || exit 1\nhead -c 100000 >/dev/null\nkill -9 $$\n' >dies
printf '#!/bin/sh\n[ $# -gt 0 ] || exit 1\necho refused\nexit 4\n' >refuses
printf '#!/bin/sh\necho not built >&2\nexit 127\n' >unbuilt
chmod +x keeps counts dies refuses unbuilt
pass() { PREDATOR=$work/$1 "$run" "${@:2}"; }
said=$(pass keeps --quantum 10 -- ./kinds 2>pipe.log; echo $?)
expect_equal "pipe: output and status" "$right" "$said"
expect_equal "pipe: the report" read "$(cat pipe.log)"
expect_equal "pipe: the trace of --trace" same "$(cmp -s from-pipe whole && echo same)"
pass keeps --quantum 10 --table back --report r -- ./kinds >/dev/null 2>&1
expect_equal "pipe: the table of --trace" same "$(cmp -s back whole.table && echo same)"
expect_equal "pipe: the report's file" read "$(cat r)"
# (valgrind itself keeps the words of the call in a file, for a moment)
said=$(ulimit -f 1; pass counts -- ./counters 2>&1)
expect_part "pipe: no file has it" "sum 80000" "$said"
expect_between "pipe: all goes through" 1000000 3000000 "$(tail -n 1 <<<"$said")"
piped() { # MODE STATUS END OUTPUT
    local said status
    rm -f from-pipe
    # (a mode may be two words)
    # shellcheck disable=SC2086
    said=$(echo hello | pass keeps -- ./odd $1 2>o.log)
    status=$?
    expect_equal "pipe: $1: status" "$2" "$status"
    expect_equal "pipe: $1: end" "$3" "$("$judge" end from-pipe 2>&1)"
    expect_equal "pipe: $1: output" "$4" "$said"
    expect_part "pipe: $1: the report" read "$(cat o.log)"
}
piped kill 137 part "" 2>/dev/null
piped fault 139 part "" 2>/dev/null
piped abort 134 part "" 2>/dev/null
piped fork 6 "exit 6" "child
parent 0"
piped system 6 "exit 6" "system 3"
piped childless 6 "exit 6" "no child"
piped exec 0 part "another program"
piped close 6 "exit 6" closed
piped large 6 part large
piped detached 9 "exit 9" ""
piped main-ends 0 "exit 0" ""
piped limit 6 "exit 6" limited
piped input 6 "exit 6" hello
piped "many 300" 6 part "many 300"
rm -f vgcore.*
# (it closes standard error too, and the report's place is the launcher's)
said=$(pass keeps -- ./odd closeall 2>&1; echo $?)
expect_equal "pipe: closes all" "read
6" "$said"
said=$(pass dies -- ./odd close 2>&1; echo $?)
expect_part "pipe: the replay is killed" "the replay ended with status 137" "$said"
expect_part "pipe: the replay is killed: the trace" "the trace's pipe: Broken pipe" "$said"
expect_part "pipe: the replay is killed: the program goes on" "closed" "$said"
expect_equal "pipe: the replay is killed: status" 6 "$(tail -n 1 <<<"$said")"
said=$(pass refuses -- ./odd close 2>&1; echo $?)
expect_part "pipe: the replay refuses" "refused" "$said"
expect_part "pipe: the replay refuses: its status" "the replay ended with status 4" "$said"
expect_equal "pipe: the replay refuses: status" 6 "$(tail -n 1 <<<"$said")"
said=$(pass unbuilt -- ./counters 2>&1; echo $?)
expect_part "pipe: no predator" "doesn't run" "$said"
expect_equal "pipe: no predator: status" 126 "$(tail -n 1 <<<"$said")"
said=$(pass nowhere -- ./counters 2>&1; echo $?)
expect_equal "pipe: predator isn't there" 126 "$(tail -n 1 <<<"$said")"
mkdir -p disk
if mount -t tmpfs -o size=64k tmpfs disk 2>/dev/null; then
    head -c 100000 /dev/zero >disk/full 2>/dev/null
    said=$(pass keeps --table disk/table --report disk/r -- ./counters 2>&1; echo $?)
    expect_part "pipe: a full disk" "No space left on device" "$said"
    expect_equal "pipe: a full disk: status" 0 "$(tail -n 1 <<<"$said")"
    expect_equal "pipe: a full disk: end" "exit 0" "$("$judge" end from-pipe)"
    umount disk
else
    skip_checks 1 "pipe: a full disk: no file system can be mounted"
fi
rm -f from-pipe
PREDATOR=$work/keeps "$run" -- ./odd endless >/dev/null 2>pipe.log &
pid=$!
longer from-pipe 3000000
read -ra below <"/proc/$pid/task/$pid/children"
for child in "${below[@]}"; do
    if tr '\0' ' ' <"/proc/$child/cmdline" | grep -q '/odd endless $'; then kill -9 "$child"; fi
done
wait $pid 2>/dev/null
expect_equal "pipe: killed" "137 part" "$? $("$judge" end from-pipe)"
expect_between "pipe: killed: accesses" 300000 1000000000 "$("$judge" accesses from-pipe)"

# The second way, the instructions of accesses, and how all ends that is ended.
. "$here/tries/built.sh"
. "$here/tries/turns.sh"
. "$here/tries/pcs.sh"
. "$here/tries/nameless.sh"
. "$here/tries/ends.sh"
. "$here/tries/switch.sh"
. "$here/tries/child.sh"
. "$here/tries/core.sh"
. "$here/tries/again.sh"
. "$here/tries/others.sh"

# The report, where the proved program is built.
PREDATOR_BUILD=no "$here/../bin/predator" >/dev/null 2>&1
if [ $? = 1 ]; then
    export PREDATOR_BUILD=no
    said=$("$run" --report r -- ./counters 2>r.log)
    expect_equal "report: output" "sum 80000" "$said"
    expect_part "report" "object symbol counters " "$(cat r)"
    expect_equal "report: its last line" end "$(tail -n 1 r)"
    expect_equal "report on standard error" "same" "$("$run" -- ./counters 2>&1 >/dev/null | cmp -s - r && echo same)"
    expect_equal "report: by the launcher" "same" "$("$here/../bin/predator" native -- ./counters 2>&1 >/dev/null | cmp -s - r && echo same)"
    "$run" --trace t -- ./counters >/dev/null 2>&1
    expect_equal "report: that of the trace" "same" "$("$here/../bin/predator" replay t | cmp -s - r && echo same)"
    expect_part "apart: no line" "lines 0" "$("$run" -- ./apart 2>&1)"
    expect_part "blocks: a line of the source" "heap.c:13" "$("$run" -- ./heap 2>&1 | grep "^where ")"
    expect_part "blocks: a line of the source, built" "heap.c:13" "$("$run" --built -- ./heap.tsan 2>&1 | grep "^where ")"
    "$run" --report r --settings nowhere -- ./counters >r.out 2>r.log
    expect_equal "no settings: refused" 125 "$?"
    expect_part "no settings" "nowhere: No such file" "$(cat r.log)"
    head -c 100000 t >cut.t
    expect_part "a cut trace" "Truncated 100000" "$("$here/../bin/predator" replay cut.t 2>&1)"
    "$run" --mend cut.t >/dev/null
    expect_part "a cut trace, mended" "outcome part" "$("$here/../bin/predator" replay cut.t 2>&1)"
    expect_part "killed by itself: a report" "outcome part" "$("$run" -- ./odd kill 2>&1)"
    # The examples of guest/ by the second way, beside their builds for RV32.
    mkdir guest
    if setarch -R true 2>/dev/null; then
        while read -r line; do
            expect_part "guest: ${line%%:*}" ", the same" "$line"
        done < <("$here/tries/guest.py" guest 2>&1)
    else
        skip_checks 1 "guest's examples: the system doesn't let memory lie where it lay"
    fi
    # The commands of docs/NATIVE.md.
    if /usr/bin/python3 -c 'import elftools, jinja2' 2>/dev/null && command -v llvm-symbolizer llvm-dwarfdump >/dev/null; then
        mkdir docs
        while read -r line; do
            expect_part "docs" ": as it stands there" "$line"
        done < <("$here/tries/docs.py" docs 2>docs.log)
        cat docs.log
    else
        skip_checks 1 "docs: the packages of view aren't installed (Debian: python3-pyelftools python3-jinja2 llvm)"
    fi
else
    skip_checks 1 "reports, docs, and guest's examples: the program isn't built (bin/predator builds it)"
    export PREDATOR_PROGRAM=$here/../view/tests/stand_in.py STAND_IN_LACKS=place
fi

# `view` with the names of the program, over the program or what stands for it.
if /usr/bin/python3 -c 'import elftools, jinja2' 2>/dev/null && command -v llvm-symbolizer llvm-dwarfdump >/dev/null; then
    view() { PYTHONDONTWRITEBYTECODE=1 "$here/../bin/predator" view "$@" 2>&1; }
    "$run" --quantum 1000 --most 60000 --trace t -- ./counters >/dev/null 2>&1
    said=$(echo "report = 10" >few; view replay t --settings few --words --explain 0)
    expect_part "view: an object" "counters" "$said"
    expect_part "view: a field" "counters[1].count" "$said"
    # (enough misses for a repair to be named)
    "$run" --quantum 100 --most 60000 --trace u -- ./counters >/dev/null 2>&1
    expect_part "view: its type" "its own line: struct __attribute__((aligned(64))) own (counters.c:" "$(view replay u --settings few --explain 0 | tr -s '\n ' ' ')"
    "$run" --trace h -- ./heap
    said=$(view replay h --explain 0)
    expect_part "view: a block" "block made at heap.c:13 < main" "$said"
    "$run" --built --trace b -- ./heap.tsan
    expect_part "view: a block, built" "block made at heap.c:13 < main" "$(view replay b --explain 0)"
    expect_part "view: a block's fields" ".sum" "$(view replay h --explain 0 --type heap.c:13=tally --words)"
    # (another program's may have the report's pages by chance)
    for other in b t u; do
        expect_part "view: the address map of another trace, $other" "isn't the address map of this report" "$(view replay h --map $other.table --explain 0)"
    done
    # (that of a recorder which doesn't say how many accesses its trace has)
    grep -v "^end " h.table >same.table
    expect_equal "view: an address map without its end" "" "$(view replay h --map same.table --explain 0 | grep "isn't the address map")"
    for other in b t; do
        grep -v "^end " $other.table >other.table
        sed -n '/^0x/p' h.table >>other.table
        expect_part "view: an address map of the report's pages, $other" "isn't the address map of this report" "$(view replay h --map other.table --explain 0)"
    done
    said=$(view replay t --map few)
    expect_equal "view: no table: status" 2 "$?"
    expect_part "view: no table" "few isn't an address map" "$said"
    expect_part "view: a table that isn't there" "No such file" "$(view replay t --back nowhere)"
    expect_part "view: a run has no table" "'--map' applies to" "$(view run x --back t.table)"
    # Misses at the beginning of windows, which are the same once redundant accesses are left out.
    gcc -O1 -g -pthread "$here/tries/spans.c" -o spans
    first=()
    for way in --whole --filtered; do
        said=$(view native $way --windows 10K/1M --explain 0 ./spans -- 500000 | tr -s '\n ' ' ')
        expect_part "view: windows $way: their number" "5 parts of the run, each of which begins with cold misses" "$said"
        first+=("$(grep -o "[0-9,]* of these misses are a thread's first access of a line in a part" <<<"$said")")
    done
    expect_part "view: windows: misses at their beginning" "of these misses are" "${first[0]}"
    expect_equal "view: windows: the same, filtered" "${first[0]}" "${first[1]}"
    # What ends a call that records ends the program, and its screen is shown; an interrupt comes to the program from the terminal.
    for number in TERM HUP INT; do
        mkdir view-$number
        TMPDIR=$work/view-$number PYTHONDONTWRITEBYTECODE=1 setsid env --default-signal "$here/../bin/predator" view native --whole --most 100000000 -- ./forever >said 2>&1 &
        pid=$!
        for _ in $(seq 1 100); do
            trace=$(echo view-$number/predator-view-*/trace)
            if [ -e "$trace" ]; then break; fi
            sleep 0.1
        done
        longer "$trace" 3000000
        if [ $number = INT ]; then kill -s INT -- -$pid; else kill -s $number $pid; fi
        wait $pid
        expect_equal "view: $number: status" 0 $?
        expect_part "view: $number: the screen" "  counts" "$(cat said)"
        expect_equal "view: $number: nothing is left" "" "$(left_over "$work/forever"; ls view-$number)"
    done
    . "$here/tries/names.sh"
    . "$here/tries/stages.sh"
    . "$here/tries/perf.sh"
    . "$here/tries/jit.sh"
    . "$here/tries/bad.sh"
else
    skip_checks 1 "view: its packages aren't installed (Debian: python3-pyelftools python3-jinja2 llvm)"
fi

finish_checks
