# shellcheck shell=bash
# Part of native/try.sh, which reads it: tries of bad places and bad programs. (A script, 32 bits, another user's rights and a static program are
# tried there.)
#
# (try.sh sets the names that aren't set here)
# shellcheck disable=SC2154

gcc -g -O1 -pthread "$here/tries/bad.c" -o bad
launcher=$here/../bin/predator
# Where TMPDIR is no place for files: all words that make one say so in one line, before the program runs.
no_place() { # NAME FOLDER REASON
    local words
    for words in "--trace b" ""; do
        # (the words of a row)
        # shellcheck disable=SC2086
        expect_equal "TMPDIR $1, $words" "predator native: TMPDIR is $2, where no file can be made: $3
125" "$(TMPDIR=$2 "$launcher" native $words -- ./bad 2>&1; echo $?)"
    done
    said=$(TMPDIR=$2 "$launcher" view ./bad 2>&1; echo $?)
    expect_part "TMPDIR $1, view" "where no file can be made: $3" "$said"
    expect_equal "TMPDIR $1, view: status" 2 "${said##*$'\n'}"
}
no_place missing "$work/nowhere" "No such file or directory"
no_place "a file" "$work/bad.log" "No such file or directory"
mkdir small
if mount -t tmpfs -o size=256k tmpfs small 2>/dev/null; then
    said=$(TMPDIR=$work/small "$launcher" view --quantum 1 ./counters 2>&1)
    expect_part "TMPDIR small: view" "counters.c:" "$said"
    expect_part "TMPDIR small: view says what ended" "half of what was free on the disk" "$said"
    head -c 300k /dev/zero >small/full 2>/dev/null
    said=$(TMPDIR=$work/small "$launcher" view ./bad 2>&1; echo $?)
    expect_part "TMPDIR full: view takes another folder" "hits: long int[2], bad.c:12" "$said"
    expect_equal "TMPDIR full: native needs none" "3" "$(TMPDIR=$work/small "$launcher" native --report b -- ./bad 2>/dev/null; echo $?)"
    expect_equal "TMPDIR small: nothing is left" full "$(ls small)"
    rm small/full
    mount -o remount,ro small
    no_place read-only "$work/small" "Read-only file system"
    umount small
else
    skip_checks 8 "TMPDIR small: no file system can be mounted"
fi
# Two calls at once don't meet.
"$run" --trace b1 -- ./bad &
"$run" --trace b2 -- ./bad &
wait
expect_equal "two at once" "exit 3 exit 3" "$("$judge" end b1) $("$judge" end b2)"
expect_equal "two at once: the same trace" same "$(cmp -s b1 b2 && echo same)"
# A program that deletes its folder and itself.
mkdir own && cp bad own
said=$(cd own && "$run" --trace ../b1 -- ./bad folder 2>/dev/null; echo $?)
expect_equal "its folder is gone" "gone
3" "$said"
expect_equal "its folder is gone: end" "exit 3" "$("$judge" end b1)"
mkdir own && cp bad own
expect_part "its folder is gone: view says so" "own/bad: No such file or directory" "$(cd own && "$launcher" view ./bad -- folder 2>&1)"
# One that deletes all in it, where the trace or TMPDIR are.
delete_all() { # WORDS OF THE LAUNCHER ..
    mkdir -p own/tmp && cp bad own
    (cd own && TMPDIR=$PWD/tmp "$launcher" "$@" 2>../b.log; echo $?)
}
expect_equal "its TMPDIR is gone" "gone
3" "$(delete_all native --trace ../b1 -- ./bad all)"
expect_equal "its TMPDIR is gone: end" "exit 3" "$("$judge" end b1)"
expect_equal "its TMPDIR is gone: it says nothing" "" "$(cat b.log)"
expect_equal "its TMPDIR is gone: through a pipe" "gone
3" "$(KEPT=$work/b1 PREDATOR=$work/keeps delete_all native --report ../b2 -- ./bad all)"
expect_equal "its TMPDIR is gone: through a pipe: the report" end "$(tail -n 1 b2)"
expect_equal "its trace is gone" "gone
3" "$(delete_all native --trace b1 -- ./bad all)"
expect_equal "its trace is gone: it is said" \
    "predator native: b1: the file was deleted while the program ran, so the trace is lost" "$(cat b.log)"
for words in "" "--trace b1"; do
    # (the words of a row)
    # shellcheck disable=SC2086
    expect_equal "its trace is gone: view $words: status" 2 "$(delete_all view native $words ./bad -- all)"
    expect_part "its trace is gone: view $words says so" "this folder was deleted while the program ran, and the trace with it" "$(cat b.log)"
done
expect_equal "its folder is gone: nothing is left" "" "$(ls -d own 2>/dev/null)"
# A script, and one with another user's rights.
printf '#!/bin/sh\n' >b.sh
cp bad b.owned
chmod +x b.sh
chmod u+s b.owned
expect_part "view of a script" "./b.sh: this is a script; name the program that runs it, as \`-- bash ./b.sh\`" "$("$launcher" view native ./b.sh 2>&1)"
expect_part "view of another user's rights" "./b.owned: it runs with another user's or group's rights" "$("$launcher" view native ./b.owned 2>&1)"
# One of 32 bits, by itself and as a child.
if printf 'void _start(void) { __asm__ volatile("int $0x80" : : "a"(1), "b"(3)); }\n' >b.c &&
    gcc -m32 -O1 -nostdlib -static -ffreestanding -fno-pie -no-pie b.c -o b.32 2>/dev/null && { ./b.32; [ $? = 3 ]; }; then
    refused "32 bits: a whole one" 126 "this is no program for x86-64" --trace b1 -- ./b.32
    expect_equal "32 bits: as a child" "3
sum 80000
5 exit 0" "$("$run" --child --trace b1 -- "$(type -P bash)" -c './b.32; echo $?; ./counters; exit 5'; echo "$? $("$judge" end b1)")"
    expect_equal "32 bits: another child is recorded" "10000 10000 1" "$("$judge" word b1 counters 4)"
else
    skip_checks 3 "32 bits: gcc -m32 makes none here, or the system runs none"
fi
if gcc -static-pie -O1 -g -pthread "$here/tries/counters.c" -o b.static 2>/dev/null; then
    expect_part "static-pie" "loads no libraries" "$("$run" --trace b1 -- ./b.static 2>&1)"
    expect_equal "static-pie: a word's accesses" "10000 10000 1" "$("$judge" word b1 counters 4)"
else
    skip_checks 2 "static-pie: it can't be linked here"
fi
# Two calls of view at once.
mkdir both
TMPDIR=$work/both "$launcher" view native --explain 0 ./counters >b.one 2>&1 &
TMPDIR=$work/both "$launcher" view native --explain 0 ./counters >b.two 2>&1
wait
expect_part "two of view at once" "counters" "$(cat b.one)"
expect_equal "two of view at once: the same screen" "" "$(diff b.one b.two)"
expect_equal "two of view at once: nothing is left" "" "$(ls both)"
# One that forks for ever ends with its launcher.
timeout 6 "$run" --trace b1 -- "$work/bad" forks >/dev/null 2>&1
expect_equal "forks: end" part "$("$judge" end b1)"
timeout 6 "$run" --child --trace b1 -- "$work/bad" forks >/dev/null 2>&1
sleep 1
expect_equal "forks: nothing is left" "" "$(pgrep -f "$work/bad forks")"
# One whose children do so too, as many as its user may have. (What root starts has no such bound.)
if [ "$(id -u)" = 0 ] && setpriv --reuid=65534 --regid=65534 --clear-groups prlimit --nproc=20 -- true 2>/dev/null; then
    mkdir nobody && cp bad nobody
    chmod 755 . && chmod 777 nobody
    for number in TERM KILL; do
        TMPDIR=$work/nobody setpriv --reuid=65534 --regid=65534 --clear-groups prlimit --nproc=20 -- \
            "$run" --child --trace nobody/b -- "$work/nobody/bad" bomb >b.log 2>&1 &
        pid=$!
        sleep 3
        kill -s $number $pid
        wait $pid 2>/dev/null
        status=$?
        expect_equal "forks everywhere: $number: status" $((128 + $(kill -l $number))) $status
        expect_equal "forks everywhere: $number: nothing is left" "" "$(left_over "$work/nobody/bad")"
    done 2>/dev/null
else
    skip_checks 4 "forks everywhere: only root may try it as another user"
fi
rm -rf b b.* b1* b2* own small both nobody
