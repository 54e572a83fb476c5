# shellcheck shell=bash
# Part of native/try.sh, which reads it: tries what a signal, a killed launcher and refused words leave.
#
# (try.sh sets the names that aren't set here)
# shellcheck disable=SC2154

gcc -O1 -g -pthread "$here/tries/forever.c" -o forever
gcc -O1 -g -fsanitize=thread -pthread "$here/tries/forever.c" -o forever.tsan -L"$here/out/lib"
export KEPT=$work/from-pipe
# (one that has ended has no words any more, though it may not be waited for)
living() { pgrep -f "$1"; }
# Waits until nothing of it is left, ten seconds at most, and says what is.
left_over() { # PROGRAM
    for _ in $(seq 1 50); do
        if [ -z "$(living "$1")" ]; then return; fi
        sleep 0.2
    done
    living "$1"
}
for way in "" --built; do
    program=$work/forever${way:+.tsan}
    rm -f from-pipe
    # (as `timeout` does it, once there is something to report)
    PREDATOR=$work/keeps setsid "$run" ${way:+"$way"} -- "$program" >said 2>&1 &
    pid=$!
    longer from-pipe 1100000
    kill -s TERM -- -$pid
    wait $pid 2>/dev/null
    expect_equal "${way}TERM to all: status and report" "143 read" "$? $(cat said)"
    expect_equal "${way}TERM to all: end" part "$("$judge" end from-pipe)"
    expect_between "${way}TERM to all: accesses" 1000 10000000000 "$("$judge" accesses from-pipe)"
    expect_equal "${way}TERM to all: nothing is left" "" "$(left_over "$work/forever")"
    # (it hands a signal on as it does once its time is over)
    rm -f from-pipe r
    PREDATOR=$work/keeps timeout 600 "$run" ${way:+"$way"} --report r -- "$program" >said 2>&1 &
    pid=$!
    longer from-pipe 1100000
    kill $pid
    wait $pid 2>/dev/null
    expect_equal "${way}timeout: status and report" "143 read" "$? $(cat r)"
    expect_equal "${way}timeout: end" part "$("$judge" end from-pipe)"
    expect_equal "${way}timeout: nothing is left, and nothing said" "" "$(left_over "$work/forever")$(cat said)"
    for number in TERM HUP KILL; do
        rm -f from-pipe r
        PREDATOR=$work/keeps "$run" ${way:+"$way"} --report r -- "$program" >said 2>&1 &
        pid=$!
        longer from-pipe 1100000
        kill -s $number $pid
        wait $pid 2>/dev/null
        status=$?
        expect_equal "$way$number to the launcher: nothing is left" "" "$(left_over "$work/forever")"
        expect_equal "$way$number to the launcher: status" $((128 + $(kill -l $number))) $status
        for _ in $(seq 1 50); do if [ -s r ]; then break; fi; sleep 0.1; done
        expect_equal "$way$number to the launcher: the report" read "$(cat r)"
        expect_equal "$way$number to the launcher: end" part "$("$judge" end from-pipe)"
        expect_equal "$way$number to the launcher: it says nothing" "" "$(cat said)"
    done
done
"$run" --built --trace t -- "$work/forever.tsan" &
pid=$!
longer t 1100000
kill $pid
wait $pid 2>/dev/null
expect_between "built: TERM: what isn't a whole piece is written too" 1 131071 $(($("$judge" accesses t) % 131072))
expect_equal "no line of the shell's" "read" "$(pass keeps -- ./odd kill 2>&1)"
expect_equal "built: no line of the shell's" "read" "$(pass keeps --built -- ./odd.tsan kill 2>&1)"
expect_equal "signals are as they were" "$(env --default-signal grep SigIgn /proc/self/status)" \
    "$(env --default-signal env PREDATOR="$work/keeps" "$run" -- "$(type -P grep)" SigIgn /proc/self/status 2>/dev/null)"
printf '#!/bin/sh\n[ $# -gt 0 ] || exit 1\n[ $# -gt 2 ] && echo "predator: no such words" >&2 && exit 1\ncat >/dev/null\n' >strict
chmod +x strict
for words in "--size 5" "--settings nowhere"; do
    # (they are two)
    # shellcheck disable=SC2086
    said=$(pass strict $words -- "$(type -P touch)" made 2>&1; echo $?)
    expect_equal "$words: refused" "predator native: no such words
125" "$said"
    expect_equal "$words: the program doesn't run" "" "$(if [ -e made ]; then echo it did; fi)"
done
touch few
refused "the report is the settings' file" 125 "this is the settings' file" --report few --settings few -- ./odd
rm -f t t.table from-pipe
