# shellcheck shell=bash
# Part of native/try.sh, which reads it: tries that SIGUSR2 begins and ends recording while a program is busy, and whenever else it comes.
#
# (try.sh sets the names that aren't set here)
# shellcheck disable=SC2154

gcc -O1 -g -pthread "$here/tries/spans.c" -o spans
launcher=$here/../bin/predator
# Waits until the launcher, which has just been started, holds the signal back for the program.
holds_back() { # PROCESS
    local blocked
    for _ in $(seq 1 500); do
        blocked=$(awk '$1 == "SigBlk:" { print $2 }' "/proc/$1/status" 2>/dev/null)
        if [ $((16#${blocked:-0} & 16#800)) != 0 ]; then return; fi
        sleep 0.01
    done
}
# Sends the signal again and again until the process is gone, which is killed after a minute and a half.
flip() { # PROCESS SECONDS
    local end=$((SECONDS + 90))
    while [ $SECONDS -lt $end ]; do
        kill -USR2 "$1" 2>/dev/null || return
        sleep "$2"
    done
    kill -9 "$1"
}

# While several threads are busy, and new ones come: the program does and says what it does alone, and the trace is whole.
switched() { # NAME OUTPUT STATUS END SECONDS WORDS ..
    local name="switched: $1" output=$2 status=$3 end=$4 each=$5
    shift 5
    "$launcher" native "$@" >said 2>s.log &
    pid=$!
    holds_back $pid
    flip $pid "$each"
    wait $pid
    expect_equal "$name: status" "$status" $?
    expect_equal "$name: output" "$output" "$(cat said)"
    expect_equal "$name: end" "$end" "$("$judge" end p)"
}
for each in 0.002 0.02 0.1; do
    switched "busy threads, each $each s" "sum 2000000" 0 "exit 0" "$each" --quantum 10 --trace p -- ./spans 500000
    switched "locks, each $each s" "$sums" 0 "exit 0" "$each" --quantum 3 --trace p -- ./locks
    switched "threads that come and go, each $each s" churned 6 "exit 6" "$each" --trace p -- ./odd churn
done
expect_between "switched: parts" 1 1000000 "$(grep -c ^resume p.table)"
switched "filtered, busy threads" "sum 2000000" 0 "exit 0" 0.01 --quantum 10 --filtered --trace p -- ./spans 500000
switched "with windows" "sum 2000000" 0 "exit 0" 0.02 --windows 10K/100K --trace p -- ./spans 500000
switched "exact accesses" "${right%$'\n'*}" 7 "exit 7" 0.03 --trace p -- ./kinds 2>/dev/null

# A server is recorded for a moment, and goes on.
rm -f p p.table
"$launcher" native --quantum 1 --paused --trace p -- ./spans 1000 ever >said 2>&1 &
pid=$!
holds_back $pid
sleep 1
kill -USR2 $pid
longer p 1100000
kill -USR2 $pid
sleep 0.5
size=$(stat -c %s p)
sleep 0.5
expect_equal "switched: a server: nothing is recorded any more" "$size" "$(stat -c %s p)"
expect_equal "switched: a server: it goes on" 1 "$(pgrep -c -f "spans 1000 ever$" -P $pid)"
# (ten at once are one or several)
for _ in 1 2 3 4 5 6 7 8 9 10; do kill -USR2 $pid; done
sleep 0.3
kill $pid
wait $pid
expect_equal "switched: a server: status and end" "143 part" "$? $("$judge" end p)"
expect_between "switched: a server: parts" 1 6 "$(grep -c ^resume p.table)"

# Before the program runs the signal isn't lost.
rm -f p p.table
"$launcher" native --quantum 1 --paused --trace p -- ./spans 1000 ever >said 2>&1 &
pid=$!
holds_back $pid
kill -USR2 $pid
longer p 1100000
kill $pid
wait $pid
expect_equal "switched before it runs: parts" "143 1" "$? $(grep -c ^resume p.table)"

# Once the program has ended, and while its trace is counted, it changes nothing.
printf '#!/bin/sh\n[ $# -gt 0 ] || exit 1\ncat >"$KEPT"\ntouch came\nsleep 2\necho read\n' >slow
chmod +x slow
rm -f came
KEPT=$work/from-pipe PREDATOR=$work/slow "$run" -- ./counters >said 2>&1 &
pid=$!
for _ in $(seq 1 600); do if [ -e came ]; then break; fi; sleep 0.1; done
for _ in 1 2 3; do kill -USR2 $pid; done
wait $pid
expect_equal "switched once it has ended: status" 0 $?
expect_equal "switched once it has ended: output and report" "sum 80000
read" "$(cat said)"

# Where recording can't be switched it is said, once, and the program goes on.
for way in --built --child; do
    program=./counters
    if [ $way = --built ]; then
        program=./counters.tsan
        [ -x $program ] || { skip_checks 2 "switched, --built: it can't be compiled here"; continue; }
    fi
    "$launcher" native $way --quantum 1 --trace p -- $program 8 30000 >said 2>s.log &
    pid=$!
    holds_back $pid
    flip $pid 0.05
    wait $pid
    expect_equal "switched, $way: status and output" "0 sum 240000" "$? $(cat said)"
    expect_equal "switched, $way: it is said once" 1 "$(grep -c "SIGUSR2 does nothing here" s.log)"
done
rm -f p p.table said s.log slow came from-pipe
