# shellcheck shell=bash
# Part of native/try.sh, which reads it: tries what is recorded with --child, and that nothing of it is left running.
#
# (try.sh sets the names that aren't set here)
# shellcheck disable=SC2154

gcc -O1 -g -pthread "$here/tries/child.c" -o child
gcc -O1 -g -pthread -DMARKS "$here/tries/child.c" -o child.marked
forked() { # MODE OUTPUT END: the program's status is 4, and the trace ends as the child did
    local said
    # (a mode may have a program behind it)
    # shellcheck disable=SC2086
    said=$("$run" --child --trace o -- ./child $1 2>o.log; echo $?)
    expect_equal "--child: $1: output and status" "$2 4" "${said//
/ }"
    expect_equal "--child: $1: it says nothing" "" "$(cat o.log)"
    expect_equal "--child: $1: end" "$3" "$("$judge" end o)"
}
forked threads "child 3" "exit 3"
expect_equal "--child: a word's accesses" "20000 20000 1" "$("$judge" word o of_child 4)"
forked both "child 3" "exit 3"
expect_equal "--child: the program's own threads aren't recorded" "0 0 0" "$("$judge" word o own 4)"
expect_equal "--child: its child's are" "20000 20000 1" "$("$judge" word o of_child 4)"
forked several "child 3" "exit 3"
expect_equal "--child: one of several" "20000 20000 1" "$("$judge" word o of_child 4)"
forked thread "child 3" "exit 3"
expect_equal "--child: beside other threads" "20000 20000 1" "$("$judge" word o of_child 4)"
forked daemon "child 0" "exit 3"
forked signal "child 13" "exit 13"
forked kill "child -9" part
forked "exec ./counters" "sum 80000 child 0" "exit 0"
expect_equal "--child: what it becomes: a word's accesses" "10000 10000 1" "$("$judge" word o counters 4)"
back "--child: what it becomes: the address map" o counters
expect_equal "--child: what it becomes: the table's program" "program $PWD/counters" "$(sed -n '1s|/\./|/|p' o.table)"
expect_equal "--child: a shell's program" "5 exit 0 10000 10000 1" \
    "$("$run" --child --trace o -- "$(type -P bash)" -c './counters >/dev/null; exit 5'; echo "$? $("$judge" end o) $("$judge" word o counters 4)")"
# (what runs with another user's rights runs without the tool)
printf '#!%s\n./owned; echo "owned $?"\n./counters\n' "$(type -P bash)" >calls
chmod +x calls
forked "exec ./calls" "owned 6 sum 80000 child 0" "exit 0"
"$run" --child --trace o -- ./child threads >/dev/null 2>&1
"$run" --child --all --trace whole -- ./child threads >/dev/null 2>&1
expect_between "--child --all has what one thread does" "$(($("$judge" accesses o) + 100))" 10000000 "$("$judge" accesses whole)"
"$run" --child --marked --trace o -- ./child.marked threads >/dev/null 2>&1
expect_equal "--child --marked" "20000 20000 1" "$("$judge" word o of_child 4)"
said=$("$run" --child --trace o -- ./counters 2>&1; echo $?)
expect_part "--child: none" "no process that the program started had two threads" "$said"
expect_equal "--child: none: status" 0 "$(tail -n 1 <<<"$said")"
expect_equal "--child: none: the trace" "0 exit 0" "$("$judge" accesses o) $("$judge" end o)"
refused "--child of what is built" 125 "no child is recorded" --built --child -- ./odd.tsan
refused "--child: the trace can't be written" 125 "the trace can't be written" --child --trace no/where -- ./odd

# Through the pipe, without a file.
# (words of the environment move the stack; the pipe has no instructions)
PREDATOR=$work/keeps "$run" --child --no-pcs --trace whole -- ./child threads >/dev/null 2>&1
said=$(pass keeps --child -- ./child threads 2>o.log; echo $?)
expect_equal "--child: pipe: output, status and report" "child 3 4 read" "${said//
/ } $(cat o.log)"
expect_equal "--child: pipe: the trace of --trace" same "$(cmp -s from-pipe whole && echo same)"
# Neither the program is left, nor its child, nor what outlives the program.
for mode in endless orphan; do
    for number in TERM KILL; do
        rm -f from-pipe
        PREDATOR=$work/keeps "$run" --child --report r -- "$work/child" $mode >said 2>&1 &
        pid=$!
        longer from-pipe 1100000
        kill -s $number $pid
        wait $pid 2>/dev/null
        status=$?
        expect_equal "--child: $mode: $number: nothing is left" "" "$(left_over "$work/child ")"
        [ "$mode $number" = "orphan TERM" ] || expect_equal "--child: $mode: $number: status" $((128 + $(kill -l $number))) $status
        [ "$mode $number" != "orphan TERM" ] || expect_equal "--child: $mode: $number: status" 4 $status
        for _ in $(seq 1 50); do if [ -s r ]; then break; fi; sleep 0.1; done
        expect_equal "--child: $mode: $number: the report" read "$(cat r)"
        expect_equal "--child: $mode: $number: end" part "$("$judge" end from-pipe)"
    done
done
rm -f o o.table whole* from-pipe said r
