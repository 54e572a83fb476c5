# shellcheck shell=bash
# Part of native/try.sh, which reads it: tries that a busy machine changes no order.
#
# (try.sh sets the names that aren't set here)
# shellcheck disable=SC2154

gcc -O1 -g -pthread "$here/tries/again.c" -o again

# Two programs that take every processor time after time, while the same is recorded again and again.
busy() {
    local pids=() it
    for it in 1 2; do
        (while :; do :; done) &
        pids+=($!)
    done
    "$@"
    kill "${pids[@]}"
    wait "${pids[@]}" 2>/dev/null
}
three_times() { # QUANTUM PROGRAM
    for it in 1 2 3; do "$run" --quantum "$1" --trace same$it -- "$2" >/dev/null 2>&1; done
}
for row in "10 ./kinds" "1 ./again" "10 ./again" "1000 ./again"; do
    read -r quantum name <<<"$row"
    busy three_times "$quantum" "$name"
    expect_equal "$name at $quantum, busy: the same trace" "same same" "$(cmp -s same1 same2 && echo same) $(cmp -s same1 same3 && echo same)"
    expect_equal "$name at $quantum, busy: the same table" same "$(cmp -s same1.table same3.table && echo same)"
done

rm -f t t.table same* from-pipe said
