# shellcheck shell=bash
# Part of native/try.sh, which reads it: tries that threads of the runtime hand on their turn alike with and without the kernel, and that nothing hangs
# where they have real-time priorities, or one processor.
#
# (try.sh sets the names that aren't set here)
# shellcheck disable=SC2154

gcc -O1 -g -fsanitize=thread -pthread "$here/tries/fifo.c" -o fifo.tsan -L"$here/out/lib"
first=$(taskset -cp $$ | sed 's/.*: //; s/[-,].*//')
for threads in 2 4 40; do
    for quantum in 1 10 100; do
        timeout -s KILL 120 "$run" --built --quantum $quantum --trace free -- ./counters.tsan $threads 3000 >/dev/null 2>&1
        expect_equal "turns: $threads threads at $quantum: end" "exit 0" "$("$judge" end free 2>&1)"
        timeout -s KILL 120 taskset -c "$first" "$run" --built --quantum $quantum --trace one -- ./counters.tsan $threads 3000 >/dev/null 2>&1
        expect_equal "turns: $threads threads at $quantum on one processor: end" "exit 0" "$("$judge" end one 2>&1)"
        if setarch -R true 2>/dev/null; then
            expect_equal "turns: $threads threads at $quantum: the same trace" same "$(cmp free one 2>&1 && echo same)"
        else
            skip_checks 1 "turns: the same trace: the system doesn't let memory lie where it lay"
        fi
    done
done
for on in "" "taskset -c $first"; do
    # (they are no word or three)
    # shellcheck disable=SC2086
    said=$(timeout -s KILL 120 $on "$run" --built --quantum 3 --trace t -- ./fifo.tsan 2>/dev/null)
    expect_equal "turns: real-time priorities${on:+ on one processor}" "sum 8000" "$said"
done

# Most turns are handed on without a sleep where two processors are free: by how often all that the call started has slept.
cat >sleeps.py <<'PY'
import resource, subprocess, sys
subprocess.run(sys.argv[1:], stdout=subprocess.DEVNULL, check=True)
print(resource.getrusage(resource.RUSAGE_CHILDREN).ru_nvcsw)
PY
slept=100000000
for _ in 1 2 3 4 5 6 7 8; do
    # (40,000 turns)
    now=$(python3 sleeps.py timeout -s KILL 120 "$run" --built --quantum 10 --trace t -- ./counters.tsan 2 100000 2>/dev/null)
    [ "${now:-$slept}" -ge "$slept" ] || slept=$now
    [ "$slept" -ge 20000 ] || break
done
read -r _ _ _ running _ </proc/loadavg
if [ "$slept" -lt 20000 ] || [ "$(nproc)" -gt $((1 + ${running%/*})) ]; then
    expect_between "turns: most threads don't sleep between two turns" 0 20000 "$slept"
else
    skip_checks 1 "turns: threads that don't sleep between two turns: no two processors are free"
fi
rm -f t t.table free free.table one one.table
