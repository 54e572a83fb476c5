# shellcheck shell=bash
# Part of native/try.sh, which reads it: tries the second way, programs that are compiled with -fsanitize=thread and linked with the runtime.
#
# (try.sh sets the names that aren't set here)
# shellcheck disable=SC2154

for name in counters kinds odd locks heap; do
    gcc -O1 -g -fsanitize=thread -pthread "$here/tries/$name.c" -o $name.tsan -L"$here/out/lib" 2>gcc.log || cat gcc.log
done
for row in "1 79900 80000" "10 15900 16100" "100 1590 1620" "1000 155 170"; do
    read -r quantum least most <<<"$row"
    expect_equal "built: counters at $quantum" "sum 80000" "$("$run" --built --quantum "$quantum" --trace t -- ./counters.tsan 2>&1)"
    expect_between "built: takings at $quantum" "$least" "$most" "$("$judge" taken t counters)"
done
expect_equal "built: a word's accesses" "10000 10000 1" "$("$judge" word t counters 4)"
back "built: the address map" t counters.tsan
for it in 1 2 3; do said=$("$run" --built --trace same$it -- ./kinds.tsan 2>&1; echo $?); done
expect_equal "built: kinds" "$right" "$said"
if setarch -R true 2>/dev/null; then
    expect_equal "built: the same trace" "same same" "$(cmp -s same1 same2 && echo same) $(cmp -s same1 same3 && echo same)"
else
    skip_checks 1 "built: the same trace: the system doesn't let memory lie where it lay"
fi
for quantum in 1 100; do
    expect_equal "built: locks at $quantum" "$sums" "$("$run" --built --quantum $quantum --trace t -- ./locks.tsan 2>&1)"
done
expect_equal "built: an atomic is one write" "0 4000 4" "$("$judge" word same1 added 0)"
rm -f same*
built() { # MODE STATUS END OUTPUT
    local said status
    # (a mode may be two words)
    # shellcheck disable=SC2086
    said=$(echo hello | "$run" --built --trace o -- ./odd.tsan $1 2>o.log)
    status=$?
    expect_equal "built: $1: status" "$2" "$status"
    expect_equal "built: $1: end" "$3" "$("$judge" end o)"
    expect_equal "built: $1: output" "$4" "$said"
}
built kill 137 part "" 2>/dev/null
built fault 139 part "" 2>/dev/null
built abort 134 part "" 2>/dev/null
built catch 6 "exit 6" caught
built vfork 6 "exit 6" "vfork 3"
built system 6 "exit 6" "system 3"
built childless 6 "exit 6" "no child"
built exec 0 part "another program"
built close 6 part closed
expect_part "built: close says so" "the program closed the trace" "$(cat o.log)"
built closeall 6 "exit 6" ""
built large 6 part large
built block 6 "exit 6" block
built detached 9 "exit 9" ""
built main-ends 0 "exit 0" ""
built churn 6 "exit 6" churned
built signals 6 "exit 6" ""
built limit 6 "exit 6" limited
built input 6 "exit 6" hello
built "many 300" 6 part "many 300"
built "many 255" 6 "exit 6" "many 255"
expect_equal "built: fork" "6 child parent 0" "$("$run" --built --trace o -- ./odd.tsan fork >o.out 2>&1; echo "$? $(sort o.out | paste -s -d ' ')")"
said=$(ulimit -f 1500; "$run" --built --trace t -- ./odd.tsan limit 2>&1)
expect_equal "built: a limit: status" 6 "$?"
expect_part "built: a limit" "t: File too large" "$said"
expect_equal "built: a limit: end" part "$("$judge" end t)"
if mount -t tmpfs -o size=1500k tmpfs disk 2>/dev/null; then
    said=$("$run" --built --trace disk/t -- ./odd.tsan limit 2>&1)
    expect_equal "built: a full disk: status" 6 "$?"
    expect_part "built: a full disk" "disk/t: No space left on device" "$said"
    expect_equal "built: a full disk: end" part "$("$judge" end disk/t)"
    umount disk
else
    skip_checks 1 "built: a full disk: no file system can be mounted"
fi
refused "built: not there" 127 "there is no such program" --built --trace t -- ./nowhere
refused "built: not executable" 126 "may not be executed" --built --trace t -- ./gcc.log
refused "built: set-user-id" 126 "another user's" --built --trace t -- ./owned
refused "built: not linked so" 126 "wasn't linked with" --built --trace t -- ./counters
refused "built: marks" 125 "has no marks" --built --marked -- ./counters.tsan
refused "built: the trace can't be written" 125 "No such file or directory" --built --trace no/where -- ./counters.tsan

# Other ways to make threads and to wait for them. What waits in a call that the runtime doesn't know loses its turn.
waits="begun 1 counted 4 busy 4 late 3 sum 46 waited 1"
hands="sum 12000"
cxx="sum 2200 read 1200 late 1 woken 4 ready 1 futures 8 7"
if command -v g++ >/dev/null; then
    g++ -std=c++20 -O1 -g -pthread "$here/tries/cxx.cpp" -o cxx 2>gcc.log || cat gcc.log
    g++ -std=c++20 -O1 -g -fsanitize=thread -pthread "$here/tries/cxx.cpp" -o cxx.tsan -L"$here/out/lib" 2>gcc.log || cat gcc.log
    expect_equal "C++" "$cxx" "$("$run" --trace t -- ./cxx 2>&1)"
    expect_equal "built: C++" "$cxx" "$(timeout 120 "$run" --built --trace t -- ./cxx.tsan 2>&1)"
else
    skip_checks 1 "C++: there is no g++"
fi
for name in c11 asleep; do
    gcc -O1 -g -pthread "$here/tries/$name.c" -o $name 2>gcc.log || cat gcc.log
    gcc -O1 -g -fsanitize=thread -pthread "$here/tries/$name.c" -o $name.tsan -L"$here/out/lib" 2>gcc.log || cat gcc.log
done
expect_equal "C11" "$waits" "$("$run" --trace t -- ./c11 2>&1)"
expect_equal "built: C11" "$waits" "$(timeout 120 "$run" --built --trace t -- ./c11.tsan 2>&1)"
expect_equal "built: C11: a word's accesses" "2000 2000 1" "$("$judge" word t counters 4)"
expect_equal "calls that wait" "$hands" "$("$run" --trace t -- ./asleep 2>&1)"
expect_equal "built: calls that wait" "$hands" "$(timeout 120 "$run" --built --trace t -- ./asleep.tsan 2>&1)"
expect_equal "built: calls that wait: a word's accesses" "3000 3000 1" "$("$judge" word t counters 4)"
expect_equal "built: calls that wait: end" "exit 0" "$("$judge" end t)"
for kind in WORD QUEUE; do
    gcc -O1 -g -D$kind -fsanitize=thread -pthread "$here/tries/spins.c" -o spins.tsan -L"$here/out/lib"
    expect_equal "built: a lock that isn't seen ($kind)" "sums 5000 5000" "$(timeout 120 "$run" --built --trace t -- ./spins.tsan 2>&1)"
    expect_equal "built: a lock that isn't seen ($kind): a word's accesses" "5000 5000 1" "$("$judge" word t sums 4)"
done
gcc -O1 -shared -fPIC "$here/tries/early.c" -o libearly.so
printf 'int early_done(void);\nint main(void) { return early_done() ? 5 : 1; }\n' >early.c
gcc -fsanitize=thread early.c -o early.tsan -L. -learly -Wl,-rpath,"$work" -L"$here/out/lib"
expect_equal "built: a library that is there before" 5 "$(timeout 120 "$run" --built --trace t -- ./early.tsan 2>&1; echo $?)"

# Compiled by clang.
if command -v clang >/dev/null; then
    for name in counters kinds odd locks heap; do
        clang -O1 -g -fsanitize=thread -mllvm -tsan-instrument-read-before-write=1 -c "$here/tries/$name.c" -o $name.o 2>gcc.log &&
            clang -pthread $name.o -o $name.clang -L"$here/out/lib" -ltsan 2>gcc.log || cat gcc.log
    done
    expect_equal "clang: counters" "sum 80000" "$("$run" --built --trace t -- ./counters.clang 2>&1)"
    expect_between "clang: takings" 1590 1620 "$("$judge" taken t counters)"
    expect_equal "clang: a word's accesses" "10000 10000 1" "$("$judge" word t counters 4)"
    for it in 1 2 3; do said=$("$run" --built --trace same$it -- ./kinds.clang 2>&1; echo $?); done
    expect_equal "clang: kinds" "$right" "$said"
    expect_equal "clang: an atomic is one write" "0 4000 4" "$("$judge" word same1 added 0)"
    if setarch -R true 2>/dev/null; then
        expect_equal "clang: the same trace" "same same" "$(cmp -s same1 same2 && echo same) $(cmp -s same1 same3 && echo same)"
    else
        skip_checks 1 "clang: the same trace: the system doesn't let memory lie where it lay"
    fi
    rm -f same*
    expect_equal "clang: locks" "$sums" "$("$run" --built --trace t -- ./locks.clang 2>&1)"
    expect_equal "clang: killed" "137 part" "$("$run" --built --trace t -- ./odd.clang kill >/dev/null 2>&1; echo $? "$("$judge" end t)")"
else
    skip_checks 1 "what clang compiles: there is no clang"
fi

built_pipe() {
    rm -f from-pipe
    said=$(pass keeps --built --table back -- "./$1.tsan" "${@:2}" 2>o.log; echo $?)
}
built_pipe kinds
expect_equal "built: pipe: output and status" "$right" "$said"
expect_equal "built: pipe: end" "exit 7" "$("$judge" end from-pipe)"
expect_equal "built: pipe: the table's program" "program $PWD/kinds.tsan" "$(head -n 1 back)"
built_pipe odd kill 2>/dev/null
expect_equal "built: pipe: killed" "137 part" "$said $("$judge" end from-pipe)"
said=$(pass dies --built -- ./odd.tsan limit 2>&1; echo $?)
expect_part "built: pipe: the replay is killed" "the replay ended with status 137" "$said"
expect_part "built: pipe: the replay is killed: the program goes on" "limited" "$said"
expect_equal "built: pipe: the replay is killed: status" 6 "$(tail -n 1 <<<"$said")"
built_pipe odd childless
expect_equal "built: pipe: childless" "no child 6" "${said//
/ }"
