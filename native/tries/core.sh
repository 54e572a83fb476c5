# shellcheck shell=bash
# Part of native/try.sh, which reads it: tries what valgrind itself can't do for a program, or does otherwise than the system.
#
# (try.sh sets the names that aren't set here)
# shellcheck disable=SC2154

gcc -O1 -g -pthread "$here/tries/core.c" -o core
gcc -O1 -g -pthread "$here/tries/long.c" -o long
odd_core() { # MODE STATUS OUTPUT [PART]: what the program prints and ends with; standard error has the part, or nothing
    local said
    said=$(timeout 120 "$run" --trace o -- ./core "$1" 2>o.log)
    expect_equal "core: $1: status" "$2" $?
    expect_equal "core: $1: output" "$3" "$said"
    if [ -n "${4:-}" ]; then expect_part "core: $1: it is said" "$4" "$(cat o.log)"; fi
}
# (threads with real-time priorities, which the lock of turns once kept waiting for ever)
if chrt -f 1 true 2>/dev/null; then
    odd_core priorities 3 "sum 4000"
    expect_equal "core: priorities: a word's accesses" "1000 1000 1" "$("$judge" word o counts 0)"
    timeout 120 "$run" --trace same -- ./core priorities >/dev/null 2>&1
    expect_equal "core: priorities: end" "exit 3" "$("$judge" end same)"
else
    skip_checks 4 "core: priorities: this user may not set any"
fi
odd_core twice 0 "sum 15" "is mapped to be written and to be run"
odd_core limits 3 "0: 256 256"
odd_core exec 6 one
expect_equal "core: exec: end" part "$("$judge" end o)"
expect_equal "core: exec: the address map says why" exec "$(awk '$1 == "end" { word = $3 } END { print word }' o.table)"
odd_core forks 4 "one
child 6"
expect_equal "core: forks: end" "exit 4" "$("$judge" end o)"
expect_equal "core: forks, --child: the child is recorded" "exit 6" "$("$run" --child --trace o -- ./core forks >/dev/null 2>&1; "$judge" end o)"
odd_core words 3 "./core -"
expect_equal "core: words: by PATH" "core -" "$(PATH=$PWD:$PATH "$run" --trace o -- core words 2>/dev/null)"
expect_equal "core: words: the program's path" "program $PWD/core" "$(sed -n 1p o.table)"
expect_equal "core: words: the launcher's own variable" "./core -" "$("$here/../bin/predator" native --trace o -- ./core words 2>/dev/null)"
expect_equal "core: words: the caller's own variable" "./core glibc.malloc.check=0" \
    "$(GLIBC_TUNABLES=glibc.malloc.check=0 "$here/../bin/predator" native --trace o -- ./core words 2>/dev/null)"
odd_core eights 132 "" "it is one of AVX-512" 2>/dev/null
odd_core large 3 refused "asks for 100 GiB of addresses at once"
odd_core calls 3 "-1
-1
-1" "valgrind doesn't know the system call 430"
expect_equal "core: calls: said once, in a line" 1 "$(grep -c -v "no access was recorded" o.log)"
refused "no program by PATH" 127 "\`-- ./core\` is the one in this folder" --trace o -- core
rm -f o o.* same same.table vgcore.*

# How far a recording is stands on a terminal alone.
"$run" --trace o -- ./long >shown 2>&1
expect_equal "progress: only on a terminal" "sum 600000" "$(cat shown)"
gcc -O1 -g -pthread "$here/tries/forever.c" -o forever
for way in "" --filtered "--skip 1s"; do
    # (the words of a row)
    # shellcheck disable=SC2086
    said=$("$here/tries/progress.py" 2 "$run" --quantum 10 $way --trace o -- ./forever)
    expect_between "progress $way: on a terminal" 1 9 "$(sed -n 's/^shown //p' <<<"$said")"
    expect_equal "progress $way: from the second second on, and gone in the end" "later rises cleared" "$(sed -n 2,4p <<<"$said" | tr '\n' ' ' | sed 's/ $//')"
done

# Why a recording ended stands in its address map.
why() { awk '$1 == "end" { word = $3 } END { print word }' "$1.table"; }
"$run" --trace o -- ./counters >/dev/null 2>&1
expect_equal "end: exit" "exit $("$judge" accesses o)" "$(awk '$1 == "end" { print $3, $2 }' o.table)"
"$run" --most 1000 --trace o -- ./odd >/dev/null 2>&1
expect_equal "end: --most" most "$(why o)"
"$run" --trace o -- ./odd many 300 >/dev/null 2>&1
expect_equal "end: threads" threads "$(why o)"
"$run" --trace o -- ./odd large >/dev/null 2>&1
expect_equal "end: addresses" addresses "$(why o)"
"$run" --trace o -- ./odd kill >/dev/null 2>&1
expect_equal "end: it kills itself" signal "$(why o)"
"$run" --trace o -- ./odd abort >/dev/null 2>&1
expect_equal "end: a signal" signal "$(why o)"

# The trace takes no more of a disk than it may, and the program goes on.
for row in "1024K 1048576" "1500K 1536000" "2M 2097152" "2000000 2000000"; do
    read -r size most <<<"$row"
    said=$("$run" --max-disk "$size" --trace o -- ./odd close 2>o.log; echo $?)
    expect_equal "--max-disk $size: output and status" "closed
6" "$said"
    expect_part "--max-disk $size: it is said" "as many as --max-disk allows: the trace ends here" "$(cat o.log)"
    expect_equal "--max-disk $size: end" "part max-disk" "$("$judge" end o) $(why o)"
    expect_between "--max-disk $size: both files" $((most / 2)) "$most" $(($(stat -c %s o) + $(stat -c %s o.table)))
done
"$run" --trace whole -- ./counters >/dev/null 2>&1
"$run" --max-disk 1M --trace o -- ./counters >/dev/null 2>&1
expect_equal "--max-disk: what isn't longer is the same" same "$(cmp -s o whole && echo same)"
gcc -O1 -g -fsanitize=thread -pthread "$here/tries/long.c" -o long.tsan -L"$here/out/lib"
said=$("$run" --built --max-disk 1M --trace o -- ./long.tsan 2>o.log; echo $?)
expect_equal "--built --max-disk: output and status" "sum 600000
0" "$said"
expect_equal "--built --max-disk: end" "part max-disk" "$("$judge" end o) $(why o)"
refused "--max-disk without a trace" 125 "'--max-disk' is for '--trace'" --max-disk 1M -- ./odd
refused "--max-disk 0" 125 "'--max-disk' is a number of bytes" --max-disk 0 --trace o -- ./odd
refused "--max-disk 1023K" 125 "'--max-disk' is a number of bytes" --max-disk 1023K --trace o -- ./odd
refused "--max-disk 1T" 125 "'--max-disk' is a number of bytes" --max-disk 1T --trace o -- ./odd
rm -f o o.* shown whole whole.table
