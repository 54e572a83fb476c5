# shellcheck shell=bash
# Part of native/try.sh, which reads it: tries that a filtered trace has the bytes that the whole trace has once it is filtered by the definition.
#
# (try.sh sets the names that aren't set here)
# shellcheck disable=SC2154

by_definition=$here/../tools/judge_filter.py
expect_part "filtered: the judge by itself" ", 0 failed" "$("$by_definition" --check 300)"
gcc -O1 -g -pthread "$here/tries/again.c" -o again
gcc -O1 -g -pthread "$here/tries/looks.c" -o looks
# (the names of the traces have one length: they stand in the environment, behind the stack)
# A busy machine may give another trace of the same program. Where the two differ, both are recorded again, and once more whole: what two whole
# recordings differ in says nothing.
same_filtered() { # NAME NEAR OPTIONS PROGRAM ..: both recordings print the same, and end with the same status
    local name="filtered $1" near=$2 said filtered_said status _
    local -a options
    read -ra options <<<"$3"
    shift 3
    for _ in 1 2 3; do
        said=$("$run" "${options[@]}" --trace w -- "$@" 2>/dev/null)
        status=$?
        filtered_said=$("$run" "${options[@]}" "--filtered=$near" --trace f -- "$@" 2>/dev/null; echo $? >f.status)
        "$by_definition" w defined --near "$near" >f.log
        cmp -s f defined && break
        "$run" "${options[@]}" --trace v -- "$@" >/dev/null 2>&1
        cmp -s v w && break
    done
    if ! cmp -s f defined && ! cmp -s v w; then
        skip_checks 5 "$name: the program makes another trace each time on this machine now"
        return
    fi
    expect_equal "$name: output" "$said" "$filtered_said"
    expect_equal "$name: status" "$status" "$(cat f.status)"
    expect_equal "$name: the same bytes" same "$(cmp -s f defined && echo same)"
    expect_equal "$name: the same address map" same "$(cmp -s <(grep -v ^end f.table) <(grep -v ^end w.table) && echo same)"
    expect_equal "$name: how many" "filter $("$judge" whole f) $("$judge" accesses f)" "$(cat f.log)"
}
rows='64|--quantum 3|./kinds
64|--quantum 20|./looks
128|--quantum 3|./looks
4096|--quantum 7|./looks
16384|--quantum 100|./looks
256|--all|./kinds
4096||./kinds
4096|--all|./heap
4096|--most 100001|./kinds
8192||./wide
4096|--marked|./marked
512|--all|./odd catch
1024|--all --most 300000|./odd churn
4096||./odd kill
2048|--quantum 10|./again'
while IFS='|' read -r near options command; do
    # (the words of a row)
    # shellcheck disable=SC2086
    same_filtered "$command, $near $options" "$near" "$options" $command 2>/dev/null
done <<<"$rows"
if [ -x static ]; then same_filtered "./static, 4096" 4096 --all ./static; fi
"$run" --filtered --trace f -- ./kinds >/dev/null 2>&1
"$run" --filtered=4096 --trace defined -- ./kinds >/dev/null 2>&1
expect_equal "filtered: 4096 is usual" same "$(cmp -s f defined && echo same)"
for name in counters kinds; do
    if gcc -O1 -g -fsanitize=thread -pthread "$here/tries/$name.c" -o $name.tsan -L"$here/out/lib" 2>gcc.log; then
        for near in 64 4096 65536; do same_filtered "built $name, $near" $near --built ./$name.tsan; done
    else
        skip_checks 12 "filtered, built: $(head -1 gcc.log)"
    fi
done

# All misses stay, whatever the layout, as the program counts them.
if [ "${1:-}" != --short ]; then
    misses() { "$here/../bin/predator" misses "$@" | sed '/^accesses/d; s/ born.*//'; }
    for command in "./kinds" "./again"; do
        "$run" --quantum 10 --trace w -- $command >/dev/null 2>&1
        "$run" --quantum 10 --filtered --trace f -- $command >/dev/null 2>&1
        "$judge" plain f f.plain
        for layout in "--size 16 --shift 4" "--size 64" "--size 256 --shift 32" "--size 1024 --shift 512"; do
            # (the words of a row)
            # shellcheck disable=SC2086
            expect_equal "filtered $command, $layout: the same misses" "$(misses w $layout)" "$(misses f.plain $layout)"
        done
    done
fi

# A cut one, and one that ends for a lack of room.
"$run" --filtered=64 --quantum 3 --trace f -- ./kinds >/dev/null 2>&1
head -c 100000 f >cut.t
expect_part "filtered: mended" "how many were left out isn't known" "$("$run" --mend cut.t)"
expect_equal "filtered: mended: end" "part yes" "$("$judge" end cut.t) $([ "$("$judge" whole cut.t)" = "$("$judge" accesses cut.t)" ] && echo yes)"
"$run" --filtered=64 --quantum 1 --max-disk 1M --trace f -- ./odd close >/dev/null 2>&1
expect_equal "filtered: --max-disk" part "$("$judge" end f)"
expect_equal "filtered: a refused one without pcs" "125" "$("$run" --filtered --no-pcs --trace f -- ./odd 2>/dev/null; echo $?)"
for word in --filtered=32 --filtered=131072 --filtered=100 --filtered=; do
    expect_part "filtered: $word" "is a power of two from 64 to 65536" "$("$run" $word --trace f -- ./odd 2>&1)"
done
expect_part "filtered: without a trace" "'--filtered' is for '--trace'" "$("$run" --filtered -- ./odd 2>&1)"
rm -f f f.* v v.* w w.* defined defined.* cut.t
