# shellcheck shell=bash
# Part of native/try.sh, which reads it: tries of recordings of a part of a run.
#
# (try.sh sets the names that aren't set here)
# shellcheck disable=SC2154

gcc -O1 -g -pthread "$here/tries/spans.c" -o spans
span() { # NAME OUTPUT END LEAST MOST SPANS OPTIONS ..: what it prints, and its trace's end, accesses, and beginnings
    local name="a part: $1" said=$2 end=$3 least=$4 most=$5 spans=$6
    shift 6
    expect_equal "$name: output" "$said" "$(timeout 100 "$run" "$@" --trace p -- ./spans 500000 2>p.log)"
    expect_equal "$name: end" "$end" "$("$judge" end p) $(awk '$1 == "end" { word = $3 } END { print word }' p.table)"
    expect_between "$name: accesses" "$least" "$most" "$("$judge" whole p)"
    expect_equal "$name: where recording begins" "$spans" "$(grep -c ^resume p.table)"
}
# (the program has 4 million accesses, and some of its libraries)
sum="sum 2000000"
span "by accesses" "$sum" "part most" 100000 100000 1 --skip 2M --for 100K
span "its rest" "$sum" "exit 0 exit" 900000 1100000 1 --skip 3M
expect_part "a part: it is said" "a part of the run was recorded: " "$(cat p.log)"
span "behind the end" "$sum" "exit 0 exit" 0 0 0 --skip 1G
span "windows" "$sum" "exit 0 exit" 40000 52000 5 --windows 10K/1M
span "windows, filtered" "$sum" "exit 0 exit" 40000 52000 5 --windows 10K/1M --filtered
span "windows behind a skip" "$sum" "exit 0 exit" 20000 31000 3 --skip 2M --windows 10K/1M
span "paused" "$sum" "exit 0 exit" 0 0 0 --paused
# (both end windows where a turn ends)
"$run" --windows 10K/1M --trace p -- ./spans 500000 >/dev/null 2>&1
"$run" --windows 10K/1M --filtered --trace f -- ./spans 500000 >/dev/null 2>&1
"$here/../tools/judge_filter.py" p defined --parts p.table >/dev/null
expect_equal "a part: windows, filtered: the same bytes, each part by itself" same "$(cmp -s f defined && echo same)"
timeout 20 "$run" --quantum 1 --skip 500ms --for 300ms --trace p -- ./spans 1000 ever >/dev/null 2>p.log
expect_equal "a part: by time" "part for" "$("$judge" end p) $(awk '$1 == "end" { word = $3 } END { print word }' p.table)"
expect_between "a part: by time: accesses" 1000 100000000 "$("$judge" accesses p)"
# SIGUSR2 switches recording on and off.
"$run" --quantum 1 --paused --trace p -- ./spans 1000 ever >/dev/null 2>p.log &
pid=$!
sleep 2
for _ in 1 2 3; do
    kill -USR2 $pid
    sleep 0.7
done
kill $pid
wait $pid 2>/dev/null
expect_equal "a part: by signals" "part 2" "$("$judge" end p) $(grep -c ^resume p.table)"
expect_between "a part: by signals: accesses" 1000 100000000 "$("$judge" accesses p)"
for word in 1x 0 10h s ""; do
    expect_equal "a part: --skip '$word'" 125 "$("$run" --skip "$word" --trace p -- ./spans 1 >/dev/null 2>&1; echo $?)"
done
for word in 1M 1M/1M 2M/1M x/1M 1M/; do
    expect_part "a part: --windows $word" "as 1M/100M, and not '$word'" "$("$run" --windows "$word" --trace p -- ./spans 1 2>&1)"
done
expect_part "a part: --for and --most" "two ways" "$("$run" --for 1M --most 5 --trace p -- ./spans 1 2>&1)"
expect_part "a part: --built" "the whole run is recorded" "$("$run" --built --skip 1s --trace p -- ./spans 1 2>&1)"
rm -f p p.* f f.* defined
