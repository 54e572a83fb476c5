# shellcheck shell=bash
# Part of native/try.sh, which reads it: tries code that the program makes, by the map that it may write for perf.
#
# (try.sh sets the names that aren't set here)
# shellcheck disable=SC2154

gcc -O1 -g -pthread "$here/tries/jit.c" -o jit
said=$("$run" --quantum 10 --trace j -- ./jit 2>/dev/null)
expect_part "made code: its map" "/tmp/perf-" "$said"
rm -f "$said"
expect_equal "made code: its name" "/tmp/add.js:3 LazyCompile:~add" "$(awk '/LazyCompile/ { print $3, $4 }' j.table | sort -u)"
expect_equal "made code: instructions with one row" 0 "$("$judge" unnamed j)"
expect_part "made code: view" "add.js:3 (LazyCompile:~add) invalidates add.js:3" "$("$here/../bin/predator" view replay j --no-predicted 2>&1)"
"$run" --quantum 10 --filtered --trace f -- ./jit >said 2>/dev/null
rm -f "$(cat said)"
expect_equal "made code: filtered" "$(grep -c ^frame j.table)" "$(grep -c ^frame f.table)"
"$run" --quantum 10 --trace j -- ./jit none >/dev/null 2>&1
expect_equal "made code: no map" "" "$(grep 'LazyCompile' j.table)"
expect_part "made code: no map: view" "(code_at_0x" "$("$here/../bin/predator" view replay j --no-predicted 2>&1)"
rm -f j j.table f f.table said
