# shellcheck shell=bash
# Part of native/try.sh, which reads it: tries traces that have each access's instruction, in both ways.
#
# (try.sh sets the names that aren't set here)
# shellcheck disable=SC2154

gcc -O1 -g -pthread "$here/tries/sites.c" -o sites
gcc -O1 -g -fsanitize=thread -pthread "$here/tries/sites.c" -o sites.tsan -L"$here/out/lib"
inlined="bump sites.c:10 < work sites.c:22"
for name in counters sites; do
    "$run" --no-pcs --trace t -- ./$name >/dev/null 2>&1
    "$run" --trace p -- ./$name >/dev/null 2>&1
    expect_equal "pcs: $name: the same without them" alike "$("$judge" alike p t)"
    expect_equal "pcs: $name: each has one row" 0 "$("$judge" unnamed p)"
done
expect_equal "pcs: a line, and what is inlined there" "work sites.c:10 < $inlined" "$("$judge" sites p counts 4)"
expect_equal "no pcs: they have no rows" 0 "$(grep -c "^frame " t.table)"
row=$(grep "^site .* make - .*/sites+0x" t.table)
expect_part "a call in another section" "sites.c:15" "$(addr2line -e sites "${row##*+}")"
strip sites -o bare
"$run" --trace p -- ./bare >/dev/null 2>&1
expect_part "pcs: stripped: the file and the place in it" "/bare+0x" "$(grep "^site .* - - " p.table)"
expect_part "pcs: stripped: a library's function" " start_thread " "$(grep "^site .*/libc.so.6+0x" p.table)"
"$run" --quantum 10 --trace p -- ./kinds >/dev/null 2>&1
expect_between "pcs: bytes for 100 accesses" 300 550 "$("$judge" each p)"
(export KEPT=$work/from-pipe && pass keeps --pcs --table back --quantum 10 -- ./counters >/dev/null 2>&1)
expect_equal "pcs: through the pipe" "exit 0 3" "$("$judge" end from-pipe) $(head -c 8 from-pipe | tail -c 1)"
expect_equal "pcs: through the pipe: the table" same "$(grep -q '^site .*/counters.c:.*/counters+0x' back && echo same)"
for at in 20 1000 14871 14872 14873 14874 14875 14876 14877 500003; do
    head -c $at p >cut.t
    expect_part "pcs: mended at $at" "where it ends now" "$("$run" --mend cut.t)"
    expect_equal "pcs: mended at $at: end" part "$("$judge" end cut.t)"
    expect_equal "pcs: mended at $at: in the pipe" same "$(head -c $at p | "$here/out/mend" - | cmp -s - cut.t && echo same)"
done
cp p kept
expect_part "pcs: a whole one stays" "it stays as it is" "$("$run" --mend kept)"
expect_equal "pcs: a whole one stays: its bytes" same "$(cmp -s kept p && echo same)"
refused "pcs: a mend" 125 "stands alone" --mend p --pcs
refused "pcs: a mend without" 125 "stands alone" --mend p --no-pcs
refused "pcs: both" 125 "two ways to say what an access has" --pcs --no-pcs --trace p -- ./counters
expect_equal "pcs: the versions" "3 3 1" "$(for words in "" --pcs --no-pcs; do "$run" ${words:+$words} --trace v -- ./counters >/dev/null 2>&1; head -c 8 v | tail -c 1; done | sed 's/./& /g; s/ $//')"

for name in counters sites; do
    "$run" --built --no-pcs --trace t -- ./$name.tsan >/dev/null 2>&1
    "$run" --built --pcs --trace p -- ./$name.tsan >/dev/null 2>&1
    if setarch -R true 2>/dev/null; then
        expect_equal "built: pcs: $name: the same without them" alike "$("$judge" alike p t)"
    fi
    expect_equal "built: pcs: $name: each has one row" 0 "$("$judge" unnamed p)"
done
expect_equal "built: pcs: a function" "work -" "$("$judge" sites p counts 4)"
found=$(sed -n 's/^site .* work .*\/sites.tsan+//p' p.table | addr2line -s -i -f -e sites.tsan | paste -s -d ' ')
expect_part "built: pcs: a line, and what is inlined there" "${inlined/ </}" "$found"
expect_part "built: a call in another section" " make " "$(grep "^site .* make .*/sites.tsan+0x" t.table)"
rm -f p p.table t t.table kept bare
