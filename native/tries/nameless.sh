# shellcheck shell=bash
# Part of native/try.sh, which reads it: tries what the address map says of memory without an object, in both ways.
#
# (try.sh sets the names that aren't set here)
# shellcheck disable=SC2154

gcc -O1 -g -pthread "$here/tries/nameless.c" -o nameless
gcc -O1 -g -fsanitize=thread -pthread "$here/tries/nameless.c" -o nameless.tsan -L"$here/out/lib"

# Which rows of a table have an address that the program prints, as their kinds and what they say; `where` has a line of it.
rows_of() { # TABLE WHERE
    local kind from to rest
    while read -r kind from to rest; do
        if [ "$kind" = stack ] || [ "$kind" = file ]; then
            ((from <= $2 && $2 < to)) && echo "$kind $rest"
        fi
    done <"$1" | paste -s -d ,
}
each_row() { # NAME ADDRESSES
    while read -r kind where thread; do
        case $kind in
            stack) expect_equal "$1: a stack" "stack $thread" "$(rows_of t.table "$where")" ;;
            file) expect_equal "$1: a mapped file" "file $PWD/data file" "$(rows_of t.table "$where")" ;;
            plain) expect_equal "$1: other memory" "" "$(rows_of t.table "$where")" ;;
        esac
    done <<<"$2"
    expect_equal "$1: each has one row" 4 "$(grep -c -e '^stack ' -e '^file ' t.table)"
}
for it in "" --built; do
    program=./nameless${it:+.tsan}
    each_row "nameless${it:+, built}" "$("$run" ${it:+"$it"} --trace t -- "$program")"
    last=$("$run" ${it:+"$it"} --trace t -- "$program" block | sed -n 's/^stack \(.*\) 2$/\1/p')
    expect_equal "a stack that is a block${it:+, built}" "" "$(rows_of t.table "$last")"
done
"$run" --trace t -- ./counters >/dev/null 2>&1
expect_equal "stacks of eight threads, and the first" "$(seq -s ' ' 0 8)" "$(sed -n 's/^stack .* //p' t.table | paste -s -d ' ')"
rm -f t t.table
