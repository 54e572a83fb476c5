# shellcheck shell=bash
# Part of native/try.sh, which reads it: tries allocators that take the place of the C library's, and the threads of Go and Java.
#
# (try.sh sets the names that aren't set here)
# shellcheck disable=SC2154

gcc -O1 -g -shared -fPIC -fno-builtin "$here/tries/bump.c" -o bump.so
four="24 live 24 live 24 live 24 live"
for row in "libjemalloc.so.2 libjemalloc2" "libtcmalloc_minimal.so.4 libtcmalloc-minimal4" "libmimalloc.so.2 libmimalloc2.0" "./bump.so -"; do
    read -r library package <<<"$row"
    if [ "$package" != - ]; then library=$(ldconfig -p | awk -v name="$library" '$1 == name { print $NF; exit }'); fi
    if [ -z "$library" ]; then
        skip_checks 1 "an allocator by LD_PRELOAD: there is no $package (Debian)"
        continue
    fi
    LD_PRELOAD=$library "$run" --trace t -- ./heap >/dev/null 2>&1
    expect_equal "$library by LD_PRELOAD: status" 0 $?
    expect_equal "$library by LD_PRELOAD: blocks" "$four" "$("$judge" blocks t make)"
done

# One that is linked in, and programs that load no libraries.
gcc -O1 -g -pthread -fno-builtin "$here/tries/heap.c" "$here/tries/bump.c" -o heap.bump
"$run" --trace t -- ./heap.bump
expect_equal "an allocator that is linked in: blocks" "$four" "$("$judge" blocks t make)"
for own in "" bump.c; do
    # shellcheck disable=SC2086
    if ! gcc -O1 -g -pthread -static -fno-builtin "$here/tries/heap.c" ${own:+"$here/tries/$own"} -o heap.static 2>gcc.log; then
        skip_checks 1 "-static${own:+ with an allocator of its own}: it can't be linked here"
        continue
    fi
    said=$("$run" --trace t -- ./heap.static 2>&1; echo $?)
    expect_part "-static $own: it says so" "so its blocks weren't seen" "$said"
    expect_equal "-static $own: status" 0 "$(tail -n 1 <<<"$said")"
    expect_equal "-static $own: no blocks" "" "$("$judge" blocks t make)"
    expect_between "-static $own: accesses" 48000 60000 "$("$judge" accesses t)"
done

# Goroutines go by threads of the system.
if command -v go >/dev/null; then
    GOCACHE=$work/go GO111MODULE=off CGO_ENABLED=0 go build -o goroutines "$here/tries/goroutines.go" >go.log 2>&1 || cat go.log
    said=$("$run" --trace t -- ./goroutines 2>go.log; echo $?)
    expect_equal "Go: output and status" "sum 80000 0" "${said//
/ }"
    expect_equal "Go: end" "exit 0" "$("$judge" end t)"
    expect_between "Go: a word's reads" 20000 20100 "$("$judge" word t main.counts 8 | cut -d ' ' -f 1)"
else
    skip_checks 1 "Go: there is no go (Debian: golang-go)"
fi
# (where it starts, a virtual machine for Java has a hundred million accesses)
if { command -v java && command -v javac; } >/dev/null; then
    cp "$here/tries/Sums.java" .
    javac Sums.java
    said=$("$run" --most 100000 --trace t -- "$(readlink -f "$(type -P java)")" -Xint -XX:+UseSerialGC Sums 2>java.log; echo $?)
    expect_equal "Java: output and status" "sum 8000 0" "${said//
/ }"
    expect_equal "Java: accesses" "100000 part" "$("$judge" accesses t) $("$judge" end t)"
else
    skip_checks 1 "Java: there is no java, or no javac (Debian: default-jdk)"
fi
rm -f t t.table
