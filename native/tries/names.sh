# shellcheck shell=bash
# Part of native/try.sh, which reads it: tries what `predator view` calls the variables, fields, types and call sites of C++ and Rust.
#
# (try.sh sets the names that aren't set here)
# shellcheck disable=SC2154

printf '#include <stdlib.h>\nstatic __attribute__((noinline)) void *made(void) { void *it = malloc(64); __asm__("" : "+r"(it)); return it; }\nvoid *bare_make(void) { void *it = made(); __asm__("" : "+r"(it)); return it; }\n' >bare.c
gcc -O1 -shared -fPIC bare.c -o libbare.so && strip libbare.so
names() { # COMPILER PROGRAM OPTION: the two files of names.cpp
    "$1" -std=c++20 -O1 "$3" -c "$here/tries/names.cpp" -o first.o && "$1" -std=c++20 -O1 "$3" -DHIDDEN -c "$here/tries/names.cpp" -o second.o &&
        "$1" -pthread first.o second.o -o "$2" -L. -lbare -Wl,-rpath,"$work"
}
if command -v g++ >/dev/null && names g++ names -g; then
    "$run" --trace n -- ./names
    said=$(view replay n --words --explain 0 --top 30 --json n.json)
    for it in "in_function::local[1].hits" "app::detail::slots[1].hits" "app::Pool::shared[1].misses" "app::detail::Table<..>::own[1].hits"; do
        expect_part "names: $it" "$it" "$said"
    done
    expect_equal "names: a number of 8 bytes is whole" "" "$(grep -o "hits[._A-Za-z]*+4" <<<"$said" | head -n 1)"
    expect_part "names: code without a name" "block made in libbare.so+0x" "$said"
    # (enough misses for repairs to be named)
    "$run" --quantum 5 --trace m -- ./names
    expect_part "names: a type" "its own line: struct __attribute__((aligned(64))) Slot (names.cpp:" "$(view replay m --explain 0 --top 30 | tr -s '\n ' ' ')"
    expect_part "names: whole in JSON" "app::detail::Table<std::__cxx11::basic_string<char,std::char_traits<char>,std::allocator<char> >" "$(cat n.json)"
    declared=$(python3 -c 'import json, sys; print(*{it["declared"]["line"] for it in json.load(sys.stdin)["objects"] if it["name"] == "app::Pool::shared"})' <n.json)
    expect_equal "names: a definition" "$(grep -n "^detail::Slot Pool::shared" "$here/tries/names.cpp" | cut -d: -f1)" "$declared"
    lease=$(grep -n "Pool::lease() {" "$here/tries/names.cpp" | cut -d: -f1) made=$(grep -n "make_hidden() {" "$here/tries/names.cpp" | cut -d: -f1)
    said=$(view replay n --words --explain 0 --top 30 --type "names.cpp:$lease=app::detail::Slot" --type "names.cpp:$made=hidden")
    expect_part "names: a type by its qualified name" "[2].hits" "$said"
    expect_part "names: a type that another file defines" ".right" "$said"
    expect_part "names: a type by its plain name" "others[0..3]" "$(view replay n --words --explain 0 --top 30 --type "names.cpp:$lease=Slot")"
    # (valgrind 3.19 can't read the DWARF 5 of clang 14)
    if command -v clang++ >/dev/null && names clang++ names.clang -gdwarf-4; then
        "$run" --trace n -- ./names.clang
        said=$(view replay n --words --explain 0 --top 30)
        for it in "in_function(int)::local[1].hits" "app::detail::slots[1].hits" "app::Pool::shared[1].misses" "app::detail::Table<..>::own[1].hits"; do
            expect_part "clang: names: $it" "${it/(int)/}" "$said"
        done
    fi
else
    skip_checks 1 "names of C++: there is no g++"
fi
if command -v rustc >/dev/null; then
    for way in legacy v0; do
        rustc -g -O -C symbol-mangling-version=$way "$here/tries/names.rs" -o names.$way >rust.log 2>&1 ||
            rustc -g -O -Z unstable-options -C symbol-mangling-version=$way "$here/tries/names.rs" -o names.$way >rust.log 2>&1 || continue
        "$run" --trace n -- ./names.$way
        said=$(view replay n --words --explain 0 --top 30)
        expect_part "Rust, $way" "names::pool::SLOTS[1].hits" "$said"
        expect_equal "Rust, $way: no hash" "" "$(grep -o "17h[0-9a-f]*E\|::h[0-9a-f]\{16\}" <<<"$said" | head -n 1)"
    done
    # (without symbols: by the places of its panics, wherever else a function and a line stand)
    rustc -O -C codegen-units=1 --remap-path-prefix "$here/tries=/r/registry/own-1.0.0/src" "$here/tries/panics.rs" -o panics.bare \
        >rust.log 2>&1
    strip panics.bare
    "$run" --trace n -- ./panics.bare
    said=$(view replay n --top 30 --json n.json --html n.html | tr -s '\n ' ' ')
    own="near a panic at own-1.0.0/src/panics.rs:" line=$(grep -n "near\[at\]" "$here/tries/panics.rs" | cut -d: -f1)
    expect_part "stripped Rust: what its names are" "names a panic of the same function, not the instruction itself" "$said"
    expect_part "stripped Rust: an instruction" "(${own}$line) invalidates panics.bare+0x" "$said"
    expect_part "stripped Rust: what is called" "(called $own" "$said"
    expect_part "stripped Rust: a block" "(${own}$(grep -n "assert!" "$here/tries/panics.rs" | cut -d: -f1)) <" "$said"
    expect_part "stripped Rust: the page" "(${own}$line)" "$(cat n.html)"
    expect_equal "stripped Rust: JSON" "called False, file '', line 0; called True, file '', line 0" "$(python3 - <<'END'
import json

objects = json.load(open("n.json"))["objects"]
sides = [one["invalidator"] for it in objects for one in it["conflicts"] if one["invalidator"]["panics"]]
own = [it for it in sides if "/own-1.0.0/" in it["panics"]["places"][0]["file"]]
print(*sorted({f"called {it['panics']['called']}, file {it['file']!r}, line {it['line']}" for it in own}), sep="; ")
END
)"
    # (a trace without pcs records no call that has run)
    "$run" --no-pcs --trace n -- ./panics.bare
    said=$(view replay n --top 30)
    expect_part "stripped Rust, without pcs: a block" "($own" "$said"
    expect_equal "stripped Rust, without pcs: what is called" "" "$(grep -o "(called near[^)]*)" <<<"$said" | head -n 1)"
else
    skip_checks 1 "names of Rust: there is no rustc"
fi
# (a program of Go keeps a table of functions and lines without symbols too)
if command -v go >/dev/null; then
    GOCACHE=$work/go GO111MODULE=off CGO_ENABLED=0 go build -ldflags "-s -w" -o golang.bare "$here/tries/golang.go" >go.log 2>&1 || cat go.log
    "$run" --pcs --trace n -- ./golang.bare >/dev/null 2>go.log
    said=$(view replay n --top 30 --json n.json | tr -s '\n ' ' ')
    line=$(grep -n "t.sum += by" "$here/tries/golang.go" | cut -d: -f1)
    expect_part "stripped Go: memory of the program" "memory used at golang.go:$line (main.(*tally).add < main.work)" "$said"
    expect_part "stripped Go: what is lacking" "golang.bare has Go's function table but no types, so fields are unknown" "$said"
    expect_equal "stripped Go: nothing else is said" "" "$(grep -o "no debug information\|golang.bare+0x[0-9a-f]*" <<<"$said" | head -n 1)"
    expect_part "stripped Go: JSON" "\"function\": \"main.(*tally).add\"" "$(tr -s '\n ' ' ' <n.json)"
else
    skip_checks 1 "names of stripped Go: there is no go (Debian: golang-go)"
fi
rm -f n n.json n.html n.table m m.table
