# What build.sh and cc have in common: the flags, the parts of the kit, and how a program is linked. `here` is the folder of the kit
# and `self` the name of the command, which sources this file.
#
# (and uses what isn't used here)
# shellcheck disable=SC2034,SC2154

picolibc=${PICOLIBC:-/usr/lib/picolibc/riscv64-unknown-elf}
machine=(--target=riscv32-unknown-none-elf -march=rv32ima -mabi=ilp32 -mno-relax)
sections=(-ffunction-sections -fdata-sections)
# The kit's own files have their names from guest/ on, wherever that is.
named=("-ffile-prefix-map=$here=guest" -fdebug-compilation-dir=.)
careful=(-Wall -Wextra -Werror)
small=(-std=c11 -ffreestanding -ftls-model=local-exec -I "$here" -I "$here/include")
over_c=(-Wno-atomic-alignment -D_DEFAULT_SOURCE -ftls-model=local-exec
    -I "$here" -isystem "$here/include" -isystem "$picolibc/include")
linked=(-nostdlib -static -fuse-ld=lld -Wl,--gc-sections -Wl,--build-id=none -Wl,--discard-locals)
# (how many nanoseconds of a guest's clock each step takes)
[ -z "${STEP_TIME:-}" ] || linked+=("-Wl,--defsym=predator_step_time=$STEP_TIME")

fail() {
    echo "$self: $*" >&2
    exit 1
}

want_tools() {
    local tool
    for tool in clang ld.lld llvm-readelf llvm-objcopy; do
        command -v "$tool" >/dev/null || fail "there is no $tool (Debian: clang, lld, llvm)"
    done
}

# The folder of the package's set for rv32ima or the nearest one, which is for rv32im: it has all but atomic instructions.
library_set() {
    local set
    for set in release/rv32ima/ilp32 release/rv32im/ilp32 rv32ima/ilp32 rv32im/ilp32; do
        if [ -f "$picolibc/lib/$set/libc.a" ]; then
            echo "$picolibc/lib/$set"
            return
        fi
    done
}

# The compiler's own functions for that set, as for division in 64 bits and for floating point.
compiler_set() {
    local set
    for set in /usr/lib/gcc/riscv64-unknown-elf/*/rv32ima/ilp32 /usr/lib/gcc/riscv64-unknown-elf/*/rv32im/ilp32; do
        if [ -f "$set/libgcc.a" ]; then
            echo "$set"
            return
        fi
    done
}

want_library() {
    [ -n "$(library_set)" ] || fail "there is no picolibc (Debian: picolibc-riscv64-unknown-elf)"
    [ -n "$(compiler_set)" ] || fail "there is no libgcc for rv32im (Debian: gcc-riscv64-unknown-elf)"
}

# The words of a text as C strings, each with a comma behind it, in `words`. They are parted as a shell does: by spaces, with '..', "..",
# and \ before a character; nothing is expanded.
words=()
part_words() {
    local text=$1 word="" quote="" is_word="" char at LC_ALL=C
    words=()
    for ((at = 0; at <= ${#text}; at++)); do
        char=${text:at:1}
        if [ "$quote" = "'" ] && [ "$char" != "'" ] && [ -n "$char" ]; then
            word+=$char
        elif [ "$char" = \\ ] && { [ -z "$quote" ] || [[ ${text:at+1:1} == [\"\\\$\`] ]]; } && ((at + 1 < ${#text})); then
            at=$((at + 1)) is_word=1
            word+=${text:at:1}
        elif [ -n "$quote" ] && [ "$char" = "$quote" ]; then
            quote=
        elif [ -z "$quote" ] && [[ $char == [\"\'] ]]; then
            quote=$char is_word=1
        elif [ -z "$quote" ] && [[ $char == "" || $char == [[:space:]] ]]; then
            [ -z "$is_word" ] || words+=("$(c_string "$word"),")
            word="" is_word=""
        elif [ -n "$char" ]; then
            word+=$char is_word=1
        fi
    done
    [ -z "$quote" ] || fail "ARGUMENTS has a $quote that isn't closed: $text"
}

c_string() {
    local text=$1 made="" char at LC_ALL=C
    for ((at = 0; at < ${#text}; at++)); do
        char=${text:at:1}
        case $char in
            [\"\\]) made+=\\$char ;;
            [[:cntrl:]]) made+=$(printf '\\%03o' "'$char") ;;
            *) made+=$char ;;
        esac
    done
    printf '"%s"' "$made"
}

# FOLDER FLAG ..: compiles the kit for programs with a C library: start.o and the parts, which are taken as they are wanted. The package's
# archives stand beside them without debug information and without `system`, which is refused, and so do empty ones for the names by which a
# program asks for what is in any case there, as -lpthread.
make_kit() {
    local into=$1 it
    shift
    mkdir -p "$into/parts" "$into/named"
    make_part "$here/start.S" "$into/start.o" "$@"
    for it in calls library pthread; do
        make_part "$here/$it.c" "$into/$it.o" "$@"
    done
    for it in "$here"/clib/*.c; do
        make_part "$it" "$into/parts/$(basename "${it%.*}").o" "$@"
    done
    for it in "$(library_set)/libc.a" "$(library_set)/libm.a" "$(compiler_set)/libgcc.a"; do
        llvm-objcopy --strip-debug --redefine-sym system=predator_no_system "$it" "$into/${it##*/}"
    done
    for it in c m pthread rt atomic gcc; do
        printf '!<arch>\n' >"$into/named/lib$it.a"
    done
}

# FOLDER: the headers of LLVM's C++ library below a folder, as /usr/lib: those of the compiler's own version, else the newest that is installed
# of the versions that cxx/ completes; none where there is none. LIBCXX names another folder, or `none`.
cxx_headers() {
    local version headers
    if [ -n "${LIBCXX:-}" ]; then
        [ "$LIBCXX" = none ] || echo "$LIBCXX"
        return
    fi
    for version in "$(clang -dumpversion 2>/dev/null)" 16 15 14; do
        version=${version%%.*}
        headers=$1/llvm-$version/include/c++/v1
        if [[ $version == 1[4-6] && -e $headers/__config ]]; then
            echo "$headers"
            return
        fi
    done
}

# FOLDER: why the headers of LLVM's C++ library in it can't be taken, or nothing. A version says itself which compiler it needs.
libcxx_obstacle() {
    local number version needs="" own
    number=$(sed -nE 's/^# *define _LIBCPP_VERSION +([0-9]+)$/\1/p' "$1/__config" 2>/dev/null || true)
    if [ -z "$number" ]; then
        echo "$1 has no headers of LLVM's C++ library"
        return
    fi
    # (15006 is 15.0.6, and 190107 is 19.1.7)
    version=$((number / (number < 100000 ? 1000 : 10000)))
    [[ $version != 1[4-6] ]] || return 0
    own=$(clang -dumpversion)
    number=$(grep -hos 'only supports Clang [0-9]*' "$1/__config" "$1/__configuration/compiler.h" | head -n 1 | grep -o '[0-9]*$' || true)
    [ -z "$number" ] || needs=", which needs clang $number or later, and this is clang ${own%%.*}"
    echo "$1 has version $version of LLVM's C++ library$needs: guests take 14, 15 or 16 (Debian: libc++-14-dev)"
}

# FOLDER HEADERS FLAG ..: compiles what LLVM's headers leave to a library, into the folder of a kit.
make_cxx() {
    local into=$1 headers=$2 it
    shift 2
    for it in "$here"/cxx/*.cpp; do
        clang --driver-mode=g++ "${machine[@]}" -O2 "${sections[@]}" "${named[@]}" -std=c++20 -fno-exceptions -frtti \
            -fno-asynchronous-unwind-tables -nostdinc++ -isystem "$here/cxx/include" -isystem "$headers" "${over_c[@]}" "${careful[@]}" "$@" \
            -c "$it" -o "$into/parts/cxx-$(basename "${it%.*}").o"
    done
}

# SOURCE OBJECT FLAG ..: one part, with those words of main's that `words` has.
make_part() {
    local source=$1 made=$2
    shift 2
    clang "${machine[@]}" -O2 "${sections[@]}" "${named[@]}" -std=gnu11 "${over_c[@]}" "${careful[@]}" "$@" \
        -DPREDATOR_THREADS -DPREDATOR_C_LIBRARY "-DPREDATOR_ARGUMENTS=${words[*]}" -c "$source" -o "$made"
}

# What is linked behind a program's objects, from a folder that make_kit filled; `system` is the object with main's words.
behind() {
    local kit=$1 system=$2 it
    local parts=("$kit/calls.o" "$kit/library.o" "$kit/pthread.o")
    for it in "$kit"/parts/*.o; do
        [ "${it##*/}" = system.o ] && it=$system
        parts+=("$it")
    done
    tail=(-Wl,--wrap=vfprintf -Wl,--start-lib "${parts[@]}" -Wl,--end-lib
        -Wl,--start-group "$kit/libc.a" "$kit/libm.a" "$kit/libgcc.a" -Wl,--end-group)
}

# NAME: why it can't be had, where the headers or clib/missing.txt have it.
reason_of() {
    local kind name=$1
    # (of C++, the kinds of classes)
    [[ $1 != "vtable for "* ]] || name=__dynamic_cast
    kind=$(grep -rhE "[ *]$name\(.*\) PREDATOR_NO_[A-Z]+;" "$here/include" | head -n 1 | sed -E 's/.* (PREDATOR_NO_[A-Z]+);.*/\1/')
    if [ -z "$kind" ]; then
        kind=$(awk -v name="$name" '!/^#/ { for (i = 2; i <= NF; i++) if ($i == name) { print $1; exit } }' "$here/clib/missing.txt")
    fi
    [ -z "$kind" ] || sed -nE "s/^#define $kind PREDATOR_MISSING\([a-z]+, \"(.*)\"\)\$/\1/p" "$here/include/predator_missing.h"
}

# Why C++ of a guest has no exceptions, behind the place in the source.
no_exceptions="a guest has no exceptions:"
no_throw="$no_exceptions 'throw' can't be compiled (return an error, or call std::abort)"
no_try="$no_exceptions 'try' can't be compiled (what the library would throw ends the program)"

# Runs a command that compiles or links. What is refused, or not found by the linker, is reported with the reason, where there is one.
run_link() {
    local said status=0 line why
    { said=$("$@" 2>&1 1>&3 3>&-) || status=$?; } 3>&1
    [ -n "$said" ] || return "$status"
    while IFS= read -r line; do
        why=
        if [[ $line =~ error:\ undefined\ symbol:\ (vtable\ for\ __cxxabiv1::.*|[A-Za-z_][A-Za-z_0-9]*)$ ]]; then
            why=$(reason_of "${BASH_REMATCH[1]}")
        fi
        [ -z "$why" ] || line="$self: error: '${BASH_REMATCH[1]}' can't be had: $why"
        line=${line/"cannot use 'throw' with exceptions disabled"/$no_throw}
        line=${line/"cannot use 'try' with exceptions disabled"/$no_try}
        echo "$line" >&2
    done <<<"$said"
    return "$status"
}

# No compressed instructions, no floating point registers, not the small register file.
judge() {
    local flags
    flags=$(llvm-readelf -h "$1" | sed -n 's/.*Flags: *\(0x[0-9A-Fa-f]*\).*/\1/p')
    (((flags & 15) == 0)) || fail "$1 has the flags $flags, and predator runs code with none of the last four bits alone"
}
