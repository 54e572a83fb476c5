#!/usr/bin/env bash
# Checks the sources of everything beside the proved program, without running them: lint.sh shell | python | types | c
#
#     shell     shellcheck, over each shell script, with .shellcheckrc
#     python    black (its layout, with pyproject.toml) and flake8 (with setup.cfg), over all Python
#     types     mypy --strict, over view/, campaign/, native/allocators/, bench/clock/, tools/ and anywhere/, with setup.cfg (of tests only
#               those of anywhere/)
#     c         clang-format, clang-tidy and gcc's analyzer, over native/ (anywhere/: clang-format alone) and, by the cross compiler that the kit's C library comes with, over the kit; a warning is an error
#
# What isn't installed is skipped: the status is 77, and the last line names it.
set -u
cd "$(dirname "$(readlink -f "${BASH_SOURCE[0]}")")/.." || exit 1
python=/usr/bin/python3

lacks() {
    echo "$1 isn't installed: apt-get install $2"
    exit 77
}

# The files of a checkout, and what was added since; where this is none, all but what was built and fetched.
files() {
    git ls-files --cached --others --exclude-standard 2>/dev/null ||
        find . -type f ! -path '*/.git/*' ! -path '*/out/*' ! -path '*/fetched/*' ! -path '*/__pycache__/*' -printf '%P\n'
}

# Scripts are found by their first line, and those that others read in by their names or by a line for shellcheck.
shell_scripts() {
    files | grep -v '^crates/' | while IFS= read -r it; do
        [ -f "$it" ] || continue
        if [[ $it == *.sh || $it == *.bash ]] || head -c 80 "$it" | head -n 1 | grep -q -a -E '^#!.*[/ ](ba|da)?sh( |$)'; then echo "$it"; fi
    done
}

python_files() { files | grep -v '^crates/' | grep '\.py$'; }

# clang-format over the recorders, the tools and the benches; the kit and its examples keep their lines, since programs that were
# built from them name places by lines.
format_c() {
    if ! command -v clang-format >/dev/null; then
        echo "skipped: the layout of C, which clang-format checks (Debian: clang-format)"
        return 0
    fi
    clang-format --dry-run -Werror native/{tool,lib}/*.[ch] native/allocators/*.c native/allocators/drivers/*.[ch] tools/edges/*.c bench/*.c bench/clock/*.[ch] anywhere/*.c
}

# clang-tidy FLAGS .. -- FILE ..
tidy_c() {
    local flags=()
    while [ "$1" != -- ]; do flags+=("$1") && shift; done
    shift
    if ! command -v clang-tidy >/dev/null; then
        echo "skipped: clang-tidy, which isn't installed (Debian: clang-tidy)"
        return 0
    fi
    clang-tidy --quiet "$@" -- "${flags[@]}" 2>/dev/null
}

judge_c() {
    local headers=/usr/include/valgrind picolibc=${PICOLIBC:-/usr/lib/picolibc/riscv64-unknown-elf} it status=0
    local strict=(-fanalyzer -Wall -Werror -O2 -c -o /dev/null)
    local valgrind=(-DVGA_amd64=1 -DVGO_linux=1 -DVGP_amd64_linux=1 -DVGPV_amd64_linux_vanilla=1)
    command -v gcc >/dev/null || lacks gcc gcc
    format_c || status=1
    tidy_c -std=gnu11 -DPREDATOR_RUNTIME -- native/lib/*.c native/tool/{hold,mend}.c || status=1
    for it in native/lib/*.c native/tool/{trace,objects,sites,nameless}.c; do
        gcc "${strict[@]}" -std=gnu11 -Wno-unused-parameter -fPIC -fexceptions -pthread -DPREDATOR_RUNTIME "$it" || status=1
    done
    for it in native/tool/{hold,mend}.c; do
        gcc "${strict[@]}" -std=gnu11 "$it" || status=1
    done
    if [ -e "$headers/pub_tool_tooliface.h" ]; then
        local tool=(native/tool/{tool,child,trace,objects,sites,nameless,elf,turns,calls,ticks,processor,preload}.c)
        for it in "${tool[@]}"; do
            gcc "${strict[@]}" -std=gnu99 -fno-builtin "-I$headers" "-I$headers/vki" "${valgrind[@]}" "$it" || status=1
        done
        tidy_c -std=gnu99 "-I$headers" "-I$headers/vki" "${valgrind[@]}" -- "${tool[@]}" || status=1
    else
        echo "skipped: the tool, which wants valgrind's headers (Debian: valgrind)"
    fi
    if command -v riscv64-unknown-elf-gcc >/dev/null && [ -d "$picolibc/include" ]; then
        # (the kit hands out blocks, which the analyzer takes for lost)
        for it in guest/{calls,library,pthread}.c guest/clib/*.c; do
            riscv64-unknown-elf-gcc "${strict[@]}" -Wextra -Wno-analyzer-malloc-leak -march=rv32ima -mabi=ilp32 -std=gnu11 -D_DEFAULT_SOURCE \
                -ftls-model=local-exec -I guest -isystem guest/include -isystem "$picolibc/include" \
                -DPREDATOR_THREADS -DPREDATOR_C_LIBRARY -DPREDATOR_ARGUMENTS= "$it" || status=1
        done
    else
        echo "skipped: the kit, which wants a cross compiler (Debian: picolibc-riscv64-unknown-elf)"
    fi
    return "$status"
}

case ${1:-} in
    shell)
        command -v shellcheck >/dev/null || lacks shellcheck shellcheck
        mapfile -t found < <(shell_scripts)
        echo "${#found[@]} scripts"
        ((${#found[@]} > 0)) && shellcheck "${found[@]}"
        ;;
    python)
        "$python" -c "import flake8" 2>/dev/null || lacks flake8 python3-flake8
        "$python" -c "import black" 2>/dev/null || lacks black black
        mapfile -t found < <(python_files)
        echo "${#found[@]} files"
        ((${#found[@]} > 0)) || exit 1
        status=0
        "$python" -m black --quiet --check "${found[@]}" || {
            status=1
            "$python" -m black --check "${found[@]}" 2>&1 | grep "^would reformat"
        }
        # (the texts that view/ compares make longer lines)
        mapfile -t long < <(printf '%s\n' "${found[@]}" | grep '^view/')
        mapfile -t others < <(printf '%s\n' "${found[@]}" | grep -v '^view/')
        "$python" -m flake8 --max-line-length=140 "${long[@]}" || status=1
        "$python" -m flake8 "${others[@]}" || status=1
        exit "$status"
        ;;
    types)
        command -v mypy >/dev/null || lacks mypy mypy
        status=0
        check_types() { mypy --cache-dir="$cache" "$@" || status=1; }
        cache=$(mktemp -d)
        trap 'rm -rf "$cache"' EXIT
        mapfile -t found < <(python_files | grep '^view/' | grep -v '^view/tests/')
        check_types --strict "${found[@]}"
        mapfile -t found < <(python_files | grep '^campaign/' | grep -v '^campaign/\(tests\|profiles\)/')
        check_types --strict --follow-imports=silent "${found[@]}"
        mapfile -t found < <(python_files | grep '^native/allocators/' | grep -v '/tests/')
        MYPYPATH=bench/clock:tools check_types --strict --follow-imports=silent --explicit-package-bases "${found[@]}"
        # (folders of scripts, which find their modules beside them)
        for folder in bench/clock tools tools/edges; do
            MYPYPATH=$folder:tools:tools/edges check_types --strict "$folder"/*.py
        done
        MYPYPATH=anywhere:anywhere/tests check_types --strict --follow-imports=silent anywhere/build.py anywhere/tests/*.py
        MYPYPATH=anywhere check_types --strict --follow-imports=silent -p predator
        exit "$status"
        ;;
    c) judge_c ;;
    *)
        sed -n '2,/^[^#]/s/^# \{0,1\}//p' "$0" >&2
        exit 1
        ;;
esac
