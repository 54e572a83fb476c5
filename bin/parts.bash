# The parts of all that isn't proved, which bin/try and bin/test run. Who reads this in has set `top`, `program` and, for the long forms, `is_long`.
# shellcheck disable=SC2154,SC2034 # (so these come from there, and go there)

# The Debian packages that all parts together want. bin/test names those that are missing.
packages=(clang lld llvm picolibc-riscv64-unknown-elf libc++-14-dev gcc g++ libc6-dev valgrind libc6-dbg python3 python3-pyelftools python3-jinja2 python3-jsonschema python3-yaml
    chromium nodejs snakemake slurmctld slurmd slurm-client munge git patch make cmake shellcheck python3-flake8 mypy black clang-format clang-tidy)
# What the long forms want too.
long_packages=(mmdebstrap)

part_names=()
declare -A part_runs part_processors part_tries part_seconds part_needs part_commands

# part NAME RUN PROCESSORS TRIES SECONDS NEEDS COMMAND ..
#   RUN         the shortest run of bin/test that has the part: quick, daily or long
#   PROCESSORS  how many it uses; `all` says that nothing else runs beside it, since it measures time or starts servers
#   TRIES       2 if what fails is tried once more, alone, since a busy machine may keep a program waiting; 1 for what only reads sources
#   SECONDS     what it takes alone on four quiet processors, by the processor time that was measured on a busy machine; those that take longest
#               begin first
#   NEEDS       commands, files (words with a `/`), modules of Debian's python3 (`python3:NAME`), and `program`; without one of them the part is
#               skipped
part() {
    local name=$1
    part_names+=("$name")
    part_runs[$name]=$2 part_processors[$name]=$3 part_tries[$name]=$4 part_seconds[$name]=$5 part_needs[$name]=$6
    shift 6
    part_commands[$name]=$(printf '%q ' "$@")
}

declare_parts() {
    local kit="program clang ld.lld llvm-readelf llvm-objcopy" picolibc=/usr/lib/picolibc/riscv64-unknown-elf
    # The forms of some parts: the everyday ones, and those of the long run.
    local long=() short=(--short) all=() reports=300 judges=200 seeds=3 cxx_seeds=1 studies=(histogram bounded_queue)
    if [ -n "${is_long:-}" ]; then long=(--long) short=() all=(--all) reports=2000 judges=1000 seeds=20 cxx_seeds=20 studies=(); fi
    part shell daily 1 1 9 shellcheck tools/lint.sh shell
    part python daily 1 1 8 python3 tools/lint.sh python
    part types daily 1 1 15 "mypy python3:jinja2 python3:elftools" tools/lint.sh types
    part c daily 1 1 15 gcc tools/lint.sh c
    part sanitizers daily 1 2 27 "gcc python3" native/sanitize.sh
    part imports daily 1 1 3 python3 tools/imports.py
    part edits quick 1 1 1 python3 tools/edits.py --check --planted
    part test_command daily 1 2 25 "gzip setpriv" tools/try_test.sh
    part names quick 1 1 2 python3 tools/documents.py
    part usage daily 1 1 1 python3 tools/commands.py
    part program daily 1 2 8 "program python3" guest/try.sh program
    part install daily 1 2 2 program guest/try.sh install
    part cases quick 1 2 5 "program python3" guest/cases/on_disk.py
    part examples quick 2 2 10 program tools/examples.sh
    part documents daily 1 2 16 "program python3" guest/check_docs.py
    part meter daily all 2 14 "program python3" python3 tools/meter.py "$program"
    part memory daily 1 2 16 "program python3 cc" guest/refuse_memory.py
    part sizes daily 2 2 8 "program python3" tools/sizes.py "$program" "${long[@]}"
    part edges daily 1 2 20 "program python3 cc" python3 tools/edges/main.py "$program" --planted "${long[@]}"
    part messages quick 1 2 3 "program python3" tools/messages.py "$program" --planted
    part costs daily 2 2 8 "program python3 valgrind" tools/costs.py "$program"
    part reports daily 1 2 1 "program python3" tools/judge_report.py "$program" "$reports"
    part judges daily 1 2 7 "program python3" tools/judge_traces.py "$program" "$judges"
    part growth daily 3 2 45 "program python3 valgrind" python3 tools/growth.py "$program" "${all[@]}"
    part kit daily 1 2 10 "$kit" guest/try.sh kit
    part builds daily 1 2 55 "python3 clang ld.lld llvm-readelf llvm-objcopy $picolibc" env PREDATOR="$program" guest/kit.sh
    part c_library daily 1 2 14 "$kit cc $picolibc" guest/try.sh c_library
    part cxx daily 1 1 60 "program g++ $kit $picolibc /usr/lib/llvm-14/include/c++/v1" env PREDATOR="$program" guest/cxx/try.sh --seeds "$cxx_seeds"
    part threads daily 1 2 40 "$kit $picolibc" guest/threads.sh --seeds "$seeds"
    part studies daily 1 2 7 "program python3 guest/built/studies" guest/studies/run.py "${studies[@]}"
    part clock daily 1 2 30 "python3 gcc" bench/clock/run.py --check
    part campaign daily all 2 30 "" campaign/try.sh
    part dist daily 1 2 20 "" dist/try.sh
    part native daily 1 2 120 "gcc python3 /usr/bin/valgrind.bin" native/try.sh "${short[@]}"
    part allocators daily 3 2 45 "program gcc python3" native/allocators/try.sh
    part ci daily 1 2 12 "gcc python3:yaml python3:elftools python3:jinja2 /usr/bin/valgrind.bin" examples/ci/try.py
    part view daily all 2 120 "" view/try.sh
    part anywhere daily all 2 100 "program python3" anywhere/try.sh
    # (this one fetches its packages)
    part bare long all 1 1800 "mmdebstrap git dpkg-deb" dist/bare.sh
    part all_edits long all 1 1800 "python3 rt" tools/edits.py
}
