# Runs parts side by side, as many as there are processors for. bin/try and bin/test read this in behind parts.bash.
#
# What a part prints goes to a file, and is shown only of one that fails, so outputs never mix. Its temporary files lie in a folder of its own.
# Whatever ends a run, Ctrl-C too, ends all processes that its parts began and removes these folders.
# shellcheck disable=SC2154 # (parts.bash and who reads this in set the others)

passed=0 failed=0 skipped=0
# Why parts were skipped, in the order in which that was found, and which parts for each reason. bin/test prints it at the end, and bin/try at once.
skip_reasons=()
declare -A skipped_for=()
# The part of each process that is waited for, when it began, and which try it is.
declare -A running=() began=() try_numbers=()
# Parts that failed at first, to be tried once more.
again=()
# A part may take so many seconds.
part_seconds_most=${PART_SECONDS:-1800}

# Makes the folder for what this run writes. Descriptor 9 holds a lock where the caller has one, and no part gets it.
begin_run() {
    work=$(mktemp -d "${TMPDIR:-/tmp}/predator-try.XXXXXX" 2>/dev/null) || {
        echo "${0##*/}: no folder for temporary files can be made in ${TMPDIR:-/tmp}: set TMPDIR" >&2
        exit 1
    }
    chmod 755 "$work"
    echo "$$" >"$work/pid"
    trap 'end_run' EXIT
    trap 'stop_run 130 "Ctrl-C"' INT
    trap 'stop_run 143 "a signal to end"' TERM
    trap 'stop_run 129 "the end of its terminal"' HUP
    remove_old_runs
}

# Removes what runs of this user left that were killed, so that they couldn't clean up: their folders name processes that aren't there.
remove_old_runs() {
    local old pid own=$work
    for old in "${work%/*}"/predator-try.*; do
        [ -O "$old" ] && read -r pid 2>/dev/null <"$old/pid" && ! kill -0 "$pid" 2>/dev/null || continue
        work=$old
        end_processes '.*' || true
        remove_folder "$old"
    done
    work=$own
}

# The processes that a part, or any part of this run, has left: they have its folder in their environment.
processes_of() { grep -l -s -z -E -e "^PREDATOR_PART=$work/$1\$" /proc/[0-9]*/environ | sed 's|/proc/||; s|/.*||'; }

# end_processes NAME: ends what is left of a part, or of all with `.*`; its status is 0 if there was anything. A part gets five seconds to clean up.
end_processes() {
    local left count
    mapfile -t left < <(processes_of "$1")
    ((${#left[@]} > 0)) || return 1
    kill -TERM "${left[@]}" 2>/dev/null
    for count in {1..50}; do
        sleep 0.1
        mapfile -t left < <(processes_of "$1")
        ((${#left[@]} > 0)) || return 0
    done
    echo "note: killed after $((count / 10)) s: ${left[*]}"
    kill -KILL "${left[@]}" 2>/dev/null
    sleep 0.1
}

remove_folder() {
    [ -e "$1" ] || return 0
    rm -rf --one-file-system "$1" 2>/dev/null && return
    chmod -R u+rwx "$1" 2>/dev/null
    rm -rf --one-file-system "$1"
}

end_run() {
    trap '' INT TERM HUP
    cd / || true
    remove_folder "$work"
}

stop_run() { # STATUS WHY
    local pid
    trap '' INT TERM HUP
    # (`timeout` passes the signal on to the group of its part)
    for pid in "${!running[@]}"; do kill -TERM "$pid" 2>/dev/null; done
    end_processes '.*'
    wait
    echo "${0##*/}: stopped by $2; until then $passed passed, $failed failed"
    exit "$1"
}

# Finds the program that is tried. Whether there is one is in `has_program`; parts that don't go by the launcher take the path in `program`.
find_program() {
    has_program='' program=${PREDATOR_PROGRAM:-$top/crates/predator/out/predator}
    export PREDATOR_BUILD=${PREDATOR_BUILD:-no}
    if "$top/bin/predator" check guest/built/apart.elf >"$work/log" 2>&1; then
        has_program=1
        # (where the checkout can't be written, it lies elsewhere)
        if [ ! -x "$program" ]; then export PREDATOR_PROGRAM && program=$("$top/bin/predator" --where) && PREDATOR_PROGRAM=$program; fi
    elif [ -x "$program" ] && [ -z "$(find crates.txt crates \( -name out -o -name edits -o -name must-fail \) -prune -o -newer "$program" -print -quit)" ]; then
        # `rt ci` has left it, and no source was changed since.
        export PREDATOR_PROGRAM=$program
        if "$top/bin/predator" check guest/built/apart.elf >"$work/log" 2>&1; then has_program=1; fi
    fi
    export PREDATOR_BUILD=no
}

# Builds the recorders if a part needs them, no build of these sources exists, and the packages for it are installed. The part `native` reports
# a failed build.
build_recorders() { # NAME ..
    local built=native/out/predator-amd64-linux
    [[ " $* " == *" native "* || " $* " == *" examples "* || " $* " == *" allocators "* ]] || return 0
    command -v gcc >/dev/null && [ -x /usr/bin/valgrind.bin ] || return 0
    if [ ! -x "$built" ] || [ -n "$(find native/build native/lib native/tool -newer "$built" -print -quit)" ]; then
        start_part build 600 native/build
        wait "$!"
        unset "running[$!]"
        end_processes build || true
    fi
}

# start_part NAME SECONDS COMMAND ..: begins it, with a folder, a log and a group of processes of its own.
start_part() {
    local name=$1 seconds=$2
    shift 2
    mkdir -p "$work/$name"
    # (bash has a job in the background ignore Ctrl-C, and parts try what a program does then)
    {
        TIMEFORMAT='%U %S'
        time PREDATOR_PART=$work/$name TMPDIR=$work/$name XDG_CACHE_HOME=$work/$name/cache PYTHONDONTWRITEBYTECODE=1 \
            env --default-signal=INT,QUIT timeout -k 10 "$seconds" "$@" >"$work/$name.log" 2>&1 </dev/null
    } 2>"$work/$name.time" 9<&- &
    running[$!]=$name began[$name]=$SECONDS
}

# Why a part can't be tried, if it can't.
lack() {
    local it
    for it in $1; do
        case $it in
            python3:*) /usr/bin/python3 -c "import ${it#*:}" 2>/dev/null || { echo "Debian's python3 has no module ${it#*:}"; return; } ;;
            program) [ -n "$has_program" ] || { echo "the program isn't built of these sources"; return; } ;;
            */*) [ -e "$it" ] || { echo "there is no $it"; return; } ;;
            *) command -v "$it" >/dev/null || { echo "$it isn't installed"; return; } ;;
        esac
    done
}

skip_part() { # NAME WHY
    skipped=$((skipped + 1))
    note_skip "$@"
    [ -n "${reports_skips:-}" ] || echo "skipped: $1: $2"
}

note_skip() { # NAME WHY
    if [ -z "${skipped_for[$2]:-}" ]; then skip_reasons+=("$2"); fi
    skipped_for[$2]+=${skipped_for[$2]:+, }$1
}

# What a part skipped by itself: the reasons in its lines, and in those of Python's unittest, which end with `.. skipped 'REASON'`.
own_skips() { # LOG
    sed -n -E -e 's/^skipped[,:]? *([0-9]+: )?//p' -e "s/^.* [.]{3} skipped (['\"])(.*)\1$/\2/p" "$1" | grep -v '^$' | sort -u
}

report_skips() {
    local it
    ((${#skip_reasons[@]} == 0)) || echo "Skipped:"
    for it in ${skip_reasons[@]+"${skip_reasons[@]}"}; do echo "    ${skipped_for[$it]}: $it"; done
}

# The seconds that a part took, and how many of processors that were, which says more on a busy machine.
time_of() { # NAME
    local user='' system=''
    read -r user system <"$work/$1.time"
    user=${user%.*} system=${system%.*}
    echo "$((SECONDS - began[$1])) s; processor $((${user:-0} + ${system:-0})) s"
}

# finish_part NAME STATUS: counts a part that has ended, and reports the result.
finish_part() {
    local name=$1 status=$2 log=$work/$1.log took number=${try_numbers[$1]:-1} it
    took=$(time_of "$name")
    if end_processes "$name"; then echo "note: $name left processes behind, which were ended"; fi
    case $status in
        0)
            passed=$((passed + 1))
            echo "passed: $name ($took$([ "$number" = 1 ] || echo ", at the second try"))"
            while IFS= read -r it; do note_skip "$name (in part)" "$it"; done < <(own_skips "$log")
            ;;
        77) skip_part "$name" "$(tail -n 1 "$log")" ;;
        *)
            tail -n 40 "$log"
            if [ "$status" = 124 ] || [ "$status" = 137 ]; then echo "it took too long: $took"; fi
            if [ "$number" -lt "${part_tries[$name]}" ]; then
                echo "failed at first (status $status, $took), and is tried once more: $name"
                try_numbers[$name]=$((number + 1))
                again+=("$name")
            else
                failed=$((failed + 1))
                echo "FAILED: $name (status $status, $took): ${part_commands[$name]}"
            fi
            ;;
    esac
    remove_folder "$work/$name"
}

# wait_for_one: waits for a part to end.
wait_for_one() {
    local ended status name
    wait -n -p ended "${!running[@]}"
    status=$?
    name=${running[$ended]}
    unset "running[$ended]"
    finish_part "$name" "$status"
}

# How many processors a part uses, of those that there are.
processors_of() { # NAME JOBS
    local it=${part_processors[$1]}
    if [ "$it" = all ] || [ "$it" -gt "$2" ]; then it=$2; fi
    echo "$it"
}

# run_parts JOBS NAME ..: tries them, first those that run beside others, those that take longest first, and then one by one what wants to be alone.
run_parts() {
    local jobs=$1 name why free command
    shift
    local beside=() alone=()
    for name in "$@"; do
        why=$(lack "${part_needs[$name]}")
        if [ -n "$why" ]; then
            skip_part "$name" "$why"
        elif [ "${part_processors[$name]}" = all ]; then
            alone+=("$name")
        else
            beside+=("$name")
        fi
    done
    mapfile -t beside < <(for name in ${beside[@]+"${beside[@]}"}; do echo "${part_seconds[$name]} $name"; done | sort -s -n -r | cut -d' ' -f2)
    while ((${#beside[@]} + ${#running[@]} > 0)); do
        free=$jobs
        for name in "${running[@]}"; do free=$((free - $(processors_of "$name" "$jobs"))); done
        for name in ${beside[@]+"${beside[@]}"}; do
            if [ "$(processors_of "$name" "$jobs")" -le "$free" ]; then
                start_by_name "$name"
                free=$((free - $(processors_of "$name" "$jobs")))
                drop_from_beside "$name"
            fi
        done
        wait_for_one
    done
    # (what failed beside others is tried once more alone, and behind it what failed alone)
    for name in ${again[@]+"${again[@]}"} ${alone[@]+"${alone[@]}"}; do run_alone "$name"; done
}

run_alone() { # NAME
    again=()
    start_by_name "$1"
    wait_for_one
    if ((${#again[@]} > 0)); then run_alone "$1"; fi
}

start_by_name() { # NAME
    local -a command
    eval "command=(${part_commands[$1]})"
    start_part "$1" "$(most_seconds "$1")" "${command[@]}"
}

drop_from_beside() { # NAME
    local it kept=()
    for it in "${beside[@]}"; do [ "$it" = "$1" ] || kept+=("$it"); done
    beside=(${kept[@]+"${kept[@]}"})
}

# A part of the long run may take as much longer as its table says.
most_seconds() { # NAME
    local it=$((part_seconds[$1] * 4))
    if [ -n "${PART_SECONDS:-}" ] || [ "$it" -lt "$part_seconds_most" ]; then it=$part_seconds_most; fi
    echo "$it"
}
