# shellcheck shell=bash
# Checks for shell scripts, which source this file from a folder of their own. Each check counts; a
# check that fails prints its name, what was expected and what came. `finish_checks` prints
# `N passed, M failed, K skipped` and returns 1 where a check failed.
# (a script that sources this file may use some of these alone)
# shellcheck disable=SC2034
passed=0 failed=0 skipped=0

pass_check() { passed=$((passed + 1)); }

# fail_check NAME [FILE ..]: prints the first lines of the files.
fail_check() {
    local file
    failed=$((failed + 1))
    echo "FAILED $1"
    for file in "${@:2}"; do head -n 12 "$file"; done
}

# skip_checks COUNT REASON
skip_checks() {
    skipped=$((skipped + $1))
    echo "skipped $1: $2"
}

# expect_status NAME STATUS COMMAND ..: the command ends with the status. Its standard output is in
# `out`, its standard error in `err`.
expect_status() {
    local name=$1 expected=$2 status
    shift 2
    "$@" >out 2>err </dev/null
    status=$?
    if [ "$status" = "$expected" ]; then
        pass_check
    else
        fail_check "$name: status $status, expected $expected" out err
    fi
}

# expect_success NAME COMMAND ..
expect_success() { expect_status "$1" 0 "${@:2}"; }

# expect_line NAME LINE: the last command printed the line.
expect_line() {
    if grep -q -x -F -e "$2" out; then pass_check; else fail_check "$1: no line '$2' in the output:" out; fi
}

# expect_output NAME LINE ..: the last command printed these lines, and no more.
expect_output() {
    if printf '%s\n' "${@:2}" | cmp -s - out; then pass_check; else fail_check "$1: expected ${*:2}; got:" out; fi
}

# expect_error NAME LINE: standard error of the last command is this line of `predator`, and no more.
expect_error() {
    if [ "$(cat err)" = "predator: $2" ]; then pass_check; else fail_check "$1: expected 'predator: $2', got:" err; fi
}

# expect_error_lines NAME LINE ..: standard error of the last command is these lines.
expect_error_lines() {
    if printf '%s\n' "${@:2}" | cmp -s - err; then pass_check; else fail_check "$1: expected on standard error: ${*:2}; got:" err; fi
}

# expect_silent NAME: the last command printed nothing on standard error.
expect_silent() {
    if [ ! -s err ]; then pass_check; else fail_check "$1: expected nothing on standard error, got:" err; fi
}

# expect_equal NAME EXPECTED GOT
expect_equal() {
    if [ "$2" = "$3" ]; then pass_check; else fail_check "$1: expected '$2', got '$3'"; fi
}

# expect_part NAME PART TEXT: the text has the part.
expect_part() {
    case $3 in
        *"$2"*) pass_check ;;
        *) fail_check "$1: no '$2' in: $3" ;;
    esac
}

# expect_in_file NAME FILE PART: the file has the part in a line.
expect_in_file() {
    if grep -q -F -e "$3" "$2"; then pass_check; else fail_check "$1: no '$3' in:" "$2"; fi
}

# expect_between NAME LEAST MOST GOT: a whole number from LEAST to MOST.
expect_between() {
    if [[ $4 =~ ^[0-9]+$ ]] && [ "$4" -ge "$2" ] && [ "$4" -le "$3" ]; then
        pass_check
    else
        fail_check "$1: expected $2 to $3, got $4"
    fi
}

finish_checks() {
    echo "$passed passed, $failed failed, $skipped skipped"
    [ "$failed" = 0 ]
}
