# shellcheck shell=bash
# Part of native/try.sh, which reads it: tries that of a call of view no process and no file stays, wherever and however it ends.
#
# (try.sh sets the names that aren't set here)
# shellcheck disable=SC2154

gcc -O1 -g -pthread "$here/tries/long.c" -o long
stages=$work/stages
mkdir -p "$stages"
gcc -O1 -g -pthread "$here/tries/forever.c" -o forever
begin_call() { # [PROGRAM]
    TMPDIR=$stages PYTHONDONTWRITEBYTECODE=1 setsid env --default-signal "$here/../bin/predator" view native --whole --html "$stages/page.html" --most 100000000 -- "$work/${1:-long}" >said 2>&1 &
    pid=$!
}
# What is left of a call after ten seconds at most: its processes name the program or the folder.
remains() {
    left_over "$work/stages"
    left_over "$work/long"
    left_over "$work/forever"
    rm -f "$stages/page.html"
    ls "$stages"
}
# The processes of the call `pid`: the one that waits, the one that works, and the recorder's two.
child_of() { cut -d' ' -f1 <"/proc/$1/task/$1/children" 2>/dev/null; }

begin_call
began=$(date +%s%3N)
wait $pid
expect_equal "view: the whole call: status" 0 $?
took=$(($(date +%s%3N) - began))
expect_equal "view: the whole call: nothing is left" "" "$(remains)"
for way in TERM HUP INT KILL worker recorder program all; do
    for part in 3 20 45 70 95; do
        begin_call
        sleep "$(printf '%d.%03d' $((took * part / 100000)) $((took * part / 100 % 1000)))"
        case $way in
            INT | all) kill -s "${way/all/KILL}" -- -$pid 2>/dev/null ;;
            worker) kill -9 "$(child_of $pid)" 2>/dev/null ;;
            recorder) kill -9 "$(child_of "$(child_of $pid)")" 2>/dev/null ;;
            program) kill -9 "$(child_of "$(child_of "$(child_of $pid)")")" 2>/dev/null ;;
            *) kill -s $way $pid 2>/dev/null ;;
        esac
        wait $pid 2>/dev/null
        if [ $way = all ]; then # (nobody is there to remove its files, until the next call)
            left_over "$work/long" >/dev/null
            TMPDIR=$stages "$here/../bin/predator" view native --explain 0 --no-predicted -- "$(type -P true)" >/dev/null 2>&1
        fi
        expect_equal "view: $way at $part %: nothing is left" "" "$(remains)"
    done
done 2>/dev/null
# What was recorded is shown, where the signal came while something was recorded.
for way in TERM HUP INT worker; do
    begin_call forever
    for _ in $(seq 1 300); do
        trace=$(echo "$stages"/predator-view-*/trace)
        if [ -e "$trace" ]; then break; fi
        sleep 0.1
    done
    longer "$trace" 1100000
    case $way in
        INT) kill -s INT -- -$pid ;;
        worker) kill -9 "$(child_of $pid)" ;;
        *) kill -s $way $pid ;;
    esac
    wait $pid
    status=$?
    if [ $way = worker ]; then
        expect_equal "view: the working process is killed: status" 137 $status
    else
        expect_equal "view: $way while it is recorded: status" 0 $status
        expect_part "view: $way while it is recorded: it is said" "THE RECORDING IS INCOMPLETE" "$(cat said)"
        expect_part "view: $way while it is recorded: why" "a signal ended the program" "$(cat said)"
        expect_part "view: $way while it is recorded: the screen" "counts" "$(cat said)"
    fi
    expect_equal "view: $way while it is recorded: nothing is left" "" "$(remains)"
done 2>/dev/null

# A trace that is kept, and one that takes too much.
said=$(PYTHONDONTWRITEBYTECODE=1 "$here/../bin/predator" view native --explain 0 --trace own --quantum 1000 -- ./counters 2>&1)
expect_part "view: --trace" "counters" "$said"
expect_equal "view: --trace: it is kept" "exit 0" "$("$judge" end own)"
said=$(PYTHONDONTWRITEBYTECODE=1 "$here/../bin/predator" view native --whole --explain 0 --max-disk 1M -- ./long 2>&1)
expect_part "view: --max-disk: the program goes on" "sum 600000" "$said"
expect_part "view: --max-disk: it is said" "THE RECORDING IS INCOMPLETE" "$said"
expect_part "view: --max-disk: what to do" "raise \`--max-disk\`" "$said"
expect_equal "view: --max-disk: no advice for the whole" "" "$(grep "no change is worth it" <<<"$said")"
said=$(PYTHONDONTWRITEBYTECODE=1 "$here/../bin/predator" view native --explain 0 --trace ./counters -- ./counters 2>&1; echo $?)
expect_part "view: the trace is the program" "this is the program, and stays as it is" "$said"
expect_equal "view: the trace is the program: status" 2 "$(tail -n 1 <<<"$said")"
rm -rf "$stages" own own.table
