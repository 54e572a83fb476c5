#!/usr/bin/env bash
# Tries `predator view` over small programs: with the program where it is built and knows `misses` and `explain`, and with a stand-in that
# counts by the rules alone. Each test that skips itself has a line that says why. Without Debian's packages the script does: the status is 77,
# and the last line says which are missing.
set -u
here=$(cd "$(dirname "$(readlink -f "$0")")" && pwd)
python=/usr/bin/python3
lacks=()
for it in elftools:python3-pyelftools jinja2:python3-jinja2 jsonschema:python3-jsonschema; do
    "$python" -c "import ${it%:*}" 2>/dev/null || lacks+=("${it#*:}")
done
for it in llvm-symbolizer llvm-objcopy; do
    command -v "$it" >/dev/null || lacks+=(llvm)
done
if ((${#lacks[@]} > 0)); then
    echo "${lacks[*]} missing: apt-get install python3-pyelftools python3-jinja2 python3-jsonschema llvm"
    exit 77
fi
cd "$here/tests" || exit 1
export PYTHONDONTWRITEBYTECODE=1
work=$(mktemp -d)
trap 'rm -rf "$work"' EXIT
failed=0 children=()
for it in test_screens.Screens test_screens.OfThisMachine test_pipes.Pipes test_pipes.PipesOfTheProgram test_fixed_programs test_files test_places test_sweeps test_caches test_pictures test_against test_builds test_fields test_panics.Ways test_panics.Texts test_panics.Names test_panics.OfRust test_golang.Versions test_golang_damage test_golang_names test_golang.OfGo test_landmarks.Ways test_landmarks.Tables test_landmarks.Strange test_marks test_unnamed test_objects test_names test_advice test_comparison test_predicted_lines test_owners test_words test_texts test_blame test_worth test_moving test_reassigned test_waiting test_messages test_completion test_tried test_patches test_followed test_newcomers test_cpp test_filtered test_parts test_shared_bytes test_repairs.Known test_repairs.OfThisMachine; do
    "$python" -W ignore -m unittest -v "$it" >"$work/$it" 2>&1 &
    children+=("$!:$it")
done
"$python" "$here/../tools/recount_misses.py" --try || failed=1
"$python" "$here/../tools/recount_place.py" --try || failed=1
"$python" "$here/../tools/recount_blame.py" --try || failed=1
for it in "${children[@]}"; do
    wait "${it%%:*}" || { failed=1 && cat "$work/${it#*:}"; }
    grep ' \.\.\. skipped ' "$work/${it#*:}"
    echo "${it#*:}: $(tail -n 1 "$work/${it#*:}")"
done
exit "$failed"
