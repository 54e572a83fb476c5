#!/usr/bin/env bash
# Tries the proved program as a WebAssembly module: 200 calls against the native program, its speed and memory, the Python package and the
# page in chromium, over the module of dist/ or of anywhere/, or the one that PREDATOR_MODULE names. What node or chromium is missing for
# is skipped, with a line that says so; where the module or both are missing, the status is 77.
set -u
here=$(cd "$(dirname "$(readlink -f "$0")")" && pwd)
python=/usr/bin/python3
module=${PREDATOR_MODULE:-}
for it in "$here/predator.wasm.gz" "$here/../dist/predator.wasm.gz"; do
    if [ -z "$module" ] && [ -f "$it" ]; then module=$it; fi
done
if [ -z "$module" ]; then
    echo "there is no module: \`bin/dist renew\` or anywhere/build.py builds it, with the kit"
    exit 77
fi
tests=(test_python)
if ! command -v node >/dev/null; then
    echo "skipped: the module under node, which isn't installed (Debian 13: nodejs)"
elif ! node -e 'process.exit(Number(process.versions.node.split(".")[0] < 20))'; then
    echo "skipped: the module under node, which wants node 20 or later and has $(node --version)"
else
    tests+=(test_calls test_node)
fi
if ! command -v chromium >/dev/null; then
    echo "skipped: the page in a browser (Debian: chromium)"
elif ! "$python" -c "import elftools, jinja2" 2>/dev/null; then
    echo "skipped: the page in a browser (Debian: python3-pyelftools python3-jinja2)"
else
    tests+=(test_view test_page)
fi
cd "$here/tests" || exit 1
export PYTHONDONTWRITEBYTECODE=1 PREDATOR_MODULE="$module"
status=0
for it in "${tests[@]}"; do
    echo "== $it"
    "$python" -W ignore -m unittest -v "$it" 2>&1 | grep -v '^$' || true
    ((PIPESTATUS[0] == 0)) || status=1
done
exit "$status"
