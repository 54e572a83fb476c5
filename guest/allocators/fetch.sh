#!/usr/bin/env bash
# Fetches the allocators' sources from Debian (bookworm) into fetched/.
set -eu
here=$(cd "$(dirname "$(readlink -f "$0")")" && pwd)
# shellcheck source=../from_debian.bash
. "$here/../from_debian.bash"

# Doug Lea's allocator is a file of libffi.
fetch libffi dlmalloc
fetch mimalloc mimalloc
