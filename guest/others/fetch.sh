#!/usr/bin/env bash
# Fetches the sources that run.py builds from Debian (bookworm) into fetched/.
set -eu
here=$(cd "$(dirname "$(readlink -f "$0")")" && pwd)
# shellcheck source=../from_debian.bash
. "$here/../from_debian.bash"

fetch ck ck
fetch minimap2 minimap2
fetch dpdk dpdk
fetch sqlite3 sqlite3
fetch liburcu liburcu
fetch libzstd zstd
fetch xz-utils xz
fetch bash bash
fetch pugixml pugixml
fetch tinyxml2 tinyxml2
fetch gnulib gnulib
fetch glibc glibc
fetch valgrind valgrind
