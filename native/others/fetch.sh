#!/usr/bin/env bash
# Fetches the sources that run.py builds from Debian (bookworm) into fetched/.
set -eu
here=$(cd "$(dirname "$(readlink -f "$0")")" && pwd)
# shellcheck source=../../guest/from_debian.bash
. "$here/../../guest/from_debian.bash"

fetch lmdb lmdb
fetch libevent libevent
fetch onetbb onetbb
fetch haproxy haproxy
