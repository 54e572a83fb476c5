# shellcheck shell=bash
# Fetches source packages of Debian (bookworm) into the folder `fetched` beside the script that sources this file and sets `here`, by apt-get
# and dpkg-source (Debian: apt, dpkg-dev). Nothing of the system's own lists of packages is changed. What is there stays.
#
# (the script sets `here`)
# shellcheck disable=SC2154
work=$(mktemp -d)
trap 'rm -rf "$work"' EXIT
keys=/usr/share/keyrings/debian-archive-keyring.gpg
mkdir -p "$work/lists/partial" "$here/fetched"
echo "deb-src [signed-by=$keys] http://deb.debian.org/debian bookworm main" >"$work/sources.list"
options=(-q -q -o "Dir::Etc::sourcelist=$work/sources.list" -o Dir::Etc::sourceparts=/dev/null -o "Dir::State::lists=$work/lists"
    -o Dir::Cache::pkgcache= -o Dir::Cache::srcpkgcache= -o APT::Sandbox::User=root)

# A package, and the folder that it is to stand in. (apt-get has compared its bytes with the signed list.)
is_listed=
fetch() {
    [ -d "$here/fetched/$2" ] && return
    [ -n "$is_listed" ] || apt-get "${options[@]}" update
    is_listed=1
    (cd "$work" && apt-get "${options[@]}" --download-only source "$1")
    dpkg-source --no-check -x "$work/$1"_*.dsc "$work/$2" >/dev/null
    mv "$work/$2" "$here/fetched/$2"
}
