# What bin/predator and bin/dist know of the program's sources and of dist/, which has the program that was built of them. Both set `top`.
# shellcheck disable=SC2154 # (they do)

# manifest KEY: what dist/manifest says of the program in dist/: its version, its kit, and the sums of its sources and of itself.
manifest() { sed -n "s/^$1 //p" "$top/dist/manifest" 2>/dev/null; }

sha256() { sha256sum <"$1" | cut -c1-64; }

# The folders of the crates that the program stands on, and its own.
folders() {
    awk '
        function want(name,    i, n, names) {
            if (name in below && !(name in seen)) {
                seen[name] = 1
                print "crates/" name
                n = split(below[name], names, " ")
                for (i = 1; i <= n; i++) want(names[i])
            }
        }
        /^[a-z]/ { split($0, part, ":"); split(part[1], head, " "); below[head[1]] = part[2] }
        END { want("predator") }' "$1/crates.txt"
}

# The sum of the program's sources below a folder.
sources() {
    (
        cd "$1" || exit
        folders . | while read -r it; do
            find "$it/src" "$it/specs" "$it/proofs" -type f 2>/dev/null
        done | LC_ALL=C sort | tr '\n' '\0' | xargs -0 sha256sum
    ) 2>/dev/null | sha256sum | cut -c1-64
}
