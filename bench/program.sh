# A program for a benchmark, in a folder of its own, so that the repository has no source beside its crates. Read by `.` with the top
# of the repository in $root.
#
# program NAME LIBRARY.. <MAIN makes $work/crates/NAME with MAIN as its main.rt, over these libraries, of the repository or of the
# toolchain, and over a copy of all crates that they stand on. $work is removed when the script ends.

# The crates of the repository among these libraries and below them, lowest first.
crates_below() {
    awk -v asked="$*" '
        BEGIN { n = split(asked, names, " "); for (i = 1; i <= n; i++) wanted[names[i]] = 1 }
        /^[ \t]*(#|$)/ { next }
        { name = $1; sub(/:$/, "", name); order[++count] = name; for (i = 2; i <= NF; i++) below[name] = below[name] " " $i }
        END {
            for (again = 1; again;) {
                again = 0
                for (name in wanted) {
                    n = split(below[name], names, " ")
                    for (i = 1; i <= n; i++) if (!(names[i] in wanted)) { wanted[names[i]] = 1; again = 1 }
                }
            }
            for (i = 1; i <= count; i++) if (order[i] in wanted) print order[i]
        }' "$root/crates.txt"
}

program() {
    name=$1
    shift
    work=$(mktemp -d)
    trap 'rm -rf "$work"' EXIT
    mkdir -p "$work/crates/$name/src"
    cp "$root/HANDLES" "$work/"
    for crate in $(crates_below "$@"); do
        mkdir "$work/crates/$crate"
        for part in src specs proofs; do
            [ ! -d "$root/crates/$crate/$part" ] || cp -r "$root/crates/$crate/$part" "$work/crates/$crate/"
        done
        grep "^$crate:" "$root/crates.txt" >>"$work/crates.txt"
    done
    echo "$name: $*" >>"$work/crates.txt"
    cat >"$work/crates/$name/src/main.rt"
}
