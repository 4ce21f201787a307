# What the launcher and the scripts beside it know of the program; read by `.` with the top of the repository in $here.
. "$here/tools/system.sh"

# The program that is proved and built here, and the one that is run.
built=$here/crates/adsd/out/adsd
program=$built
# What is kept of the last build: the toolchain's version; what its files looked like; the marks of the program, as
# `marks_of` tells them; and its sum and that of its sources. As old as the build's beginning, so that what was changed
# during the build is newer.
stamp=$here/out/adsd.built
# How many seconds the last build by tools/build took.
took=$here/out/adsd.took
# The release: the program for this system, its sum, and what it was made of. tools/release writes it.
release=$here/release/x86_64-linux
# When the release was last found to be good, on which machine, of which folders it was made, and the marks of the
# program.
release_seen=$here/out/adsd.release

# The crates that the program is made of, lowest first, itself last. With them is the library for C, which but for its
# own crate is made of the same.
crates_of_program() {
    awk -v program="${1-adsd}" '
        /^[ \t]*(#|$)/ { next }
        { name = $1; sub(/:$/, "", name); order[++n] = name; for (i = 2; i <= NF; i++) below[name] = below[name] " " $i }
        END {
            wanted[program] = 1
            for (again = 1; again;) {
                again = 0
                for (name in wanted) {
                    m = split(below[name], names, " ")
                    for (i = 1; i <= m; i++) if (!(names[i] in wanted)) { wanted[names[i]] = 1; again = 1 }
                }
            }
            for (i = 1; i <= n; i++) if (order[i] != program && order[i] in wanted) print order[i]
            print program
        }' "$here/crates.txt"
}

# Sets `sources` to the files and folders that the program and the library for C are made of, as they are called from the top.
sources_of_program() {
    local crate part
    sources=(crates.txt HANDLES)
    [ ! -d "$here/crates/adsd_c" ] || sources+=(crates/adsd_c/src crates/adsd_c/specs crates/adsd_c/proofs)
    while read -r crate; do
        for part in src specs proofs; do
            [ ! -d "$here/crates/$crate/$part" ] || sources+=("crates/$crate/$part")
        done
    done <<<"$(crates_of_program)"
}

# The sum of what the program is made of: of the sum and the path of each file, in the order of the paths.
sum_of_sources() {
    local sources
    sources_of_program
    (cd "$here" && find "${sources[@]}" \( -name out -o -name __pycache__ \) -prune -o ! -type d -print0 |
        LC_ALL=C sort -z | xargs -0 sha256sum) | sum_of_input
}

sum_of_input() { sha256sum | cut -d ' ' -f 1; }

# What tells a file from any other: its inode, its length, and when it was last changed (ctime), to the nanosecond. The
# system alone sets that time, and nobody knows beforehand when an archive will be unpacked or a tree copied: so a note
# with these marks was made here, of this very file, and didn't come with the tree.
marks_of() { stat -c '%i %s %.9Z' "$1" 2>/dev/null; }

# What tells one toolchain from another without asking it: the file rt, and the folders that it stands in.
toolchain_files() {
    local rt
    rt=$(command -v rt) && rt=$(readlink -f "$rt") && stat -c '%n %Y %s' "$rt" "${rt%/*}" "${rt%/*/*}" | paste -sd ' '
}

# Whether the program is there and is the one that the build noted, nothing that it is made of is newer, and the
# toolchain is that of the build, where there is one. A folder is newer where a file in it was added or removed.
is_built() {
    [ -x "$built" ] && [ -f "$stamp" ] || return 1
    local version files marks sums sources now
    { read -r version && read -r files && read -r marks && read -r sums; } <"$stamp" || return 1
    [ "$marks" = "$(marks_of "$built")" ] || return 1
    sources_of_program
    [ -z "$(cd "$here" && find "${sources[@]}" -newer "$stamp" -print -quit 2>/dev/null)" ] || return 1
    now=$(toolchain_files) || return 0
    [ "$now" = "$files" ] && return 0
    [ "$(rt version)" = "$version" ] || return 1
    # It is the same one, elsewhere.
    keep "$version" "$now" "$marks" "$sums" -r "$stamp"
}

# Writes the stamp: its four lines, and then the words that give touch its time. It is there whole or not at all.
keep() {
    local made=$stamp.$$
    mkdir -p "${stamp%/*}" && printf '%s\n' "${@:1:4}" >"$made" && touch "${@:5}" "$made" && mv -f "$made" "$stamp"
}

# Notes that the program was proved and built, from $1 seconds after 1970 on.
note_built() {
    keep "$(rt version)" "$(toolchain_files)" "$(marks_of "$built")" "$(sum_of_input <"$built") $(sum_of_sources)" \
        -d "@$1"
}

# What the release was made of: made_of toolchain, made_of sources
made_of() { sed -n "s/^$1 //p" "$release/made-of"; }

# The sum of a file of the release, as SHA256SUMS has it.
noted_sum() { sed -n "s/  $1\$//p" "$release/SHA256SUMS"; }

# Why the release isn't what stands in it, for a system like this one; nothing where it is. Nothing of it is run.
fault_of_bytes() {
    local noted
    if [ "$(uname -sm)" != "Linux x86_64" ]; then
        echo "it is for Linux on x86_64"
    elif [ "$(made_of sources)" != "$(sum_of_sources)" ]; then
        echo "it was made of other sources than these"
    elif noted=$(noted_sum adsd) && [ -z "$noted" ] || [ "$(sum_of_input <"$release/adsd")" != "$noted" ]; then
        echo "its bytes aren't those of its checksum"
    fi
} 2>/dev/null

# Why the release isn't to be run here; nothing where it is. It is run only where its bytes have their sum.
fault_of_release() {
    local fault said
    fault=$(fault_of_bytes)
    if [ -n "$fault" ]; then
        echo "$fault"
    elif ! said=$(printf O:BA | "$release/adsd" sddl 2>&1) || [ "${said##*$'\n'}" != O:S-1-5-32-544 ]; then
        fault=$(fault_of_system)
        [ -n "$fault" ] || fault="it doesn't start here: ${said##*$'\n'}"
        echo "$fault"
    fi
} 2>/dev/null

# Whether there is a release that is made of these sources, whole, and starts here; else `release_fault` says why not. It
# is asked once, and again where one of these files was changed since: by the time of a change (ctime), which no command
# sets back. With `anew` it is asked in any case.
is_release() {
    local since about marks touched sources now
    release_fault=
    [ -d "$release" ] || return 1
    sources_of_program
    if [ "${1-}" != anew ] && [ -f "$release_seen" ] &&
        { read -r since && read -r about && read -r marks; } <"$release_seen" &&
        [ "$about" = "${HOSTNAME-} ${sources[*]}" ] && [[ $since =~ ^[0-9]+$ ]] &&
        [ "$marks" = "$(marks_of "$release/adsd")" ] &&
        touched=$(cd "$here" && find release/x86_64-linux "${sources[@]}" -newerct "@$since" -print -quit) &&
        [ -z "$touched" ]; then
        return 0
    fi
    now=$(($(date +%s) - 1))
    marks=$(marks_of "$release/adsd")
    release_fault=$(fault_of_release)
    [ -z "$release_fault" ] || return 1
    # (where nothing can be kept, it is asked again)
    { mkdir -p "${release_seen%/*}" && printf '%s\n' "$now" "${HOSTNAME-} ${sources[*]}" "$marks" >"$release_seen.$$" &&
        mv -f "$release_seen.$$" "$release_seen"; } 2>/dev/null
    return 0
}

# Sets `program` to what is to be run: what was proved and built here, or else the release. Fails where neither is good.
choose_program() {
    is_built && return
    is_release && program=$release/adsd
}

# Says on standard error why nothing is run, and what a build would take: as long as the last one here, or as one was
# measured.
tell_unbuilt() {
    local seconds by
    [ -z "$release_fault" ] || echo "adsd: the release isn't used: $release_fault"
    if read -r seconds <"$took" && [[ $seconds =~ ^[0-9]{1,9}$ ]]; then
        by=$(printf 'the last time here it took %d:%02d' $((seconds / 60)) $((seconds % 60)))
    else
        by="on four processors it takes an hour where nothing is proved yet"
    fi
    echo "adsd: no program is proved and built of these sources; tools/build does that, and $by"
    command -v rt >/dev/null || echo "adsd: it needs the command rt of the Rattle toolchain, which isn't found"
} >&2 2>/dev/null

# What is run, in words: what it was proved with, and the sum of its sources. The sums of its bytes and of its sources
# are taken now, whatever is kept of earlier calls, and 'proved and built' is said of what has the noted ones alone.
proved_with() {
    local version sources sums
    sources=$(sum_of_sources)
    if is_built; then
        { read -r version && read -r _ && read -r _ && read -r sums; } <"$stamp"
        if [ "$sums" = "$(sum_of_input <"$built") $sources" ]; then
            echo "proved and built here with $version, of sources $sources"
        else
            echo "built here, but its bytes or its sources aren't those of the build's note, of sources $sources"
        fi
    elif is_release anew; then
        version=$(made_of toolchain)
        [ "$version" != unknown ] || version="a toolchain that isn't known, if at all"
        echo "the release, proved and built with $version, of sources $sources"
    else
        [ -z "$release_fault" ] || release_fault="; the release isn't used: $release_fault"
        echo "not built yet, of sources $sources$release_fault"
    fi
}
