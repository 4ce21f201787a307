# What the launcher and the scripts beside it run where ADSD_TRY=1 asks for it, in place of what program.sh says: the
# program that tools/try built, unproved. Read by `.` after program.sh, with the top of the repository in $here.
#
# None of this is read without ADSD_TRY=1 but by tools/try; and what makes the release, installs or compares never reads
# it, so that no unproved program gets there.

# Where tools/try puts what it makes: beside each program P a file P.made-of, which has the toolchain and the sum of the
# sources.
tried=$here/out/try

# Sets `sources` to what a program does of: what the crates' definitions and proofs say changes nothing in it.
sources_of_tried() {
    local crate
    sources=(crates.txt)
    while read -r crate; do sources+=("crates/$crate/src"); done <<<"$(crates_of_program "$1")"
}

sum_of_tried() {
    local sources
    sources_of_tried "$1"
    (cd "$here" && find "${sources[@]}" ! -type d -print0 | LC_ALL=C sort -z | xargs -0 sha256sum) | sum_of_input
}

# Whether the unproved program is there, of the sources as they stand; else `tried_fault` says why not.
is_tried() {
    local sources sum
    tried_fault="tools/try builds it, in minutes"
    [ -x "$tried/adsd" ] && { read -r _ && read -r sum; } 2>/dev/null <"$tried/adsd.made-of" || return 1
    sources_of_tried adsd
    [ -n "$(cd "$here" && find "${sources[@]}" -newercm "$tried/adsd.made-of" -print -quit)" ] || return 0
    tried_fault="it is of other sources than these; tools/try builds it anew, in minutes"
    [ "$sum" = "$(sum_of_tried adsd)" ]
}

# Sets `program` to the unproved one, and says so each time. Fails where there is none of these sources.
choose_program() {
    is_tried || return
    program=$tried/adsd
    echo "adsd: unproved: ADSD_TRY=1 asks for out/try/adsd, of which nothing is proved" >&2
}

# Says on standard error why nothing is run.
tell_unbuilt() { echo "adsd: ADSD_TRY=1 asks for the unproved program out/try/adsd; $tried_fault" >&2; }

# What is run, in words.
proved_with() {
    local version sum
    if is_tried && { read -r version && read -r sum; } <"$tried/adsd.made-of"; then
        echo "unproved, built by tools/try with $version, of sources whose src has the sum $sum"
    else
        echo "unproved, and not there: $tried_fault"
    fi
}
