# What the scripts know of the library for C; read by `.` behind program.sh.

# The archive that is proved and built here, and the header that tells its calls.
library_built=$here/crates/adsd_c/out/libadsd_c.a
header=$here/include/adsd.h

# Whether the library for C is there and nothing that it is made of is newer.
is_library_built() {
    local crate part of=(crates.txt HANDLES)
    [ -f "$library_built" ] || return 1
    while read -r crate; do
        for part in src specs proofs; do
            [ ! -d "$here/crates/$crate/$part" ] || of+=("crates/$crate/$part")
        done
    done <<<"$(crates_of_program adsd_c)"
    [ -z "$(cd "$here" && find "${of[@]}" -newer "$library_built" -print -quit)" ]
}

# The folder of the toolchain.
toolchain_folder() {
    local rt
    rt=$(command -v rt) && rt=$(readlink -f "$rt") && echo "${rt%/*/*}"
}

# Makes an archive of the library that is built here, with what it takes memory by, which is the toolchain's:
# archive_of_built FILE
archive_of_built() {
    local kit place=$1.$$
    kit=$(toolchain_folder) || return 1
    rm -rf "$place" && mkdir -p "$place" &&
        (cd "$place" && ar x "$library_built" && ar x "$kit/c/liblibc_c.a" &&
            ar rcD made.a $(ar t "$library_built") $(ar t "$kit/c/liblibc_c.a")) &&
        mv -f "$place/made.a" "$1" && rm -rf "$place"
}

# What a linker is told of the shared library: its name, that only the calls of the header are seen from outside, and
# that nothing but code can be run and nothing be written once it stands in memory. The map is a file: shared_flags MAP
shared_flags() {
    printf '{ global: adsd_*; local: *; };\n' >"$1" &&
        flags=(-soname libadsd.so.1 "--version-script=$1" -z relro -z now -z noexecstack --build-id=none)
}

# Whether the toolchain's own linker is here.
has_linker() {
    local kit
    kit=$(toolchain_folder) && [ -x "$kit/toolchain/bin/ld.lld" ] && [ -f "$kit/toolchain/lib/libc.so.6" ]
}

# Links the shared library of an archive by the toolchain's ld.lld, over its C library alone: no file of the system
# goes into it, so that each such toolchain gives the same bytes. link_by_toolchain ARCHIVE FILE
link_by_toolchain() {
    local kit flags status
    kit=$(toolchain_folder)/toolchain && shared_flags "$2.map" || return 1
    "$kit/bin/ld.lld" -shared --no-undefined "${flags[@]}" --whole-archive "$1" --no-whole-archive \
        "$kit/lib/libc.so.6" -o "$2"
    status=$?
    rm -f "$2.map"
    return "$status"
}

# Links it by CC, or cc, over the C library of the system: link_by_compiler ARCHIVE FILE
link_by_compiler() {
    local flags status
    shared_flags "$2.map" || return 1
    "${CC:-cc}" -shared "${flags[@]/#/-Wl,}" -Wl,--whole-archive "$1" -Wl,--no-whole-archive -o "$2"
    status=$?
    rm -f "$2.map"
    return "$status"
}

# Why a file of the release's library isn't to be used; nothing where it is: fault_of_library libadsd.a
fault_of_library() {
    local noted
    if [ ! -f "$release/$1" ]; then
        echo "there is none in the release"
    elif [ "$(uname -sm)" != "Linux x86_64" ]; then
        echo "it is for Linux on x86_64"
    elif [ "$(made_of sources)" != "$(sum_of_sources)" ]; then
        echo "it was made of other sources than these"
    elif noted=$(noted_sum "$1") && [ -z "$noted" ] || [ "$(sum_of_input <"$release/$1")" != "$noted" ]; then
        echo "its bytes aren't those of its checksum"
    fi
} 2>/dev/null
