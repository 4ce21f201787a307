# What tools/deb and tools/package put together alike; read by `.` with the top of the repository in $here. The same
# release and sources give the same bytes: nothing of the machine, its clock, language or mask stands in them.

export LC_ALL=C TZ=UTC
umask 022

# Sets `version`, by the date of the first heading of CHANGELOG.md, and SOURCE_DATE_EPOCH, the time of each file.
version_of_tree() {
    local day
    day=$(sed -n 's/^## \([0-9]\{4\}-[0-9]\{2\}-[0-9]\{2\}\).*/\1/p' "$here/CHANGELOG.md" | head -n 1)
    [ -n "$day" ] || fail "CHANGELOG.md has no date"
    version=0.${day//-/}
    SOURCE_DATE_EPOCH=$(date -u -d "$day" +%s)
    export SOURCE_DATE_EPOCH
}

# Puts what tools/install installs, the units of replicas and the changelog below a folder: put_together ROOT PREFIX
# [WORD..], with further words for tools/install. The program is the release's, or the one that ADSD names.
put_together() {
    local root=$1 prefix=$2 share=$1$2/share
    "$here/tools/install" --release "${@:3}" --prefix "$prefix" --destdir "$root" || exit 1
    gzip -9n "$share"/man/man1/* || exit 1
    # The units of replicas, which nothing starts by itself, and the user that they run as.
    install -D -m 644 -t "$root$prefix/lib/systemd/system" "$here"/tools/systemd/*.service "$here"/tools/systemd/*.timer || exit 1
    install -D -m 644 -t "$root$prefix/lib/sysusers.d" "$here/tools/systemd/adsd.conf" || exit 1
    gzip -9nc "$here/CHANGELOG.md" >"$share/doc/adsd/changelog.gz" || exit 1
}

# Gives all below a folder the time of the version.
set_times() { find "$1" -exec touch -h -d "@$SOURCE_DATE_EPOCH" {} + || exit 1; }
