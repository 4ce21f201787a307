# Which systems the release runs on, for the launcher, an installed adsd and the scripts beside them; read by `.`.

# The C library that the release asks for, and the systems that have it.
needed_glibc=2.34
serving_systems="Linux on x86_64 with glibc $needed_glibc or later, as Debian 12, Ubuntu 22.04, Fedora 35, RHEL 9 and newer, also in WSL"

# Why the release can't start on this system; nothing where it can, or where the system doesn't tell.
fault_of_system() {
    local version system
    if [[ $HOSTTYPE-$OSTYPE != x86_64-linux* ]]; then
        system=$(uname -sm)
        echo "it needs $serving_systems; this is $system"
        return
    fi
    version=$(getconf GNU_LIBC_VERSION)
    if [[ $version =~ ^glibc\ ([0-9]+)\.([0-9]+) ]]; then
        ((BASH_REMATCH[1] * 1000 + BASH_REMATCH[2] >= ${needed_glibc%.*} * 1000 + ${needed_glibc#*.})) ||
            echo "it needs $serving_systems; this system has $version"
    elif command -v getconf >/dev/null; then
        echo "it needs $serving_systems; this system has another C library"
    fi
} 2>/dev/null
