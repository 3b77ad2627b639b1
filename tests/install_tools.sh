#!/usr/bin/env bash
# Installs what the tests take beside the Rattle toolchain, where it is not there: a C compiler, cargo, shellcheck and some small tools, all of
# them Debian's packages. Does nothing where all is there. Needs root and a Debian package mirror.
set -euo pipefail
test_name=install_tools
. "$(dirname "$0")/host.sh"

# The package that brings a command.
package_of() {
    case $1 in
    cc) echo gcc ;;
    nm | readelf | size) echo binutils ;;
    setpriv | flock) echo util-linux ;;
    cmp | diff) echo diffutils ;;
    awk) echo mawk ;;
    # The crates ask for a newer compiler than Debian 12's own, which has one as rustc-web too.
    cargo | rustc)
        if apt-cache show "$1-web" >/dev/null 2>&1; then echo "$1-web"; else echo "$1"; fi
        ;;
    *) echo "$1" ;;
    esac
}

# The commands that are not there.
missing() {
    local command
    for command in cc cargo rustc shellcheck nm readelf size setpriv flock cmp diff awk tar python3; do
        command -v "$command" >/dev/null || echo "$command"
    done
    # A compiler without the C library's headers builds nothing.
    { ! command -v cc || echo '#include <stdio.h>' | cc -E - -o /dev/null; } >/dev/null 2>&1 || echo libc6-dev
}

mapfile -t commands < <(missing)
if [ ${#commands[@]} = 0 ]; then
    echo "install_tools: ok, nothing to install"
    exit 0
fi
command -v apt-get >/dev/null || say_failed "these are not here, and there is no apt-get: ${commands[*]}"
[ "$(id -u)" = 0 ] || say_failed "these are not here, and to install them it needs root: ${commands[*]}"
apt-get update >/dev/null || say_failed "apt-get cannot read the lists of packages"
packages=(libc6-dev)
for command in "${commands[@]}"; do packages+=("$(package_of "$command")"); done
DEBIAN_FRONTEND=noninteractive apt-get install -y --no-install-recommends "${packages[@]}" >/dev/null ||
    say_failed "a package could not be installed: ${packages[*]}"
mapfile -t commands < <(missing)
[ ${#commands[@]} = 0 ] || say_failed "the packages are installed, but these are still not found: ${commands[*]}"
echo "install_tools: ok, installed ${packages[*]}"
