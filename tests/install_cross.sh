#!/usr/bin/env bash
# Installs what tests/emulated.sh needs to build programs for x86-64 and to run them on another processor: a C compiler, a Rust compiler
# with its standard library for x86-64, and an emulator, all of them Debian's packages. Does nothing where it is all there, or on
# x86-64. Needs root and a Debian package mirror.
#
# It adds amd64 to dpkg's architectures, since Rust's standard library for x86-64 is a package of that architecture. With it comes
# the C library that the emulated programs run with, in the place where they look for it.
set -euo pipefail
test_name=install_cross
. "$(dirname "$0")/host.sh"
choose_processor x86_64

is_installed() {
    is_native ||
        { command -v x86_64-linux-gnu-gcc && command -v qemu-x86_64 && [ -e /lib64/ld-linux-x86-64.so.2 ] && find_cargo; } >/dev/null
}

# Debian's newest Rust compiler stands beside the release's own, as rustc-web, where there is one.
rust_packages() {
    if apt-cache show rustc-web:"$(dpkg --print-architecture)" >/dev/null 2>&1; then
        echo rustc-web cargo-web libstd-rust-web-dev:amd64
    else
        echo rustc cargo libstd-rust-dev:amd64
    fi
}

install_packages() {
    dpkg --add-architecture amd64
    apt-get update
    # shellcheck disable=SC2046 # the names are words
    DEBIAN_FRONTEND=noninteractive apt-get install -y --no-install-recommends \
        gcc-x86-64-linux-gnu libc6-dev-amd64-cross libc6:amd64 qemu-user $(rust_packages)
}

if is_installed; then
    echo "install_cross: ok, nothing to install"
    exit 0
fi
command -v apt-get >/dev/null || say_failed "there is no apt-get"
[ "$(id -u)" = 0 ] || say_failed "it needs root"
install_packages || say_failed "a package could not be installed"
is_installed || say_failed "the packages are installed, but something is still not found"
echo "install_cross: ok"
