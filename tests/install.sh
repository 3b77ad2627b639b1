#!/usr/bin/env bash
# Installs the libraries into a folder, builds a C example of each against what is there, with no other flags than pkg-config's, and runs it. What
# the headers say of their archives holds, for either processor: what they import, no state of their own, which functions. The version is the
# same wherever it stands.
set -euo pipefail
test_name=install
. "$(dirname "$0")/host.sh"
need_c
need_work
version=$(cat "$root/VERSION")

# flags LIBRARY: of pkg-config where it is there; else of the file itself.
flags() {
    if command -v pkg-config >/dev/null; then
        PKG_CONFIG_LIBDIR=$work/usr/lib/pkgconfig PKG_CONFIG_ALLOW_SYSTEM_CFLAGS=1 PKG_CONFIG_ALLOW_SYSTEM_LIBS=1 \
            pkg-config --cflags --libs "$1"
    else
        sed -n 's/^Cflags: //p; s/^Libs: //p' "$work/usr/lib/pkgconfig/$1.pc" |
            sed "s#\${includedir}#$work/usr/include#; s#\${libdir}#$work/usr/lib#"
    fi
}

check_files() {
    local files expected
    "$root/peatmitten" install "$work/usr" >"$work/put" || say_failed "the library cannot be installed"
    files=$(cd "$work" && find usr -type f | sort | tr '\n' ' ')
    expected=$(printf 'usr/%s ' include/peatmitten{,_bank,_bank_store,_bank_words,_store,_words}.h lib/libpeatmitten{,_bank}.a lib/pkgconfig/peatmitten{,_bank}.pc)
    [ "$files" = "$expected" ] || say_failed "these files are installed: $files"
    DESTDIR=$work/image "$root/peatmitten" install /usr/local/ >/dev/null || say_failed "with DESTDIR"
    grep -qx 'prefix=/usr/local' "$work/image/usr/local/lib/pkgconfig/peatmitten.pc" || say_failed "DESTDIR is in the pkg-config file"
    if "$root/peatmitten" install usr >/dev/null 2>&1; then say_failed "a folder that is not from the root on is taken"; fi
    if "$root/peatmitten" install "$work/none" riscv64 >/dev/null 2>&1; then say_failed "a processor that there is no library for is taken"; fi
    touch "$work/file"
    if "$root/peatmitten" install "$work/file" >/dev/null 2>"$work/errors"; then say_failed "a file is taken for a folder"; fi
    grep -q "$work/file" "$work/errors" || say_failed "what cannot be installed is not named"
}

check_example() {
    # shellcheck disable=SC2046 # the flags are words
    (cd "$work" && "$CC" -std=c11 "$root/examples/c/apply_plan.c" $(flags peatmitten) -o apply_plan) || say_failed "the example does not build"
    [ "$($EMULATOR "$work/apply_plan" "$root/examples/first.plan")" = '0 1 0, edition 1' ] || say_failed "the example does not run"
    # shellcheck disable=SC2046 # the flags are words
    (cd "$work" && "$CC" -std=c11 "$root/examples/c/bank_plan.c" $(flags peatmitten_bank) -o bank_plan) ||
        say_failed "the example with owners does not build"
    [ "$($EMULATOR "$work/bank_plan" "$root/examples/bank/own.plan")" = '0 3 0, edition 8' ] || say_failed "the example with owners does not run"
}

# check_installed PROCESSOR MACHINE: MACHINE is how readelf calls the processor.
check_installed() {
    "$root/peatmitten" install "$work/$1" "$1" >/dev/null 2>&1 || say_failed "the library for $1 cannot be installed"
    check_archive "$1" "$2" peatmitten
    check_archive "$1" "$2" peatmitten_bank
}

# check_archive PROCESSOR MACHINE LIBRARY: what the header says of its archive.
check_archive() {
    local archive=$work/$1/lib/lib$3.a imports
    grep -q "($1 Linux)" "$work/$1/lib/pkgconfig/$3.pc" || say_failed "the pkg-config file of $3 does not name $1"
    imports=$(nm -u "$archive" | awk '$1 == "U" { print $2 }' | sort -u | tr '\n' ' ')
    [ "$imports" = 'memset ' ] || say_failed "the archive of $3 for $1 imports: $imports"
    # Of the other processor's, scripts/aarch64.sh asks it of what it compiles.
    [ "$1" != x86_64 ] || ! objdump -d "$archive" | grep -qw ud2 || say_failed "a function of the archive of $3 for $1 has a trap"
    size "$archive" | awk 'NR > 1 { state += $2 + $3 } END { exit state != 0 }' || say_failed "the archive of $3 for $1 has memory of its own"
    readelf -h "$archive" | grep -q "Machine: .*$2\$" || say_failed "the archive of $3 for $1 is not for $2"
    [ "$(nm "$archive" | awk '$2 == "T" { print $3 }' | sort)" = "$(declared_functions "$3.h")" ] ||
        say_failed "the archive of $3 for $1 has other functions than its header declares"
}

# same_version PLACE VERSION
same_version() {
    [ "$2" = "$version" ] || say_failed "$1 has version '$2', and VERSION has '$version'"
}

check_versions() {
    [[ $version =~ ^[0-9]+\.[0-9]+\.[0-9]+$ ]] || say_failed "VERSION is '$version'"
    same_version include/peatmitten.h "$(sed -n 's/^#define PEATMITTEN_VERSION "\(.*\)"$/\1/p' "$root/include/peatmitten.h")"
    same_version rust/Cargo.toml "$(sed -n 's/^version = "\(.*\)"$/\1/p' "$root/rust/Cargo.toml")"
    same_version CHANGELOG.md "$(sed -n 's/^## //p' "$root/CHANGELOG.md" | head -n 1)"
    same_version './peatmitten --version' "$("$root/peatmitten" --version | sed 's/^peatmitten //')"
    same_version peatmitten.pc "$(sed -n 's/^Version: //p' "$work/usr/lib/pkgconfig/peatmitten.pc")"
    same_version peatmitten_bank.pc "$(sed -n 's/^Version: //p' "$work/usr/lib/pkgconfig/peatmitten_bank.pc")"
}

# The Rust crate takes the installed library too.
check_rust() {
    need_rust
    (cd "$root/rust" && CARGO_TARGET_DIR=$work/rust PEATMITTEN_LIB_DIR=$work/usr/lib \
        "$CARGO" test --offline --locked --quiet --target "$RUST_TARGET" --package peatmitten --test typed --test bank) >"$work/tested" 2>&1 ||
        { cat "$work/tested" >&2; say_failed "the Rust crate with the installed library"; }
}

check_files
check_example
check_rust
check_installed x86_64 X86-64
check_installed aarch64 AArch64
check_versions
echo "install: ok"
