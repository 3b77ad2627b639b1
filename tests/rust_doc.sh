#!/usr/bin/env bash
# The Rust crate's documentation is made without the library; a program without it, or for another target, is refused with a plain word.
set -euo pipefail
test_name=rust_doc
. "$(dirname "$0")/host.sh"
need_c
need_rust
need_work
mkdir "$work/empty"
export CARGO_TARGET_DIR=$work/target PEATMITTEN_LIB_DIR=$work/empty
cd "$root/rust"

# refused TEXT ARGUMENT..: cargo fails, and says that text
refused() {
    local text=$1
    shift
    if "$CARGO" "$@" >"$work/said" 2>&1; then
        say_failed "cargo $* does not fail"
    fi
    grep -q "$text" "$work/said" || { cat "$work/said" >&2; say_failed "cargo $* does not say '$text'"; }
}

options=(--offline --locked --package peatmitten)
RUSTDOCFLAGS='-D warnings' "$CARGO" doc "${options[@]}" --no-deps --target "$RUST_TARGET" >"$work/said" 2>&1 ||
    { cat "$work/said" >&2; say_failed "no documentation without the library"; }
refused "there is no libpeatmitten.a or libagent.a in $work/empty" build "${options[@]}" --target "$RUST_TARGET"
refused "there is no libpeatmitten_bank.a or libbank.a in $work/empty" build "${options[@]}" --target "$RUST_TARGET"
# The crate's own script refuses, so no standard library for these targets is needed.
for target in riscv64gc-unknown-linux-gnu aarch64_be-unknown-linux-gnu aarch64-unknown-freebsd; do
    refused "peatmitten: the library is for Linux on x86-64 and aarch64 only, and this build is for $target" build "${options[@]}" --target "$target"
done
echo "rust_doc: ok"
