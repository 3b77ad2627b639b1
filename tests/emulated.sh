#!/usr/bin/env bash
# On another processor than x86-64: the libraries for x86-64, under an emulator. Each is compared with the ordinary implementation on 50,000
# cases, and the C example is run. On x86-64 the other tests do this, and more of it, without an emulator.
set -euo pipefail
test_name=emulated
. "$(dirname "$0")/host.sh"
unset PEATMITTEN_LIB_DIR
choose_processor x86_64
if is_native; then
    echo "emulated: ok, nothing to emulate: x86-64 is this machine's own processor"
    exit 0
fi
need_library
need_c
need_rust
need_work
cases=50000

check_example() {
    local printed
    "$CC" -std=c11 -I"$root/include" "$root/examples/c/apply_plan.c" "$ARCHIVE" -o "$work/apply_plan" || say_failed "the example does not build"
    printed=$($EMULATOR "$work/apply_plan" "$root/examples/first.plan") || say_failed "the example does not run"
    [ "$printed" = '0 1 0, edition 1' ] || say_failed "the example printed '$printed'"
}

# compare ARGUMENTS..: in a folder of its own: the compiler is another one than that for the machine's own processor, and each would build anew
# what the other built.
compare() {
    (cd "$root/rust" && CARGO_TARGET_DIR=$root/rust/target/emulated PEATMITTEN_LIB_DIR=$LIBRARY_DIR \
        "$CARGO" run --offline --locked --quiet --target "$RUST_TARGET" --release --package compare -- --cases "$cases" "$@") ||
        say_failed "the comparison $*"
}

check_example
compare
compare --machine bank
echo "emulated: ok"
