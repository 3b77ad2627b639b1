#!/usr/bin/env bash
# Builds and tests the Rust crates against the libraries, and compares each library with the ordinary implementation on 1,000,000 cases, on
# the machine's own processor. Nothing is fetched: the crates depend on no others.
set -euo pipefail
test_name=rust
. "$(dirname "$0")/host.sh"
need_library
need_c
need_rust
cases=1000000
export PEATMITTEN_LIB_DIR=$LIBRARY_DIR
options=(--offline --locked --quiet --target "$RUST_TARGET")

cd "$root/rust"
"$CARGO" test "${options[@]}" --workspace || say_failed "a test of the crates"
"$CARGO" run "${options[@]}" --release --package compare -- --cases "$cases" || say_failed "the comparison"
"$CARGO" run "${options[@]}" --release --package compare -- --cases "$cases" --machine bank || say_failed "the comparison with owners"
echo "rust: ok"
