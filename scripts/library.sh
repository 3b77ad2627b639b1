#!/usr/bin/env bash
# Proves a library and builds it for x86-64, by `rt lib`. The crate is agent, or bank for terminals with owners.
#
#   scripts/library.sh CRATE FOLDER     writes FOLDER/libCRATE.a
#
# The code is for every x86-64 processor; without its flag `rt lib` would make code that needs those of x86-64-v2.
set -euo pipefail
. "$(dirname "$0")/kit.sh"
[ $# -eq 2 ] || fail "usage: scripts/library.sh CRATE FOLDER"
root=$(cd "$(dirname "$0")/.." && pwd -P)
built=$root/crates/$1/out/lib$1.a
target=x86_64-unknown-linux-gnu
rm -f "$2/lib$1.a" "$built"
mkdir -p "$2"
make_work
(cd "$root/crates/$1" && rt lib --cpu x86-64) 2>&1 | tee "$work/said" || fail "the library is not proved, or not built"
grep -q "^logic=proved .*target=$target" "$work/said" || fail "rt does not say that the library is proved, for $target"
[ -f "$built" ] || fail "rt did not write crates/$1/out/lib$1.a"
cp "$built" "$2/lib$1.a.new"
mv "$2/lib$1.a.new" "$2/lib$1.a"
