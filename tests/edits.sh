#!/usr/bin/env bash
# Each must-fail edit still says which text it changes: the line behind `old:` stands once, and only once, in the file that it names. The gate
# begins with this, since `rt ci` tries the edits themselves after the proofs.
set -euo pipefail
test_name=edits
. "$(dirname "$0")/host.sh"
need_cargo
cd "$root"
"$CARGO" run --offline --locked --quiet --manifest-path rust/Cargo.toml --package checks -- edits || say_failed "an edit does not say what it changes"
