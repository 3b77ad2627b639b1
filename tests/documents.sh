#!/usr/bin/env bash
# Holds documents against the project. docs/RULES.md: each definition that it names is there, the limits are those of the definitions,
# and the annotated plan is examples/first.plan. README.md: it lists the functions of the header, and how much stack is enough for them. Both
# say how long a plan can be, and docs/RULES.md how long a log. Where it is said how many cases are stored, it is so.
# docs/PROMISES.md: it names the must-fail edits that there are. Needs no library.
set -euo pipefail
test_name=documents
. "$(dirname "$0")/host.sh"
need_cargo
cd "$root"
"$CARGO" run --offline --locked --quiet --manifest-path rust/Cargo.toml --package checks -- documents || say_failed "a document says what is not so"
