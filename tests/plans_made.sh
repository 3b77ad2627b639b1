#!/usr/bin/env bash
# Makes the stored plan and log files and the answers to the named cases again, by the ordinary implementation, and compares them with the
# stored ones byte by byte. It runs on any processor, without the library.
set -euo pipefail
test_name=plans_made
. "$(dirname "$0")/host.sh"
need_cargo
cd "$root/rust"
"$CARGO" run --offline --locked --quiet --package cases --bin plans -- --check || say_failed "a stored file is not what is made"
echo "plans_made: ok"
