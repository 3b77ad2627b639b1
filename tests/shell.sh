#!/usr/bin/env bash
# The launcher, the scripts and the tests are as shellcheck asks, with what they source; an exception stands in its place with its reason. Where
# there is no shellcheck it is installed from Debian's packages, which needs root.
set -euo pipefail
test_name=shell
. "$(dirname "$0")/host.sh"
cd "$root"

if ! command -v shellcheck >/dev/null; then
    { apt-get update && DEBIAN_FRONTEND=noninteractive apt-get install -y --no-install-recommends shellcheck; } >/dev/null ||
        say_failed "there is no shellcheck, and it could not be installed"
fi
mapfile -t scripts < <(grep -rlIm1 '^#!.*sh$' --exclude-dir=target --exclude-dir=out --exclude-dir=.git .)
[ ${#scripts[@]} -gt 20 ] || say_failed "only these scripts were found: ${scripts[*]}"
shellcheck --check-sourced "${scripts[@]}" || say_failed "shellcheck finds something"
bare=$(grep -rnE 'shellcheck .*disable=[A-Z0-9,]+ *$' "${scripts[@]}" scripts tests || true)
[ -z "$bare" ] || say_failed "an exception without its reason: $bare"
echo "shell: ok, ${#scripts[@]} scripts"
