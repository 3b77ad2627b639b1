#!/usr/bin/env bash
# Runs the proved programs `apply_each` and `bank_apply_each` over all stored plans, each in one process, and compares what they print with the
# stored answers; and some of the plans one by one by `apply` and `bank_apply`, as a user types them.
set -euo pipefail
test_name=all_plans
. "$(dirname "$0")/host.sh"
cd "$root"

some='refused-with-*-first*.plan'
tests/run_plans.sh --only "$some" ./peatmitten apply || say_failed "./peatmitten apply"
tests/run_plans.sh --bank --only "$some" ./peatmitten bank apply || say_failed "./peatmitten bank apply"
need_program apply_each examples/first.plan
tests/run_plans.sh --at-once "${PROGRAM[@]}" || say_failed "apply_each, over all plans"
need_program bank_apply_each examples/bank/own.plan
tests/run_plans.sh --bank --at-once "${PROGRAM[@]}" || say_failed "bank_apply_each, over all plans"
echo "all_plans: $(cat vectors/plans/answers.txt vectors/bank/plans/answers.txt | wc -l) plans, each answered as it is stored"
