#!/usr/bin/env bash
# Runs `./peatmitten bank apply` over the stored plans with owners and compares what it prints of each with the stored answer.
set -euo pipefail
cd "$(dirname "$0")/.."
tests/run_plans.sh --bank ./peatmitten bank apply
