#!/usr/bin/env bash
# Runs a program over the plans in vectors/plans and compares what it prints of each with the stored answer; with --bank over those of terminals
# with owners, in vectors/bank/plans.
#
#     tests/run_plans.sh ./peatmitten apply
#     tests/run_plans.sh --bank ./peatmitten bank apply
#
# The arguments are the command; the plan's file is added as its last argument. Prints each difference, then
# `plans: N files, M differences`. The exit status is 0 only if there are files and no differences.
#
# --only PATTERN: the plans of such names alone.
# --at-once: the command is run once, with all files as its last arguments, and prints a line for each.
set -uo pipefail

plans=$(cd "$(dirname "$0")/.." && pwd)/vectors/plans
only='*' at_once=
while :; do
    case ${1:-} in
    --bank) plans=${plans%/plans}/bank/plans ;;
    --only) only=${2:-} && shift ;;
    --at-once) at_once=yes ;;
    *) break ;;
    esac
    shift
done
if [ $# -eq 0 ]; then
    echo "usage: tests/run_plans.sh [--bank] [--only PATTERN] [--at-once] COMMAND [ARGUMENT...]" >&2
    exit 2
fi
differences=0

# Of a file: what was expected and what was got, with line feeds as \n.
different() {
    printf '%s: expected %s, got %s\n' "$1" "$2" "$3"
    differences=$((differences + 1))
}

# The whole output counts, so that its last line feed is not lost: a mark is put after it and taken off again.
printed() {
    "$@" </dev/null
    printf .
}

compare() {
    local name=$1 expected=$2 got
    shift 2
    got=$(printed "$@" "$plans/$name")
    if [ "$got" != "$expected"$'\n.' ]; then
        got=${got%.}
        different "$name" "$expected\\n" "${got//$'\n'/\\n}"
    fi
}

# The same of all at once: as many lines as there are files, each the answer to its file.
compare_all() {
    local got lines k
    got=$(printed "$@" "${names[@]/#/$plans/}")
    mapfile -t lines <<<"${got%.}"
    for k in "${!names[@]}"; do
        [ "${lines[k]:-}" = "${answers[k]}" ] || different "${names[k]}" "${answers[k]}" "${lines[k]:-no line}"
    done
    if [ "$differences" = 0 ] && [ "$got" != "$(printf '%s\n' "${answers[@]}")"$'\n.' ]; then
        different "after the last file" nothing "${got##*"${answers[-1]}"}"
    fi
}

names=() answers=()
declare -A answered
if [ -f "$plans/answers.txt" ]; then
    while read -r name expected; do
        answered[$name]=yes
        # shellcheck disable=SC2053 # a pattern
        if [[ $name == $only ]]; then
            names+=("$name") answers+=("$expected")
        fi
    done <"$plans/answers.txt"
fi
for k in "${!names[@]}"; do
    [ -f "$plans/${names[k]}" ] || different "${names[k]}" "${answers[k]}" "no such file"
done
if [ -n "$at_once" ]; then
    [ ${#names[@]} = 0 ] || compare_all "$@"
else
    for k in "${!names[@]}"; do
        [ ! -f "$plans/${names[k]}" ] || compare "${names[k]}" "${answers[k]}" "$@"
    done
fi
files=${#names[@]}
for file in "$plans"/*.plan; do
    name=${file##*/}
    if [ -f "$file" ] && [ -z "${answered[$name]:-}" ]; then
        files=$((files + 1))
        different "$name" "a stored answer" "none"
    fi
done

echo "plans: $files files, $differences differences"
[ "$files" -gt 0 ] && [ "$differences" -eq 0 ]
