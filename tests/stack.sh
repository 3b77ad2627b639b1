#!/usr/bin/env bash
# Measures the stack of both libraries over the stored plans, each at its own base (tests/stack.c, tests/stack_bank.c), and holds the headers to it:
# every function that they declare is measured, and none takes more than include/peatmitten.h says.
set -euo pipefail
test_name=stack
. "$(dirname "$0")/host.sh"
need_library
need_c
need_work
need_tool
pairs=()

# A plan that does not read whole, or whose contents are unsound, has no base; at a state of its own it would take less stack.
while read -r name number _; do
    case $number in
    0 | 25 | 27)
        "${TOOL[@]}" base "$root/vectors/plans/$name" >"$work/$name" || say_failed "there is no base of $name"
        pairs+=("$work/$name" "$root/vectors/plans/$name")
        ;;
    esac
done <"$root/vectors/plans/answers.txt"
[ ${#pairs[@]} -gt 0 ] || say_failed "there are no plans to measure with"

# measure PROGRAM HEADER ARCHIVE ARGUMENTS..
measure() {
    local program=$1 header=$2 archive=$3 measured
    shift 3
    "$CC" -std=c11 -Wall -Wextra -Werror -O1 -I"$root/include" "$root/tests/$program.c" "$archive" -o "$work/$program" ||
        say_failed "the program that measures does not build: $program"
    measured=$($EMULATOR "$work/$program" "$@") || say_failed "a function takes more stack than the header says: $measured"
    echo "$measured"
    [ "$(sed -n 's/^\(peatmitten_[a-z0-9_]*\): .*/\1/p' <<<"$measured" | sort)" = "$(declared_functions "$header")" ] ||
        say_failed "these are not the functions that $header declares"
}

measure stack peatmitten.h "$ARCHIVE" "${pairs[@]}"
measure stack_bank peatmitten_bank.h "$BANK_ARCHIVE" "$root"/vectors/bank/plans/*.plan
echo "stack: ok"
