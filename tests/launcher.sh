#!/usr/bin/env bash
# What ./peatmitten prints and says, and with which status: its commands for the shell, by a symbolic link too, with two commands that
# build at once, and where the answer cannot be written. It proves and builds `apply`, `list`, `log` and `bank_apply` if that was not done.
set -euo pipefail
test_name=launcher
. "$(dirname "$0")/host.sh"
need_work
launcher=$root/peatmitten
plans=$root/examples

# expect STATUS OUTPUT ERRORS ARGUMENT..: of one command. ERRORS is a pattern; standard input is the first plan.
expect() {
    local status=$1 output=$2 errors=$3 got=0 printed
    shift 3
    printed=$("$launcher" "$@" <"$plans/first.plan" 2>"$work/errors") || got=$?
    # shellcheck disable=SC2053 # the pattern is one
    if [ "$got" != "$status" ] || [[ $printed != $output ]] || [[ $(cat "$work/errors") != $errors ]]; then
        say_failed "peatmitten $*: status $got, printed '$printed', said '$(cat "$work/errors")'"
    fi
}

check_apply() {
    expect 0 '0 1 0' '' apply "$plans/first.plan"
    expect 0 '27 2 14' '' apply "$plans/refused.plan"
    expect 0 '0 1 0' '' apply -
    expect 2 '' "peatmitten: cannot read $plans: Is a directory" apply "$plans"
    expect 2 '' "apply: cannot open $work/none: No such file or directory" apply "$work/none"
    expect 2 '' 'peatmitten: apply takes one file: *' apply
    [ "$("$launcher" apply - </dev/null)" = '20 0 0' ] || say_failed "no bytes on standard input"
}

# Of an accepted plan the map and nothing else, which may be empty; of a refused one what apply prints.
check_list() {
    expect 0 "$(cat "$root/crates/list/stdout")" '' list "$plans/map.plan"
    grep -qxF '5 CPU 0x0000000040000000 0x0000000080000000 0x0000000000200000 3 262144' "$root/crates/list/stdout" ||
        say_failed "the document's line is not in the listing of map.plan"
    expect 0 '' '' list "$plans/first.plan"
    expect 0 '' '' list -
    expect 1 '27 2 14' '' list "$plans/refused.plan"
    expect 1 '20 60 0' '' list "$plans/cut.plan"
    expect 2 '' "peatmitten: cannot read $plans: Is a directory" list "$plans"
    expect 2 '' "list: cannot open $work/none: No such file or directory" list "$work/none"
    expect 2 '' 'peatmitten: list takes one file: *' list
}

# What the proved program prints of logs, each stored one among them, is as it is stored; the status says whether all claims hold.
check_log() {
    local name answer status
    expect 0 '0 168 0 0' '' log --numbers "$plans/true.log"
    expect 1 '30 2 14 0' '' log --numbers "$plans/false.log"
    expect 1 '21 12 0 0' '' log --numbers -
    while read -r name answer; do
        status=1
        [[ $answer != 0\ * ]] || status=0
        expect "$status" "$answer" '' log --numbers "$root/vectors/logs/$name"
    done <"$root/vectors/logs/answers.txt"
    expect 2 '' "peatmitten: cannot read $plans: Is a directory" log --numbers "$plans"
    expect 2 '' "log: cannot open $work/none: No such file or directory" log --numbers "$work/none"
    expect 2 '' 'peatmitten: log --numbers takes one file: *' log --numbers
}

# What docs/RULES.md says of first.plan with a byte changed, or with one more.
check_changed_plans() {
    local answer at byte
    while read -r answer at byte; do
        cp "$plans/first.plan" "$work/changed.plan"
        printf '%b' "\\x$byte" | dd of="$work/changed.plan" bs=1 seek="$at" conv=notrunc status=none
        grep -q "\`${answer//_/ }\`" "$root/docs/RULES.md" || say_failed "docs/RULES.md does not speak of ${answer//_/ }"
        expect 0 "${answer//_/ }" '' apply "$work/changed.plan"
    done <<'TEXT'
21_0_0 0 2
21_12_0 12 3
22_100_0 100 0
27_0_3 60 7
TEXT
}

# What the prover refuses is not run, and told apart from an answer.
check_not_built() {
    mkdir "$work/bin"
    printf '#!/bin/sh\necho "a fact is false"\nexit 1\n' >"$work/bin/rt"
    chmod +x "$work/bin/rt"
    rm -f "$root/target/peatmitten/apply"
    PATH=$work/bin:$PATH expect 3 '' $'*a fact is false\npeatmitten: apply was not built; *' apply "$plans/first.plan"
}

check_explain() {
    local answer
    answer=$("$launcher" apply "$plans/refused.plan")
    # shellcheck disable=SC2086 # three numbers
    expect 0 $'27: a request is refused*\nplace 2: the index of that request, from 0\n14: a forbidden*' '' explain $answer
    expect 0 $'27: a request is refused*; place: the index*\n14: a forbidden*' '' explain 27 14
    expect 0 '24: the plan is for another edition' '' explain 24 0 0
    expect 0 'C6: a region overlaps*' '' explain C6
    expect 0 '19: the region has too many rights*' '' explain 19
    expect 2 '' 'peatmitten: no number 31; *' explain 31
    expect 2 '' 'peatmitten: the place at 24 is always 0' explain 24 3 0
    expect 2 '' 'peatmitten: only 27 and 30 have an inner number*' explain 24 0 5
    expect 2 '' 'peatmitten: no inner number 18; *' explain 27 0 18
    expect 0 $'27: a request is refused*\nplace 0: *\n19: the region has*' '' explain 27 0 19
    answer=$("$launcher" log --numbers "$plans/false.log" || true)
    # shellcheck disable=SC2086 # four numbers
    expect 0 $'30: a claim of the log is false*\nplace 2: the index *\nthe rules say 14: a forbidden*\nthe log claims 0: accepted' '' explain $answer
    expect 0 $'30: *\nplace 2: *\nthe rules say 0: accepted\nthe log claims 77: no number that is answered' '' explain 30 2 0 77
    expect 0 $'30: *; place: the index *\nthe rules say 14: *' '' explain 30 14
    expect 0 '30: a claim of the log is false*; place: the index of that claim, from 0' '' explain 30
    expect 0 $'0: accepted\nplace 168: *of a log, how many bytes*' '' explain 0 168 0 0
    expect 2 '' 'peatmitten: no inner number 18; *' explain 30 2 18 0
    expect 2 '' 'peatmitten: no claim x: *' explain 30 2 0 x
    expect 2 '' 'peatmitten: only 30 has a claim other than 0' explain 27 2 14 5
    expect 2 '' 'peatmitten: explain takes one to four numbers: *' explain 1 2 3 4 5
}

# For terminals with owners: the same plan is one for a machine or none.
check_bank() {
    expect 0 '0 3 0' '' bank apply "$plans/bank/own.plan"
    expect 0 '27 2 11' '' bank apply "$plans/bank/anothers.plan"
    expect 0 '1 0 0' '' bank apply "$plans/bank/wrong_owner.plan"
    expect 0 '21 52 0' '' bank apply "$plans/first.plan"
    expect 0 '21 52 0' '' bank apply -
    expect 0 '20 400 0' '' apply "$plans/bank/own.plan"
    expect 2 '' "peatmitten: cannot read $plans: Is a directory" bank apply "$plans"
    expect 2 '' "*: cannot open $work/none: No such file or directory" bank apply "$work/none"
    expect 2 '' 'peatmitten: bank apply takes one file: *' bank apply
    expect 0 $'27: a request is refused*\nplace 2: *\n11: *that the zone owns*' '' bank explain 27 2 11
    expect 0 $'27: a request is refused*\nplace 2: *\n11: the region is not equal to a configured one' '' explain 27 2 11
    expect 0 '14: it does not occur: *' '' bank explain 14
    expect 0 '24: the plan is for another edition' '' bank explain 24 0 0
    expect 0 'C7: an owner is wrong: *' '' bank explain C7
    expect 0 'C7: an owner is wrong: *' '' explain C7
    expect 2 '' 'peatmitten: no command bank nothing: *' bank nothing
    expect 2 '' 'peatmitten: no command bank : *' bank
    expect 2 '' 'peatmitten: the library is for x86_64 and aarch64, not for riscv64' bank library riscv64
}

check_rest() {
    expect 0 "peatmitten $(cat "$root/VERSION")" '' --version
    expect 0 'usage: *Exit status:*' '' help
    expect 0 'usage: *' ''
    expect 2 '' 'peatmitten: no command nothing*' nothing
    expect 2 '' 'peatmitten: the library is for x86_64 and aarch64, not for riscv64' library riscv64
    expect 2 '' 'peatmitten: library takes a processor at most: *' library x86_64 aarch64
}

# What cannot be written is told, for an answer and for a text.
check_full_output() {
    local arguments
    for arguments in "apply $plans/first.plan" "list $plans/map.plan" "log --numbers $plans/true.log" "bank apply $plans/bank/own.plan" 'explain 0' \
        help --version; do
        # shellcheck disable=SC2086 # the arguments are words
        if "$launcher" $arguments >/dev/full 2>"$work/errors"; then
            say_failed "peatmitten $arguments: status 0 where standard output is full"
        fi
        [ "$(cat "$work/errors")" = 'peatmitten: cannot write standard output: No space left on device' ] ||
            say_failed "peatmitten $arguments, where standard output is full, said '$(cat "$work/errors")'"
    done
    if "$launcher" --version >&- 2>"$work/errors"; then
        say_failed "peatmitten --version: status 0 where standard output is closed"
    fi
    [ "$(cat "$work/errors")" = 'peatmitten: cannot write standard output: it is closed' ] ||
        say_failed "peatmitten, where standard output is closed, said '$(cat "$work/errors")'"
}

check_link() {
    ln -s "$launcher" "$work/one"
    ln -s one "$work/two"
    [ "$(cd / && PATH=$work:$PATH two apply "$plans/first.plan")" = '0 1 0' ] || say_failed "by a symbolic link on the PATH"
}

# Two commands that must build: one does, the other waits for it.
check_two_at_once() {
    local one two
    rm -f "$root/target/peatmitten/apply"
    "$launcher" apply "$plans/first.plan" >"$work/one.out" 2>"$work/one.errors" &
    one=$!
    "$launcher" apply "$plans/first.plan" >"$work/two.out" 2>"$work/two.errors" &
    two=$!
    wait "$one" || say_failed "the first of two at once: $(cat "$work/one.errors")"
    wait "$two" || say_failed "the second of two at once: $(cat "$work/two.errors")"
    [ "$(cat "$work/one.out" "$work/two.out")" = $'0 1 0\n0 1 0' ] || say_failed "two at once do not both answer"
    [ "$(cat "$work"/*.errors | grep -c 'peatmitten: proving and building apply')" = 1 ] || say_failed "two at once do not build once"
    [ "$(cat "$work"/*.errors | grep -c 'peatmitten: waiting for another command')" = 1 ] || say_failed "two at once do not wait"
}

"$launcher" apply "$plans/first.plan" >/dev/null
"$launcher" list "$plans/map.plan" >/dev/null
"$launcher" log --numbers "$plans/true.log" >/dev/null
"$launcher" bank apply "$plans/bank/own.plan" >/dev/null
check_apply
check_list
check_log
check_bank
check_explain
check_rest
check_changed_plans
check_full_output
check_link
check_not_built
check_two_at_once
echo "launcher: ok"
