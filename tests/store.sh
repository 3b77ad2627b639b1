#!/usr/bin/env bash
# A state in storage, from C: which calls of a part the headers make, in which order, and what they answer when one fails (tests/store_calls.c); what the
# agents with a mapped file and with a simulated NOR flash print, and cuts in power while they start and apply two plans and a refused one. What is then read is a state that was held, no line that was printed is taken back, and the rest of the plans comes
# through. Cuts of the mapped file are played by tests/store_shim.c, at every wait, and a wait that is left out is seen; those of the flash by the
# agent itself, in a start that follows too. The flash's log of marks is tried by tests/nor_cuts.c with words that waver, and wrong logs are
# seen to fail. rust/peatmitten/tests/store.rs visits every storage that cuts can lead to.
set -euo pipefail
test_name=store
. "$(dirname "$0")/host.sh"
need_library
need_c
need_work
plans=("$root/examples/first.plan" "$work/refused.plan" "$work/second.plan")
started=$'edition 0\n0 1 0, edition 1\n27 0 3, edition 1\n0 1 0, edition 2'
table_bytes=33544
warnings=(-std=c11 -Wall -Wextra -Wpedantic -Werror -O1 -g -U_FORTIFY_SOURCE)

build() { # PROGRAM SOURCE OPTION..
    local program=$1
    shift
    "$CC" "${warnings[@]}" -I"$root/include" -I"$root/examples/c" "${SANITIZERS[@]}" "$@" "$ARCHIVE" -o "$work/$program" ||
        say_failed "$program does not build"
}

# run PROGRAM ARGUMENT..: sets status and printed
run() {
    status=0
    printed=$($EMULATOR "$work/$1" "${@:2}" 2>"$work/errors") || status=$?
}

# expect STATUS OUTPUT PROGRAM ARGUMENT..
expect() {
    run "${@:3}"
    [ "$status $printed" = "$1 $2" ] || say_failed "${*:3} printed '$printed' with status $status, not '$2' with $1: $(<"$work/errors")"
}

# The bytes of a slot, by where it begins.
table_at() {
    head -c $(($1 + table_bytes)) "$storage" | tail -c "$table_bytes" | sha256sum
}

# Where the slot of an edition begins.
slot_of_store_plan() {
    echo $((65536 + $1 % 2 * 65536))
}

slot_of_nor_plan() {
    echo $(($1 % 2 * 65536))
}

# The tables of editions 0, 1 and 2, from a run without cuts; the third is the first again.
keep_tables() {
    storage=$work/kept.$program
    expect 1 "$started" "$program" "$storage" "${plans[@]}"
    tables=("$(head -c "$table_bytes" /dev/zero | sha256sum)" "$(table_at "$("slot_of_$program" 1)")" "$(table_at "$("slot_of_$program" 2)")")
    [ "${tables[2]}" = "${tables[0]}" ] || say_failed "$program does not keep the table of edition 2 where it should"
    [ "${tables[1]}" != "${tables[0]}" ] || say_failed "$program does not keep the table of edition 1 where it should"
}

# The highest edition that was printed.
told() {
    sed -n 's/^.*edition //p' <<<"$1" | sort -n | tail -n 1
}

# What is wrong with what a cut left, after something was printed. A start reads it, and the plans that are left are applied.
faults() {
    local before edition rest=("${plans[@]}")
    before=$(told "$1")
    run "$program" "$storage"
    edition=$(told "$printed")
    if [ "$status" != 0 ] || [ -z "$edition" ]; then
        echo "it does not start: status $status, $(<"$work/errors")"
    elif [ "$edition" -lt "${before:-0}" ]; then
        echo "edition $before was told, and $edition is read"
    elif [ "$(table_at "$("slot_of_$program" "$edition")")" != "${tables[edition]:-none}" ]; then
        echo "edition $edition is read with another table"
    elif [ "$edition" -lt 2 ]; then
        [ "$edition" = 0 ] || rest=("${plans[2]}")
        run "$program" "$storage" "${rest[@]}"
        [ "$(told "$printed")" = 2 ] || echo "the rest of the plans does not lead from edition $edition to 2: '$printed'"
    fi
}

# cut_mapped LEAVES MARK: at every wait of a run. Sets wrong to what was wrong.
cut_mapped() {
    local call fault
    wrong=
    for ((call = 1; call <= waits; call++)); do
        rm -f "$storage"
        STORE_CUT=$call STORE_LEAVES=$1 STORE_MARK=$2 run "$program" "$storage" "${plans[@]}"
        [ "$status" = 99 ] || say_failed "cut before wait $call: status $status, $(<"$work/errors")"
        fault=$(faults "$printed")
        [ -z "$fault" ] || wrong+="cut before wait $call, slot $1, mark $2: $fault"$'\n'
        tried=$((tried + 1))
    done
}

try_mapped() {
    local leaves mark
    program=store_plan
    keep_tables
    storage=$work/store
    STORE_LOG=$work/waits run "$program" "$storage" "${plans[@]}"
    waits=$(wc -c <"$work/waits")
    [ "$waits" = 5 ] || say_failed "a start and two plans that are accepted wait $waits times, not 5"
    for leaves in old new mixed junk; do
        for mark in old new; do
            cut_mapped "$leaves" "$mark"
            [ -z "$wrong" ] || say_failed "$wrong"
        done
    done
}

# An agent that leaves out a wait must be seen: STORE_FORGETS LEAVES MARK.
check_forgotten() {
    local before=$tried
    export STORE_FORGETS=$1
    cut_mapped "$2" "$3"
    unset STORE_FORGETS
    [ -n "$wrong" ] || say_failed "an agent that does not wait for its $1 passes"
    tried=$before
}

# In which operations of the flash the power is cut: those of the starts and marks, and some of each slot, which takes an erase and 4,193 words.
operations_to_cut() {
    local slot=$((1 + table_bytes / 8))
    seq 3
    seq 4 499 $((3 + slot))
    seq $((4 + slot)) $((6 + slot))
    seq $((7 + slot)) 499 $((6 + 2 * slot))
    seq $((7 + 2 * slot)) $((9 + 2 * slot))
}

try_flash() {
    local operation again fault said
    program=nor_plan
    keep_tables
    storage=$work/flash
    for operation in $(operations_to_cut); do
        for again in 0 1 2 3; do
            rm -f "$storage"
            run "$program" -c "$operation" "$storage" "${plans[@]}"
            [ "$status" = 3 ] || say_failed "cut in operation $operation: status $status"
            said=$printed
            [ "$again" = 0 ] || run "$program" -c "$again" "$storage"
            fault=$(faults "$said"$'\n'"$printed")
            [ -z "$fault" ] || say_failed "cut in operation $operation of the flash, then in $again of the next start: $fault"
            tried=$((tried + 1))
        done
    done
    rm -f "$storage"
    expect 1 "$started" "$program" -c $((10 + 2 * (1 + table_bytes / 8))) "$storage" "${plans[@]}"
}

try_log() {
    local wrong
    expect_cuts=$($EMULATOR "$work/nor_cuts" right) || say_failed "the log of marks: $expect_cuts"
    [ "$expect_cuts" -gt 100000 ] || say_failed "the log of marks was cut $expect_cuts times only"
    for wrong in claimless first_blank unfinished unstarted; do
        ! $EMULATOR "$work/nor_cuts" "$wrong" >/dev/null || say_failed "a wrong log of marks passes: $wrong"
    done
}

find_sanitizers
build store_plan "$root/examples/c/store_plan.c" "$root/tests/store_shim.c" -Wl,--wrap=mmap,--wrap=msync
build nor_plan "$root/examples/c/nor_plan.c"
build nor_cuts "$root/tests/nor_cuts.c"
build store_calls "$root/tests/store_calls.c" "$BANK_ARCHIVE"
write_second_plan "$work/second.plan"
# The same with a request that is none: it is refused after the table was copied to the other slot.
{ head -c -40 "$work/second.plan" && printf '\0' && tail -c 39 "$work/second.plan"; } >"$work/refused.plan"
expect 0 '' store_calls "$root/examples/first.plan" "$root/examples/bank/own.plan"
tried=0
try_mapped
check_forgotten slot old new
check_forgotten mark new old
try_flash
try_log
echo "store: ok, $tried cuts of two agents, and $expect_cuts of a log of marks"
