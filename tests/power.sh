#!/usr/bin/env bash
# A cut in power, or a call of the system that fails, at every call that the C example and the tool make while they apply two plans: what
# is then in the state file loads, is the old state or the new one, is never older than what was printed, and the plans that are
# left can be applied to it. The calls are played by tests/power_shim.c; the C example is built with the sanitizers that run here.
set -euo pipefail
test_name=power
. "$(dirname "$0")/host.sh"
need_library
need_c
need_rust
need_work
state=$work/state
first=$root/examples/first.plan
second=$work/second.plan
wrapped=(open open64 read write fsync close rename)
warnings=(-std=c11 -Wall -Wextra -Wpedantic -Werror -O1 -g -U_FORTIFY_SOURCE)

build_example() {
    "$CC" "${warnings[@]}" -I"$root/include" "${SANITIZERS[@]}" "${wrapped[@]/#/-Wl,--wrap=}" "$root/examples/c/apply_plan.c" \
        "$root/tests/power_shim.c" "$ARCHIVE" -o "$work/apply_plan" || say_failed "the example does not build"
}

build_tool() {
    local flags
    "$CC" "${warnings[@]}" -c "$root/tests/power_shim.c" -o "$work/shim.o"
    flags="-Clink-arg=$work/shim.o ${wrapped[*]/#/-Clink-arg=-Wl,--wrap=}"
    (cd "$root/rust" && CARGO_TARGET_DIR=$work/rust PEATMITTEN_LIB_DIR=$LIBRARY_DIR RUSTFLAGS=$flags \
        "$CARGO" build --offline --locked --quiet --target "$RUST_TARGET" --package tool) ||
        say_failed "the tool does not build"
}

# run PLAN..: the program under test, with what the variables POWER_.. say; sets status and printed.
run() {
    status=0
    printed=$($EMULATOR "${program[@]}" "$state" "$@" 2>"$work/errors") || status=$?
}

restart_with() {
    rm -f "$state" "$state".*
    [ "$1" = none ] || cp "$1" "$state"
}

# Which edition's state the file is, byte for byte; there is none at edition 0 where the terminal had no file.
stored_edition() {
    local edition
    [ -e "$state" ] || { echo 0; return; }
    for edition in 0 1 2; do
        if cmp -s "$state" "$work/edition$edition"; then
            echo "$edition"
            return
        fi
    done
    echo broken
}

# The states of editions 0, 1 and 2, from runs without faults. Edition 2 has no zones again, so that of edition 0 differs from it in
# the edition only: the last 8 bytes of a state are the edition and padding.
make_states() {
    restart_with none
    run "$first"
    cp "$state" "$work/edition1"
    run "$second"
    [ "$status $printed" = "0 0 1 0, edition 2" ] || say_failed "the second plan: status $status, printed '$printed'"
    cp "$state" "$work/edition2"
    cp "$work/edition2" "$work/edition0"
    printf '\0' | dd of="$work/edition0" bs=1 seek=$(($(stat -c %s "$state") - 8)) conv=notrunc status=none
    # A state of any size takes two writes, so that a program which takes a short one for whole is seen.
    export POWER_WRITES=$(($(stat -c %s "$state") / 2 + 1))
}

# What must hold of a run that ended early, however it did. Prints what does not.
faults() {
    local reported stored
    reported=$(printf '%s' "$printed" | grep -c '^0 ' || true)
    stored=$(stored_edition)
    if [ "$stored" = broken ]; then
        echo "the state file is neither the old state nor a new one"
    elif [ "$stored" -lt "$reported" ] || [ "$stored" -gt $((reported + 1)) ]; then
        echo "$reported plans were reported, and the state file has edition $stored"
    else
        complete "$stored"
    fi
}

# What is left can be applied, and the last state is that of a run without faults. Many cuts leave the same files: from each such, by its
# names and bytes, it is tried once.
complete() {
    local rest=("$first" "$second") left
    left="${program[0]} $(sha256sum "$state"* 2>/dev/null | tr '\n' ' ' || true)"
    ! grep -qxF "$left" "$work/completed" || return 0
    unset POWER_CUT POWER_FAIL POWER_FORGETS
    [ "$1" = 2 ] || run "${rest[@]:$1}"
    if cmp -s "$state" "$work/edition2"; then
        echo "$left" >>"$work/completed"
    else
        echo "from edition $1 the rest of the plans does not lead to edition 2: $printed"
    fi
}

# Sets calls: those of a run of both plans without faults.
count_calls() {
    restart_with "$1"
    rm -f "$work/log"
    POWER_LOG=$work/log run "$first" "$second"
    [ "$status $printed" = $'0 0 1 0, edition 1\n0 1 0, edition 2' ] || say_failed "without faults: status $status, '$printed'"
    mapfile -t calls < <(sed "s#$work/##; s#$work#folder#; s#$root/examples/##" "$work/log")
}

# How the first plan's state is kept. C prints its answer by a call that is not seen here.
check_order() {
    local from=0 saved=('open state.new' write write 'fsync file' close 'rename state' 'open folder' 'fsync folder' close)
    count_calls "$work/edition0"
    while [ "${calls[from]:-}" != 'open state.new' ]; do
        from=$((from + 1))
        [ "$from" -lt ${#calls[@]} ] || say_failed "the state is not written beside: ${calls[*]}"
    done
    [ "${calls[*]:from:9}" = "${saved[*]}" ] || say_failed "these are not the calls in their order: ${calls[*]:from:9}"
    if [[ " ${calls[*]} " == *' write answer '* ]]; then
        [[ " ${calls[*]:0:from} " != *' write answer '* ]] || say_failed "an answer is printed before any state is kept"
        [ "${calls[from + 9]}" = 'write answer' ] || say_failed "the answer is not printed as soon as its state is kept"
    fi
}

# at_every_call CUT|FAIL START: at each call in turn; counts in `tried`, and says what was wrong in `wrong`.
at_every_call() {
    local call fault
    count_calls "$2"
    for ((call = 1; call <= ${#calls[@]}; call++)); do
        restart_with "$2"
        export "POWER_$1=$call"
        run "$first" "$second"
        "check_$1" "${calls[call - 1]}"
        fault=$(faults)
        [ -z "$fault" ] || wrong+="$1 at call $call, ${calls[call - 1]}: $fault"$'\n'
        tried=$((tried + 1))
    done
    unset "POWER_$1"
}

check_CUT() {
    [ "$status" = 99 ] || say_failed "cut before $1: status $status"
}

# A call that failed: status 2, and one line with a file's name and the system's reason. Rust does not look whether a file was closed,
# which says nothing new of one that was read, or written and synced.
check_FAIL() {
    if [ "$1 $status" = 'close 0' ] && [ "${program[1]:-}" = run ]; then
        return
    fi
    [ "$status" = 2 ] || say_failed "$1 failed: status $status"
    local doing='(apply_plan|peatmitten): cannot (open|read|write|sync|close|replace)' reason='Input/output error( \(os error 5\))?'
    grep -Eqx "$doing (${work}[^ ]*|$first|standard output): $reason" "$work/errors" || say_failed "$1 failed, and this was said: $(cat "$work/errors")"
    [ "$(wc -l <"$work/errors")" = 1 ] || say_failed "$1 failed, and more than one line was said"
}

# try_all START..: cuts and failing calls, from each of these files
try_all() {
    local start loses
    wrong=
    check_order
    for start in "$@"; do
        for loses in nothing data names; do
            export POWER_LOSES=$loses
            at_every_call CUT "$start"
            [ -z "$wrong" ] || say_failed "${program[0]##*/}, a cut that takes $loses: $wrong"
        done
        at_every_call FAIL "$start"
        [ -z "$wrong" ] || say_failed "${program[0]##*/}, a call that fails: $wrong"
    done
}

# check_forgotten SYNC LOSES: the test itself must see an agent that leaves out a sync.
check_forgotten() {
    local before=$tried
    wrong=
    export POWER_FORGETS=$1 POWER_LOSES=$2
    at_every_call CUT "$work/edition0"
    unset POWER_FORGETS
    [ -n "$wrong" ] || say_failed "an agent that does not sync its $1 passes"
    tried=$before
}

# What cannot be printed is told, and the state is kept.
check_full_output() {
    restart_with "$work/edition0"
    status=0
    $EMULATOR "${program[@]}" "$state" "$first" >/dev/full 2>"$work/errors" || status=$?
    [[ "$status $(cat "$work/errors")" == "2 "*": cannot write standard output: No space left on device"* ]] ||
        say_failed "standard output is full: status $status, $(cat "$work/errors")"
    [ "$(stored_edition)" = 1 ] || say_failed "standard output is full, and the state is not kept"
}

find_sanitizers
build_example
build_tool
write_second_plan "$second"
touch "$work/completed"
tried=0
program=("$work/apply_plan" -s)
make_states
try_all none "$work/edition0"
check_forgotten file data
check_forgotten folder names
check_full_output
program=("$work/rust/$RUST_TARGET/debug/peatmitten-tool" run)
try_all "$work/edition0"
check_full_output
echo "power: ok, $tried cuts and failing calls"
