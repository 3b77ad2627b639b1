#!/usr/bin/env bash
# Builds the C examples against the libraries, plainly and under sanitizers, and compares what they print; holds the headers' limits to the
# libraries', and sees that another layout does not link. The headers are compiled as C++ too.
set -euo pipefail
test_name=c
. "$(dirname "$0")/host.sh"
need_library
need_c
need_work

# build FOLDER OPTIONS..: each example under its own name
build() {
    local folder=$1 example
    shift
    mkdir "$folder"
    for example in apply_plan copy_stretch receive_plan differ_plan list_zones check_log store_plan nor_plan; do
        build_example "$folder/$example" "$ARCHIVE" "$@"
    done
    build_example "$folder/bank_plan" "$BANK_ARCHIVE" "$@"
}

# build_example PROGRAM ARCHIVE OPTIONS..
build_example() {
    local program=$1 archive=$2
    shift 2
    "$CC" -std=c11 -Wall -Wextra -Wpedantic -Werror -O1 -g -I"$root/include" "$@" \
        "$root/examples/c/${program##*/}.c" "$archive" -o "$program" || say_failed "${program##*/} does not build"
}

# expect STATUS OUTPUT PROGRAM ARGUMENTS..
expect() {
    local status=$1 expected=$2 printed got=0
    shift 2
    printed=$($EMULATOR "$@" 2>"$work/errors") || got=$?
    if [ "$got" != "$status" ] || [ "$printed" != "$expected" ]; then
        cat "$work/errors" >&2
        say_failed "${*:2} printed '$printed' with status $got, not '$expected' with $status"
    fi
}

# expect_error TEXT PROGRAM ARGUMENTS..: status 2, nothing on standard output, and that text on standard error
expect_error() {
    local text=$1
    shift
    expect 2 '' "$@"
    [ "$(cat "$work/errors")" = "$text" ] || say_failed "${*:2} said '$(cat "$work/errors")', not '$text'"
}

run_cases() {
    local program=$1/apply_plan plans=$root/examples state=$work/state
    rm -f "$state"
    expect 1 $'0 1 0, edition 1\n24 0 0, edition 1' "$program" "$plans/first.plan" "$plans/first.plan"
    expect 1 '20 60 0, edition 0' "$program" "$plans/cut.plan"
    expect 1 '20 0 0, edition 0' "$program" /dev/null
    expect 1 '23 0 0, edition 0' "$program" "$plans/refused.plan"
    expect 0 '0 1 0, edition 1' "$program" -s "$state" "$plans/first.plan"
    expect 1 '24 0 0, edition 1' "$program" -s "$state" "$plans/first.plan"
    expect_error "apply_plan: cannot open $work/no-such.plan: No such file or directory" "$program" "$work/no-such.plan"
    expect_error "apply_plan: cannot read $work: Is a directory" "$program" "$work"
    expect_error "apply_plan: cannot read $work: Is a directory" "$program" -s "$work" "$plans/first.plan"
    expect_error "apply_plan: cannot open $work/none/state.new: No such file or directory" \
        "$program" -s "$work/none/state" "$plans/first.plan"
    expect_error "apply_plan: $plans/first.plan is no state file: a state has $(stat -c %s "$state") bytes" \
        "$program" -s "$plans/first.plan" "$plans/first.plan"
    expect_error 'usage: apply_plan [-s STATE] PLAN...' "$program"

    program=$1/copy_stretch
    expect 0 $'0x40001ffc: 4 bytes from 0x80002ffc\n0x40002000: 6 bytes from 0x80000000\nPeatmitten' "$program" 0x40001ffc 10
    expect 0 $'0x40001ffc: 4 bytes from 0x80002ffc\nPeat' "$program" 0x40001ffc 4
    expect 0 $'0x40002fff: 1 bytes from 0x80000fff\n.' "$program" 0x40002fff 1
    expect 1 '0x40002fff: 1 bytes from 0x80000fff' "$program" 0x40002fff 2
    expect 1 '' "$program" 0x3fffffff 2
    expect_error 'usage: copy_stretch ADDRESS COUNT' "$program" 0x40000000

    program=$1/receive_plan
    expect 0 '1 pieces, 100 bytes: 0 1 0, edition 1' "$program" 4096 <"$plans/first.plan"
    expect 0 '100 pieces, 100 bytes: 0 1 0, edition 1' "$program" 1 <"$plans/first.plan"
    expect 1 '15 pieces, 100 bytes: 23 0 0, edition 0' "$program" 7 <"$work/other.plan"
    expect 1 '0 pieces, 0 bytes: 20 0 0, edition 0' "$program" 7 </dev/null
    expect 1 '18 pieces, 70000 bytes: 22 100 0, edition 0' "$program" 4000 <"$work/long.plan"
    expect_error 'usage: receive_plan MOST' "$program" 0

    # After first.plan the terminal has zone 5, which that plan does not expect.
    program=$1/differ_plan
    head -c "$(stat -c %s "$state")" /dev/zero >"$work/no_state"
    expect 1 'offset 52, byte 0 of the zones: the terminal has 0x01, the plan 0x00' "$program" "$state" "$plans/first.plan"
    expect 0 'the zones are the same' "$program" "$state" "$work/one_zone.plan"
    expect 1 'offset 56, byte 4 of the zones: the terminal has 0x05, the plan 0x06' "$program" "$state" "$work/other_id.plan"
    expect 1 'no plan: 20 at offset 60' "$program" "$state" "$plans/cut.plan"
    expect 1 'the terminal has no zones to compare: 1' "$program" "$work/no_state" "$plans/first.plan"
    expect_error "differ_plan: $plans/first.plan is no state file: a state has $(stat -c %s "$state") bytes" "$program" "$plans/first.plan" "$plans/first.plan"
    expect_error 'usage: differ_plan STATE PLAN' "$program" "$state"

    expect 0 $'5 CPU 0x0000000040000000 0x0000000080000000 0x0000000000200000 3 262144
5 IOMMU 0x0000000008000000 0x0000000008000000 0x0000000000010000 3 0' "$1/list_zones"

    for program in store_plan nor_plan; do
        rm -f "$work/storage"
        expect 1 $'edition 0\n0 1 0, edition 1\n24 0 0, edition 1' "$1/$program" "$work/storage" "$plans/first.plan" "$plans/first.plan"
        expect 1 $'edition 1\n20 60 0, edition 1' "$1/$program" "$work/storage" "$plans/cut.plan"
        expect_error "$program: cannot open $work: Is a directory" "$1/$program" "$work"
    done

    expect_error "store_plan: $plans/first.plan is no store: one has 196608 bytes" "$1/store_plan" "$plans/first.plan"
    expect_error "nor_plan: $plans/first.plan is no flash: one has 196608 bytes" "$1/nor_plan" "$plans/first.plan"
    expect_error 'usage: store_plan STORE PLAN...' "$1/store_plan"
    expect_error 'usage: nor_plan [-c N] FLASH PLAN...' "$1/nor_plan" -x "$work/storage"

    program=$1/check_log
    expect 0 '0 168 0 0: all claims hold' "$program" <"$plans/true.log"
    expect 1 "30 2 14 0: a claim of the log is false: the rules answer that request otherwise
claimed: accepted
right: a forbidden physical overlap: with a region that another zone holds, or of a CPU region with one in the zone's own CPU set; only the GIC \
may be in the IOMMU sets of several zones" "$program" <"$plans/false.log"
    expect 1 "21 12 0 0: a count is out of range, or the third mark is another format's" "$program" <"$plans/first.plan"
    expect 1 '20 0 0 0: the plan or the log ends before a field is wholly there' "$program" </dev/null
    expect 1 '22 63904 0 0: the plan or the log goes on after its last section' "$program" <"$root/vectors/logs/longest-and-one-byte.log"

    program=$1/bank_plan
    expect 0 '0 3 0, edition 8' "$program" "$plans/bank/own.plan"
    expect 1 $'0 3 0, edition 8\n24 0 0, edition 8\n  the plan is for another edition' "$program" "$plans/bank/own.plan" "$plans/bank/own.plan"
    expect 1 $'27 2 11, edition 7\n  a request is refused, and the whole plan is undone
  the region is not equal to a configured one that the zone owns, or is the GIC for a CPU set' "$program" "$plans/bank/anothers.plan"
    expect 1 $'23 0 0, edition 7\n  the plan is for another configuration, for another position of the GIC, or for other owners' \
        "$program" "$plans/bank/wrong_owner.plan"
    expect_error "bank_plan: $work/no-such.plan: it cannot be opened" "$program" "$work/no-such.plan"
    expect_error "bank_plan: usage: bank_plan PLAN..." "$program"
}

# The header's limits are the library's, and its layout function's name says them.
check_layout() {
    cat >"$work/layout.c" <<'TEXT'
#include <stdio.h>
#include "peatmitten.h"

static int differs(const char *what, uint64_t header, uint32_t which)
{
    if (header != peatmitten_layout(which))
        printf("%s: %llu in the header, %llu in the library\n", what, (unsigned long long)header,
               (unsigned long long)peatmitten_layout(which));
    return header != peatmitten_layout(which);
}

#define NAME_OF(symbol) #symbol
#define TEXT_OF(symbol) NAME_OF(symbol)

int main(void)
{
    char name[100];
    snprintf(name, sizeof name, "peatmitten_layout_%d_%d_%d_%d_%d", PEATMITTEN_MOST_REGIONS, PEATMITTEN_MOST_ZONES, PEATMITTEN_MOST_IN_SET,
             PEATMITTEN_MOST_REQUESTS, PEATMITTEN_REGION_WORDS);
    printf("%s %s\n", name, TEXT_OF(peatmitten_layout));
    return differs("regions", PEATMITTEN_MOST_REGIONS, PEATMITTEN_LAYOUT_REGIONS) |
           differs("zones", PEATMITTEN_MOST_ZONES, PEATMITTEN_LAYOUT_ZONES) |
           differs("regions of a set", PEATMITTEN_MOST_IN_SET, PEATMITTEN_LAYOUT_IN_SET) |
           differs("requests", PEATMITTEN_MOST_REQUESTS, PEATMITTEN_LAYOUT_REQUESTS) |
           differs("words of a region", PEATMITTEN_REGION_WORDS, PEATMITTEN_LAYOUT_REGION_WORDS) |
           differs("longest plan", PEATMITTEN_LONGEST_PLAN, PEATMITTEN_LAYOUT_LONGEST_PLAN) |
           differs("longest listing", PEATMITTEN_LONGEST_LISTING, PEATMITTEN_LAYOUT_LONGEST_LISTING) |
           differs("longest log", PEATMITTEN_LONGEST_LOG, PEATMITTEN_LAYOUT_LONGEST_LOG) | (peatmitten_layout(8) != 0);
}
TEXT
    "$CC" -std=c11 -Wall -Wextra -Wpedantic -Werror -I"$root/include" "$work/layout.c" "$ARCHIVE" -o "$work/layout" ||
        say_failed "a program that asks for the layout does not build"
    printed=$($EMULATOR "$work/layout") || say_failed "header and library differ: $printed"
    [ "${printed% *}" = "${printed#* }" ] || say_failed "the layout function's name is ${printed#* }, and the limits make ${printed% *}"
}

# The same of the header for terminals with owners. It takes its other limits from the first.
check_bank_layout() {
    cat >"$work/bank_layout.c" <<'TEXT'
#include <stdio.h>
#include "peatmitten_bank.h"

#define NAME_OF(symbol) #symbol
#define TEXT_OF(symbol) NAME_OF(symbol)

int main(void)
{
    static const uint64_t header[] = {PEATMITTEN_MOST_REGIONS, PEATMITTEN_MOST_ZONES, PEATMITTEN_MOST_IN_SET, PEATMITTEN_MOST_REQUESTS,
                                      PEATMITTEN_REGION_WORDS, PEATMITTEN_BANK_LONGEST_PLAN, 0};
    int differs = 0;

    for (uint32_t which = 0; which < sizeof header / sizeof *header; which++)
        differs |= header[which] != peatmitten_bank_layout(which);
    printf("peatmitten_bank_layout_%d_%d_%d_%d_%d %s\n", PEATMITTEN_MOST_REGIONS, PEATMITTEN_MOST_ZONES, PEATMITTEN_MOST_IN_SET,
           PEATMITTEN_MOST_REQUESTS, PEATMITTEN_REGION_WORDS, TEXT_OF(peatmitten_bank_layout));
    return differs;
}
TEXT
    "$CC" -std=c11 -Wall -Wextra -Wpedantic -Werror -I"$root/include" "$work/bank_layout.c" "$BANK_ARCHIVE" -o "$work/bank_layout" ||
        say_failed "a program that asks for the layout with owners does not build"
    printed=$($EMULATOR "$work/bank_layout") || say_failed "the header for terminals with owners and its library differ"
    [ "${printed% *}" = "${printed#* }" ] || say_failed "the layout function's name is ${printed#* }, and the limits make ${printed% *}"
}

# check_other_layout HEADER EXAMPLE ARCHIVE: a program with the header of another layout must not link.
check_other_layout() {
    local layout=${1%.h}_layout
    rm -rf "$work/other"
    cp -R "$root/include" "$work/other"
    sed "s/${layout}_[0-9]/&0/" "$root/include/$1" >"$work/other/$1"
    ! "$CC" -std=c11 -I"$work/other" "$root/examples/c/$2.c" "$3" -o "$work/other/program" 2>"$work/errors" ||
        say_failed "a program with $1 of another layout links"
    grep -q "undefined reference.*${layout}_[0-9]0" "$work/errors" || say_failed "another layout of $1 is refused for another reason"
}

# A program that includes both headers, in whatever order, needs both libraries.
check_both() {
    local first second
    for first in peatmitten.h peatmitten_bank_words.h peatmitten_bank_store.h; do
        for second in peatmitten_words.h peatmitten_bank.h peatmitten_store.h; do
            printf '#include "%s"\n#include "%s"\nint main(void)\n{\n    return 0;\n}\n' "$first" "$second" >"$work/both.c"
            "$CC" -std=c11 -Wall -Wextra -Werror -I"$root/include" "$work/both.c" "$ARCHIVE" "$BANK_ARCHIVE" -o "$work/both" ||
                say_failed "a program with $first and $second does not build"
            $EMULATOR "$work/both" || say_failed "a program with $first and $second does not run"
        done
    done
    printf '#include "peatmitten_bank.h"\n#include "peatmitten.h"\nint main(void)\n{\n    return 0;\n}\n' >"$work/both.c"
    ! "$CC" -std=c11 -I"$root/include" "$work/both.c" "$BANK_ARCHIVE" -o "$work/both" 2>/dev/null ||
        say_failed "a program with both headers links without the first library"
}

check_cpp() {
    printf '#include "%s"\n' peatmitten{,_words,_store,_bank_words,_bank_store}.h >"$work/header.cpp"
    "$1" -std=c++11 -Wall -Wextra -Wpedantic -Werror -fsyntax-only -I"$root/include" "$work/header.cpp" ||
        say_failed "the headers do not compile as C++"
}

# first.plan with another position of the GIC, and with so many bytes behind it that it is longer than the longest plan
{ head -c 4 "$root/examples/first.plan" && printf '\1' && tail -c +6 "$root/examples/first.plan"; } >"$work/other.plan"
{ cat "$root/examples/first.plan" && head -c 69900 /dev/zero; } >"$work/long.plan"
# first.plan as if a zone without regions were there: zone 5, and zone 6. No request is asked.
for zone in 'one_zone \5' 'other_id \6'; do
    # shellcheck disable=SC2059 # the format is the variable
    { head -c 52 "$root/examples/first.plan" && printf '\1\0\0\0'"${zone#* }"'\0\0\0\0\0\0\0\0\0\0\0\0\0\0\0'; } >"$work/${zone% *}.plan"
done

build "$work/plain"
run_cases "$work/plain"
check_layout
check_bank_layout
check_other_layout peatmitten.h apply_plan "$ARCHIVE"
check_other_layout peatmitten_bank.h bank_plan "$BANK_ARCHIVE"
check_both

find_sanitizers
if [ ${#SANITIZERS[@]} -gt 0 ]; then
    build "$work/sanitized" "${SANITIZERS[@]}"
    run_cases "$work/sanitized"
fi

if command -v c++ >/dev/null; then
    check_cpp c++
else
    echo "c: there is no C++ compiler, so the headers are not compiled as C++"
fi
echo "c: ok"
