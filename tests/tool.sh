#!/usr/bin/env bash
# The tool for plans, logs and state files, by ./peatmitten base, run, show, write, plan, differ, map and log: what it prints, says and keeps, and with
# which status. Each stored plan is run at its own base, and shown, and must be answered as it is stored; one that is accepted is written back, byte for
# byte, from what show prints, and drawn. Each stored log is answered as it is stored. A state file is the same from C.
# shellcheck disable=SC2016,SC2094 # words with the marks of Markdown, and a log that is named as the file to be replaced
set -euo pipefail
test_name=tool
. "$(dirname "$0")/host.sh"
need_library
need_c
need_work
launcher=$root/peatmitten
plans=$root/examples
state=$work/state

# expect STATUS OUTPUT ERRORS ARGUMENT..: of one command. OUTPUT and ERRORS are patterns.
expect() {
    local status=$1 output=$2 errors=$3
    shift 3
    ask "$@"
    # shellcheck disable=SC2053 # the pattern is one
    if [ "$got" != "$status" ] || [[ $printed != $output ]] || [[ $said != $errors ]]; then
        say_failed "peatmitten $*: status $got, printed '$printed', said '$said'"
    fi
}

ask() {
    got=0
    printed=$("$launcher" "$@" 2>"$work/errors") || got=$?
    said=$(cat "$work/errors")
}

# make_state PLAN: the state file of a plan's base.
make_state() {
    "$launcher" base "$1" >"$state" 2>"$work/errors"
}

check_run() {
    make_state "$plans/first.plan"
    expect 1 $'0 1 0, edition 1\n24 0 0, edition 1' '' run "$state" "$plans/first.plan" "$plans/first.plan"
    cp "$state" "$work/before"
    expect 1 $'23 0 0, edition 1: the plan is for another configuration\n20 60 0, edition 1: the field at offset 60 *' '' \
        run --words "$state" "$plans/refused.plan" "$plans/cut.plan"
    expect 1 '20 0 0, edition 1' '' run "$state" - </dev/null
    cmp -s "$state" "$work/before" || say_failed "a refused plan changed the state file"
    make_state "$plans/refused.plan"
    expect 1 '27 2 14, edition 7: request 2 is refused: *' '' run --words "$state" "$plans/refused.plan"
}

# A plan for the right edition and other zones: first.plan as if zone 5 were there already.
check_other_zones() {
    {
        head -c 52 "$plans/first.plan"
        printf '\1\0\0\0\5\0\0\0\0\0\0\0\0\0\0\0'
        tail -c 44 "$plans/first.plan"
    } >"$work/zones.plan"
    make_state "$plans/first.plan"
    expect 1 '26 0 0, edition 0: the plan is for other zones' '' run --words "$state" "$work/zones.plan"
    expect 0 '0 1 0, edition 1: accepted, 1 request' '' run --words "$state" - <"$plans/first.plan"
}

# differs STATUS OUTPUT SED: a plan whose text is moved.txt's without its requests, changed so, beside a terminal with that text's base. OUTPUT
# is a pattern.
differs() {
    local status=$1 output=$2
    shift 2
    sed '/^request/d' "$plans/moved.txt" | sed "$@" | "$launcher" write - >"$work/differs.plan"
    expect "$status" "$output" '' differ "$state" "$work/differs.plan"
}

check_differ() {
    local a='v 0x40000000, p 0x80000000, size 0x200000, rights 3' b='v 0x40000000, p 0x80200000, size 0x200000, rights 3'
    local gic='v 0x8000000, p 0x8000000, size 0x10000, rights 3' other='26 0 0: the plan is for other zones'
    make_state "$plans/refused.plan"
    cp "$state" "$work/before"
    expect 0 'the zones are the same: 1 zone' '' differ "$state" "$plans/refused.plan"
    differs 0 'the zones are the same: 1 zone' ''
    # Another region, another right, another id.
    expect 1 "$other
zone 5, CPU side, the 1st region differs: the terminal has $a, and the plan expects $b
in bytes: offset 170 of the plan, byte 22 of its zones: the terminal has 0x00 there, the plan 0x20" '' \
        differ "$state" "$plans/other_zones.plan"
    differs 1 "$other
the 1st zone differs: the terminal has zone 5, and the plan expects zone 6
in bytes: offset 152 of the plan, byte 4 of its zones: the terminal has 0x05 there, the plan 0x06" 's/^zone 5$/zone 6/'
    # A zone too many in the plan, and none.
    differs 1 "$other
the terminal has 1 zone, and the plan expects 2 zones
the 2nd zone differs: the terminal has none, and the plan expects zone 77
in bytes: offset 148 of the plan, byte 0 of its zones: the terminal has 0x01 there, the plan 0x02" '$a zone 77'
    differs 1 "$other
the terminal has 1 zone, and the plan expects no zone
the 1st zone differs: the terminal has zone 5, and the plan expects none
*" '/^zone 5/,$d'
    # A zone before the terminal's own: its place is told, not that it came later.
    differs 1 "$other
the terminal has 1 zone, and the plan expects 2 zones
the 1st zone differs: the terminal has zone 5, and the plan expects zone 77
*" 's/^zone 5$/zone 77\nzone 5/'
    # A side with a region fewer, with one in another order, and a difference on the other side behind a count of zones.
    differs 1 "$other
zone 5, IOMMU side: the terminal has 2 regions, and the plan expects 1 region
zone 5, IOMMU side, the 1st region differs: the terminal has $a, and the plan expects $gic
in bytes: offset 192 of the plan, byte 44 of its zones: the terminal has 0x02 there, the plan 0x01" '/IOMMU/{n;d;}'
    differs 1 "$other
zone 5, CPU side: the terminal has 1 region, and the plan expects no region
zone 5, CPU side, the 1st region differs: the terminal has $a, and the plan expects none
*" '/CPU/{n;d;}'
    differs 1 "$other
zone 5, IOMMU side, the 1st region differs: the terminal has $a, and the plan expects $gic
*" '/IOMMU/{n;h;d;};/v 0x8000000.*rights 3$/{G;}'
    differs 1 "$other
the terminal has 1 zone, and the plan expects 2 zones
zone 5, IOMMU side, the 2nd region differs: the terminal has $gic, and the plan expects none
*" '/v 0x8000000.*rights 3$/d;$a zone 77'
    # What is judged before the zones is said first, and the zones all the same.
    differs 1 '24 0 0: the plan is for another edition
the terminal is at edition 7, and the plan is for edition 8
the zones are the same: 1 zone' 's/edition: 7/edition: 8/'
    differs 1 '24 0 0: the plan is for another edition
the terminal is at edition 7, and the plan is for edition 6
the 1st zone differs: the terminal has zone 5, and the plan expects zone 6
*' 's/edition: 7/edition: 6/;s/^zone 5$/zone 6/'
    expect 1 '23 0 0: the plan is for another configuration
the terminal has 1 zone, and the plan expects no zone
the 1st zone differs: *' '' differ "$state" "$plans/first.plan"
    # What is no plan, and a terminal that is unsound.
    expect 1 $'20 60 0: the field at offset 60 is not wholly there\nso there are no zones to compare' '' differ "$state" "$plans/cut.plan"
    expect 1 '20 0 0: *' '' differ "$state" - </dev/null
    head -c "$(stat -c %s "$state")" /dev/zero >"$work/zeros"
    expect 1 $'1 0 0: *\nso there are no zones to compare' '' differ "$work/zeros" "$plans/first.plan"
    expect 2 '' 'peatmitten: usage: *' differ "$state"
    expect 2 '' "peatmitten: cannot open $work/none: No such file *" differ "$state" "$work/none"
    cmp -s "$state" "$work/before" || say_failed "differ changed the state file"
}

check_faults() {
    expect 2 '' 'peatmitten: usage: *' run
    expect 2 '' 'peatmitten: usage: *' run --words "$state"
    expect 2 '' "peatmitten: cannot open $work/none: No such file *" run "$work/none" "$plans/first.plan"
    expect 2 '' "peatmitten: cannot read $work: Is a directory *" run "$work" "$plans/first.plan"
    expect 2 '' "peatmitten: cannot read $plans: Is a directory *" run "$state" "$plans"
    expect 2 '' "peatmitten: $plans/first.plan is no state file: a state has $(stat -c %s "$state") bytes" run "$plans/first.plan" "$plans/first.plan"
    expect 1 '' "peatmitten: $plans/unsound.plan has no base: 2 0 0: *" base "$plans/unsound.plan"
    expect 1 '' "peatmitten: $plans/cut.plan has no base: 20 60 0: *" base "$plans/cut.plan"
    expect 2 '' "peatmitten: cannot open $work/none: No such file *" show "$work/none"
    if "$launcher" show "$plans/first.plan" >/dev/full 2>"$work/errors"; then
        say_failed "show: status 0 where standard output is full"
    fi
    [[ $(cat "$work/errors") == 'peatmitten: cannot write standard output: No space left on device'* ]] ||
        say_failed "show, where standard output is full, said '$(cat "$work/errors")'"
}

check_show() {
    expect 0 '*'$'\n    12  format: 2\n*\n    60  request 0: add zone 5\n   100  end: the plan reads whole' '' show "$plans/first.plan"
    expect 1 '*'$'\n    56  requests: 1\n    60  stops here with 20: *' '' show "$plans/cut.plan"
    expect 0 '*   116  region 3: v 0x8000000, p 0x8000000, size 0x10000, rights 3, the GIC*   304  request 1: zone 6, CPU insert: v 0x40000000*' '' \
        show "$plans/refused.plan"
}

# said_of_text ERROR: of a text on standard input, of which nothing may be written.
said_of_text() {
    cat >"$work/text"
    expect 2 '' "peatmitten: $work/text, line $1" write "$work/text"
}

check_write() {
    "$launcher" write "$plans/first.txt" | cmp - "$plans/first.plan" || say_failed "write first.txt does not give first.plan"
    "$launcher" write "$plans/moved.txt" >"$work/moved.plan" || say_failed "write moved.txt: status $?"
    make_state "$work/moved.plan"
    expect 0 '0 4 0, edition 8' '' run "$state" "$work/moved.plan"
    "$launcher" show "$plans/refused.plan" >"$work/text"
    expect 1 '' "peatmitten: $work/text: 27 2 14: request 2 is refused: *" write "$work/text"
    expect 2 '' "peatmitten: cannot open $work/none: No such file *" write "$work/none"
    sed 's/edition: 0/edition: 4294967295/' "$plans/first.txt" >"$work/text"
    expect 1 '' "peatmitten: $work/text: 25 0 0: *" write "$work/text"
    said_of_text '1: expected *GIC position: N*' <<<'gic 0'
    said_of_text '2: expected a number of 32 bits in the place of `4294967296`' <<<$'GIC position: 0\nbase edition: 4294967296'
    said_of_text '1: the text ends without `GIC position: N`' <<<'base edition: 0'
    said_of_text '3: expected `size N` in the place of `length 1`' <<<$'GIC position: 0\n\nregion: v 0, p 0, length 1, rights 3'
    said_of_text '2: expected region 0' <<<$'GIC position: 0\nregion 1: v 0, p 0, size 1, rights 3'
    said_of_text '4: line 3 says 2 configured regions, and there are 1' \
        <<<$'GIC position: 0\nbase edition: 0\nconfigured regions: 2\nregion: v 0x1000, p 0x1000, size 0x1000, rights 3'
    said_of_text '2: expected `add zone ID`*' <<<$'GIC position: 0\nrequest: zone 5, insert'
    sed '/^zone 5/{p;}' "$plans/moved.txt" >"$work/text"
    expect 2 '' "peatmitten: $work/text, line 12: the base table is unsound: *" write "$work/text"
}

# full_text ID: a text of as much as a sound table can have, its zones with ids from ID on.
full_text() {
    local region='v %d, p %d, size 4096, rights 3' zone at numbers
    printf 'GIC position: 255\nbase edition: 0\n'
    for ((at = 0; at < 256; at++)); do
        # shellcheck disable=SC2059 # the format is the variable
        printf "region: $region\n" $((at * 4096)) $((at * 4096))
    done
    for ((zone = 0; zone < 32; zone++)); do
        numbers=()
        for ((at = zone * 8; at < zone * 8 + 8 && at < 255; at++)); do numbers+=($((at * 4096)) $((at * 4096))); done
        # shellcheck disable=SC2059 # the format is the variable
        printf "zone $(($1 + zone))\nCPU regions\n$(printf "region: $region\n" "${numbers[@]}")\nIOMMU regions\n$(printf "region: $region\n" "${numbers[@]}")\n"
    done
}

# From the zones of one text to those of another: the requests that moved.txt has by hand, and back; and what has no plan.
check_plan() {
    "$launcher" write "$plans/moved.txt" >"$work/moved.plan"
    "$launcher" plan "$plans/moved.txt" "$plans/wanted.txt" | cmp - "$work/moved.plan" ||
        say_failed "plan moved.txt wanted.txt is not what write moved.txt gives"
    "$launcher" plan "$plans/wanted.txt" - <"$plans/moved.txt" >"$work/back.plan" || say_failed "plan wanted.txt moved.txt: status $?"
    expect 0 $'*request 0: zone 6, CPU remove: *request 1: remove zone 6\n*request 2: zone 5, CPU insert: *request 3: zone 5, IOMMU insert: *reads whole' '' \
        show "$work/back.plan"
    make_state "$work/moved.plan"
    expect 1 $'0 4 0, edition 8\n24 0 0, edition 8' '' run "$state" "$work/moved.plan" "$work/back.plan"
    "$launcher" plan "$plans/moved.txt" "$plans/moved.txt" >"$work/none.plan" || say_failed "plan moved.txt moved.txt: status $?"
    expect 0 '*requests: 0*reads whole' '' show "$work/none.plan"
    full_text 0 >"$work/full.txt"
    full_text 100 >"$work/other.txt"
    "$launcher" plan "$work/full.txt" "$work/full.txt" >"$work/none.plan" || say_failed "plan of a full table to itself: status $?"
    expect 1 '' "peatmitten: $work/full.txt to $work/other.txt: 29: there are more requests than a plan can have" plan "$work/full.txt" "$work/other.txt"
    expect 2 '' "peatmitten: $work/full.txt is for another configuration than $plans/moved.txt" plan "$plans/moved.txt" "$work/full.txt"
    expect 2 '' 'peatmitten: only one of the two texts can be standard input' plan - - </dev/null
    expect 2 '' 'peatmitten: usage: *' plan "$plans/moved.txt"
    expect 2 '' "peatmitten: cannot open $work/none: No such file *" plan "$plans/moved.txt" "$work/none"
    sed 's/^zone 6/zone 5/' "$plans/wanted.txt" >"$work/text"
    expect 2 '' "peatmitten: $work/text, line 13: the base table is unsound: *" plan "$plans/moved.txt" "$work/text"
    sed 's/^region: v 0x40000000/region: v 0x40000001/' "$plans/wanted.txt" >"$work/text"
    expect 1 '' "peatmitten: $work/text to $work/text: 1: the configuration is unsound" plan "$work/text" "$work/text"
    sed 's/edition: 7/edition: 4294967295/' "$plans/moved.txt" >"$work/text"
    expect 1 '' "peatmitten: $work/text: 25 0 0: *" plan "$work/text" "$plans/wanted.txt"
}

# The stored picture is what is drawn, and every line of the listing is in it. Of a refused plan nothing is drawn.
check_map() {
    local line
    "$launcher" map "$plans/map.plan" >"$work/map.svg" || say_failed "map map.plan: status $?"
    cmp "$work/map.svg" "$root/docs/map.svg" || say_failed "docs/map.svg is not what map draws of map.plan"
    while read -r line; do
        grep -qF "<title>$line</title>" "$work/map.svg" || say_failed "the picture of map.plan does not have: $line"
    done <"$root/crates/list/stdout"
    expect 0 '<svg *No zone holds a region.*</svg>' '' map "$plans/first.plan"
    expect 1 '' "peatmitten: $plans/refused.plan has no map: 27 2 14: request 2 is refused: *" map "$plans/refused.plan"
    expect 1 '' "peatmitten: $plans/unsound.plan has no map: 2 0 0: *" map "$plans/unsound.plan"
    expect 1 '' "peatmitten: $plans/cut.plan has no map: 20 60 0: *" map "$plans/cut.plan"
    expect 2 '' "peatmitten: cannot open $work/none: No such file *" map "$work/none"
}

# In words, what the check of a log finds; and the file of the end zones, which only a log whose claims all hold replaces.
check_log() {
    local a='v 0x40000000, p 0x80000000, size 0x200000, rights 3'
    expect 0 "0 168 0 0: all 4 claims hold
at the end there are 3 zones
zone 5
  CPU regions: 1
    region 0: $a
  IOMMU regions: 2
    region 0: $a
    region 1: v 0x8000000, p 0x8000000, size 0x10000, rights 3
zone 6
*
zone 7
  CPU regions: 0
  IOMMU regions: 0" '' log "$plans/true.log"
    expect 1 "30 2 14 0: the claim for request 2 is false
request 2: zone 6, IOMMU insert: $a
the log claims 0: accepted
the rules say $("$launcher" explain 14)" '' log "$plans/false.log"
    expect 0 $'0 168 0 0: all 4 claims hold\n*' '' log - <"$plans/true.log"
    expect 0 $'0 4 0 0: there are no claims, so all hold\nat the end there is no zone' '' log "$root/vectors/logs/least.log"
    expect 0 $'0 16 0 0: the claim holds\nat the end there is 1 zone\nzone 5\n*' '' log "$root/vectors/logs/first-of-document-01.log"
    expect 1 $'30 9 0 4294967295: *\nrequest 9: add zone 7\nthe log claims 4294967295: no number that is answered\nthe rules say 0: accepted' '' \
        log "$root/vectors/logs/highest-number-claimed.log"
    expect 1 $'21 12 0 0: the count or mark at offset 12 is out of range\nits marks are those of a plan' '' log "$plans/first.plan"
    expect 1 '20 0 0 0: the field at offset 0 is not wholly there' '' log - </dev/null
    expect 1 "1 0 0 0: the log's own configuration is unsound" '' log "$root/vectors/logs/unsound-configuration.log"
    expect 1 '22 708 0 0: the log ends at offset 708, but there are bytes after it' '' log "$root/vectors/logs/byte-after-the-end.log"
    check_log_zones
    check_stored_logs
}

# The section in the file is the zones of a plan: with the log's own beginning before it and no request behind, it is what show reads. What cannot or
# must not be replaced stays, and so does the log.
check_log_zones() {
    local zones=$work/zones log=$work/true.log
    cp "$plans/true.log" "$log"
    expect 0 '0 168 0 0: *' '' log "$log" "$zones"
    { head -c 12 "$log" && printf '\2\0\0\0' && head -c 148 "$log" | tail -c +17 && cat "$zones" && printf '\0\0\0\0'; } >"$work/end.plan"
    expect 0 '*base zones: 3*zone 5*zone 6*zone 7*requests: 0*reads whole' '' show "$work/end.plan"
    printf 'kept' >"$zones"
    expect 1 '30 2 14 0: *' '' log "$plans/false.log" "$zones"
    expect 1 '21 12 0 0: *' '' log "$plans/first.plan" "$zones"
    expect 2 '' "peatmitten: cannot open $work/none: No such file *" log "$work/none" "$zones"
    [ "$(cat "$zones")" = kept ] || say_failed "a log that does not hold changed the file of the zones"
    expect 0 '0 168 0 0: *' '' log "$log" "$zones"
    [ "$(stat -c %s "$zones")" = 168 ] || say_failed "the file of the zones was not replaced whole"
    [ ! -e "$zones.new" ] || say_failed "a file is left beside the zones"
    expect 2 '' "peatmitten: cannot open $work/none/zones.new: No such file *" log "$log" "$work/none/zones"
    expect 2 '' 'peatmitten: the zones go into a file: *' log "$log" -
    expect 2 '' "peatmitten: cannot replace $work: it is no file" log "$log" "$work"
    expect 2 '' 'peatmitten: cannot replace /dev/null: it is no file' log "$log" /dev/null
    expect 2 '' "peatmitten: $log is the log, and would be lost" log "$log" "$log"
    expect 2 '' "peatmitten: $log is the log, and would be lost" log - "$log" <"$log"
    ln "$log" "$work/other.new"
    expect 2 '' "peatmitten: $work/other.new is the log, and would be lost" log "$log" "$work/other"
    cmp "$log" "$plans/true.log" || say_failed "a log was lost"
    expect 2 '' 'peatmitten: usage: *' log
    expect 2 '' 'peatmitten: usage: *' log "$log" "$zones" "$zones"
}

check_stored_logs() {
    local name answer status
    while read -r name answer; do
        status=0
        said=$("${TOOL[@]}" log "$root/vectors/logs/$name") || status=$?
        [[ $said == "$answer: "* ]] || say_failed "$name is $answer; log printed '$said'"
        [ "$status" = "$([[ $answer == 0\ * ]] && echo 0 || echo 1)" ] || say_failed "$name is $answer; log ended with status $status"
    done <"$root/vectors/logs/answers.txt"
}

# Each stored plan at its own base: what it answers, or why it has none; and where it stops reading. One that is accepted is written back from
# what show prints of it.
check_stored_plans() {
    local name answer number place plan last
    while read -r name answer; do
        read -r number place _ <<<"$answer"
        plan=$root/vectors/plans/$name
        if "${TOOL[@]}" base "$plan" >"$state" 2>"$work/errors"; then
            said=$("${TOOL[@]}" run "$state" "$plan" || true)
            [[ $said == "$answer, edition "* ]] || say_failed "$name at its own base is $answer; run printed '$said'"
        else
            [[ $(cat "$work/errors") == *" has no base: $answer: "* ]] || say_failed "base $name, which is $answer: $(cat "$work/errors")"
        fi
        last=$({ "${TOOL[@]}" show "$plan" || true; } | tail -n 1)
        case $number in
        20 | 21 | 22) [[ $last =~ ^\ *$place\ \ stops\ here\ with\ $number: ]] || say_failed "$name is $answer; show ended '$last'" ;;
        *) [[ $last =~ end:\ the\ plan\ reads\ whole$ ]] || say_failed "$name is $answer; show ended '$last'" ;;
        esac
        case $number in
        0)
            "${TOOL[@]}" show "$plan" | "${TOOL[@]}" write - | cmp - "$plan" || say_failed "$name is not written back from what show prints"
            "${TOOL[@]}" map "$plan" >"$work/map.svg" || say_failed "$name is accepted, and not drawn"
            [ "$(tail -n 1 "$work/map.svg")" = '</svg>' ] || say_failed "the picture of $name does not end"
            ;;
        25 | 27)
            if "${TOOL[@]}" show "$plan" | "${TOOL[@]}" write - >"$work/written" 2>"$work/errors"; then
                say_failed "$name is $answer, and is written all the same"
            fi
            [[ $(cat "$work/errors") == *": $answer: "* ]] || say_failed "write of $name, which is $answer: $(cat "$work/errors")"
            ;;
        esac
    done <"$root/vectors/plans/answers.txt"
}

# The C example and the tool keep the same state in the same bytes, and take each other's files.
check_same_from_c() {
    "$CC" -std=c11 -I"$root/include" "$root/examples/c/apply_plan.c" "$ARCHIVE" -o "$work/apply_plan"
    $EMULATOR "$work/apply_plan" -s "$work/from_c" "$plans/first.plan" >/dev/null
    make_state "$plans/first.plan"
    "$launcher" run "$state" "$plans/first.plan" >/dev/null
    cmp "$state" "$work/from_c" || say_failed "C and the tool keep the same state in different bytes"
}

# The runs that docs/ISOLATION.md shows: what is typed there, line by line, prints the lines between.
check_isolation() {
    local typed
    sed -n 's/^    //p' "$root/docs/ISOLATION.md" >"$work/shown"
    grep -q '^\$ ' "$work/shown" || say_failed "docs/ISOLATION.md shows no run"
    cd "$root"
    while read -r typed <&3; do
        echo "\$ $typed"
        eval "$typed" 2>&1 || true
    done 3< <(sed -n 's/^\$ //p' "$work/shown") >"$work/printed"
    diff "$work/shown" "$work/printed" || say_failed "docs/ISOLATION.md shows (<) what is not printed (>)"
}

# What is not built yet is built here, so that nothing but the tool speaks below.
need_tool
check_run
check_other_zones
check_differ
check_faults
check_show
check_write
check_plan
check_map
check_log
check_stored_plans
check_same_from_c
check_isolation
echo "tool: ok"
