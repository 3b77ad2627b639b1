#!/usr/bin/env bash
# Counts the instructions of one call, job by job, for the library and for ordinary Rust (vectors that grow, and the library's own
# memory), takes the times beside, and prints a table. It needs the library (./peatmitten library), a Rust and a C compiler. The emulator
# counts those of x86-64, on x86-64 too, where it is qemu-x86_64 with plugins; else valgrind counts those of the machine's own processor.
#
#   [PEATMITTEN_PROCESSOR=x86_64] rust/bench/count/run.sh [--symbols] [--no-times] [TEXT]
#
# TEXT leaves out the jobs whose names do not have it. --symbols says below each job where the instructions of the library and of ordinary
# Rust on the same memory go. Counts do not depend on what else the machine does; times do, and under an emulator they say little.
set -euo pipefail
test_name=count
. "$(dirname "$0")/../../../tests/host.sh"
# Both of one digit: what a program does with its arguments depends on their length.
few=2
many=9
# The emulator's own processor has the instruction that copies any length, and would count it once for each byte.
processor=Nehalem

symbols=
times=yes
text=
for argument; do
    case $argument in
    --symbols) symbols=yes ;;
    --no-times) times= ;;
    -*) say_failed "usage: rust/bench/count/run.sh [--symbols] [--no-times] [TEXT]" ;;
    *) text=$argument ;;
    esac
done

need_library
need_c
need_rust
need_work

# Sets run to the function that counts here.
choose_counter() {
    if [ "$PROCESSOR" = x86_64 ] && [[ $(qemu-x86_64 -help 2>/dev/null) == *-plugin* ]]; then
        cc -std=c11 -Wall -Wextra -O2 -shared -fPIC "$root/rust/bench/count/count.c" -o "$work/count.so" || say_failed "the plugin does not build"
        run=run_emulated
    elif is_native && command -v valgrind >/dev/null; then
        run=run_natively
    else
        say_failed "it needs qemu-x86_64 with plugins (Debian's package qemu-user, 6 to 8) for x86_64, or valgrind for this machine's own processor"
    fi
}

choose_counter
(
    cd "$root/rust"
    export PEATMITTEN_LIB_DIR=$LIBRARY_DIR
    "$CARGO" build --offline --locked --quiet --release --target "$RUST_TARGET" --package bench
) || say_failed "the benchmark does not build"
bench=${CARGO_TARGET_DIR:-$root/rust/target}/$RUST_TARGET/release/bench

# run_emulated JOB WORKER TIMES FILE: the counts of all symbols, of the whole program.
run_emulated() {
    qemu-x86_64 -cpu "$processor" -plugin "$work/count.so,out=$4" "$bench" work "$1" "$2" "$3" || say_failed "job $1, $2"
}

# run_natively JOB WORKER TIMES FILE: the same. The line after each calls= has what the callee took, which stands at the callee.
run_natively() {
    valgrind --quiet --tool=callgrind --compress-strings=no --compress-pos=no --demangle=no --callgrind-out-file="$work/callgrind" \
        "$bench" work "$1" "$2" "$3" || say_failed "job $1, $2"
    awk '
        /^fn=/ { name = substr($0, 4) }
        /^calls=/ { getline; next }
        /^[0-9]/ { count[name] += $2 }
        END { for (name in count) printf "%d %s\n", count[name], name }
    ' "$work/callgrind" >"$4"
}

# count JOB WORKER: the counts of one call, into $work/WORKER, the largest first. What is done before the first call and after the last
# one is the same in both runs.
count() {
    $run "$1" "$2" "$few" "$work/few"
    $run "$1" "$2" "$many" "$work/many"
    awk -v calls=$((many - few)) '
        { count = $1; sub(/^[0-9]+ /, "") }
        FNR == NR { few[$0] = count; next }
        count > few[$0] { printf "%.1f %s\n", (count - few[$0]) / calls, $0 }
    ' "$work/few" "$work/many" | sort -rn >"$work/$2"
}

total() {
    awk '{ sum += $1 } END { printf "%.0f\n", sum }' "$work/$1"
}

# The names of Rust's functions, readable where there is a program for it.
readable() {
    if command -v c++filt >/dev/null; then c++filt; else cat; fi | sed 's/::h[0-9a-f]\{16\}$//'
}

print_symbols() {
    local worker
    for worker in library fixed; do
        awk '{ count = $1; sub(/^[0-9.]+ /, ""); if (count >= 1 && NR <= 16) printf "    %9.0f  %s\n", count, $0 }' "$work/$worker" | readable |
            sed "s/^/    $worker/"
    done
}

$EMULATOR "$bench" list >"$work/jobs" || say_failed "the benchmark does not run"
: >"$work/times"
if [ -n "$times" ]; then
    $EMULATOR "$bench" times >"$work/times" || say_failed "the benchmark does not run"
fi

echo "| job | library | vectors | same memory | by vectors | by same memory | library, ns | vectors, ns | same memory, ns | by vectors | by same memory |"
echo "|---|---|---|---|---|---|---|---|---|---|---|"
place=0
while read -r name; do
    if [[ $name == *"$text"* ]]; then
        for worker in library vectors fixed; do
            count "$place" "$worker"
        done
        counted="$(total library) $(total vectors) $(total fixed)"
        timed=$(sed -n "$((place + 1))p" "$work/times" | tr '\t' ' ')
        awk -v name="$name" -v counted="$counted" -v timed="$timed" '
            # Numbers as documents write them: 63896 is 63,896.
            function grouped(text) {
                while (match(text, /[0-9][0-9][0-9][0-9]($|[^0-9])/)) text = substr(text, 1, RSTART) "," substr(text, RSTART + 1)
                return text
            }
            BEGIN {
                split(counted, c, " ")
                line = sprintf("| %s | %d | %d | %d | %.2f | %.2f |", name, c[1], c[2], c[3], c[1] / c[2], c[1] / c[3])
                line = line (split(timed, t, " ") == 5 ? sprintf(" %d | %d | %d | %s | %s |", t[1], t[2], t[3], t[4], t[5]) : " | | | | |")
                print grouped(line)
            }'
        [ -z "$symbols" ] || print_symbols
    fi
    place=$((place + 1))
done <"$work/jobs"
