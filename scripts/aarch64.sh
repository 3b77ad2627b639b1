#!/usr/bin/env bash
# Makes a library for aarch64 from the module of the proved library for x86-64.
#
#   scripts/aarch64.sh CRATE FOLDER     reads FOLDER/CRATE.ll and FOLDER/CRATE.words, which scripts/module.sh writes; writes
#                                       FOLDER/libCRATE.a and FOLDER/CRATE.diff, the lines that were changed
#
# These lines of the module are x86-64's: its name, how data is laid out there, and its name in the attributes of functions. They are changed,
# and nothing else. What all others say must not hang on the processor, so each has to be of a form that is listed below: a module
# with any other line, as a struct by value, a vector or a function of somebody else, is refused. Then there is no archive.
set -euo pipefail
. "$(dirname "$0")/kit.sh"
[ $# -eq 2 ] || fail "usage: scripts/aarch64.sh CRATE FOLDER"
root=$(cd "$(dirname "$0")/.." && pwd -P)
case $1 in
agent) header=peatmitten.h ;;
bank) header=peatmitten_bank.h ;;
*) fail "there is no library $1: it is agent or bank" ;;
esac
module=$2/$1.ll
archive=$2/lib$1.a
changes=$2/$1.diff
rm -f "$archive" "$changes"
if [ ! -f "$module" ] || [ ! -f "$2/$1.words" ]; then fail "there is no module of $1 in $2: scripts/module.sh makes it"; fi

# Both have the lowest byte first, pointers of 64 bits, and numbers aligned alike. They differ in the widths that registers have, in which
# alignment is preferred for small numbers, and in long floating point and function pointers: every line with memory says its alignment
# itself, and the others are of no use to the lines below.
x86_layout='e-m:e-p270:32:32-p271:32:32-p272:64:64-i64:64-i128:128-f80:128-n8:16:32:64-S128'
arm_layout='e-m:e-p270:32:32-p271:32:32-p272:64:64-i8:8:32-i16:16:32-i64:64-i128:128-n32:64-S128-Fn32'
x86_triple=x86_64-unknown-linux-gnu
arm_triple=aarch64-unknown-linux-gnu
x86_attribute=' "target-cpu"="x86-64"'

# The forms of lines, as patterns for the whole line.
known_lines() {
    local number='i(1|8|16|32|64)' local_name='%[A-Za-z0-9_.]+' function='@("[^"]+"|peatmitten_[a-z0-9_]+)'
    local one="($number|ptr)" value="($local_name|-?[0-9]+|true|false|null|@static\.[0-9]+)" label="label $local_name" to pair
    local taken="$one( noundef)?( zeroext)? $local_name" handed="$one $value" flags='((nuw|nsw|exact|disjoint|nneg|samesign) )*'
    to="  $local_name = " pair="\{ $one, $one \}"
    printf '%s\n' '' ';.*' 'source_filename = "rattle"' "target datalayout = \"$x86_layout\"" "target triple = \"$x86_triple\""
    # Bytes that do not change, as the marks of a listing; and numbers of 64 bits, as the layout's, which both processors have lowest byte first.
    printf '%s\n' '@static\.[0-9]+ = private unnamed_addr constant \[[0-9]+ x i8\] (c"[^"]*"|zeroinitializer), align (1|8)'
    # Functions have one of three sets of attributes: two are of those that are not to be put into their callers.
    # Within the module functions are called as its compiler likes. They answer one number or pointer, or a pair: both processors have its second
    # part where that part's own alignment puts it.
    printf '%s\n' "define internal (void|noundef (zeroext )?$one|(noundef )?$pair) $function\(($taken(, $taken)*)?\) #[0-2] \{" '\}'
    # Others are called as C does. It hands over pointers and numbers of 32 and 64 bits as they are, eight of them in registers on aarch64.
    taken="(ptr|i32|i64) noundef $local_name"
    printf '%s\n' "define noundef (i32|i64) @peatmitten_[a-z0-9_]+\(($taken(, $taken){0,7})?\) #0 \{"
    printf '%s\n' '[A-Za-z0-9_.]+:( *; (preds = .*|No predecessors!))?' "  br $label" "  br i1 $value, $label, $label" '  unreachable' \
        "  switch $number $value, $label \[" "    $number -?[0-9]+, $label" '  \]' '  ret void' "  ret $handed" "  ret $pair $local_name"
    printf '%s\n' "${to}alloca ($one|\[[0-9]+ x i8\]), align [0-9]+" \
        "${to}load $one, ptr $local_name, align [0-9]+(, !range ![0-9]+)?(, !noundef ![0-9]+)?" \
        "${to}load $pair, ptr $local_name, align [0-9]+" "${to}extractvalue $pair $local_name, [01]" \
        "  store $handed, ptr $local_name, align [0-9]+" \
        "${to}getelementptr ((inbounds|nuw|nusw) )*i8, ptr $local_name, i64 $value"
    printf '%s\n' "$to(add|sub|mul|udiv|urem|and|or|xor|shl|lshr) $flags$number $value, $value" \
        "${to}icmp $flags(eq|ne|ult|ule|ugt|uge|slt) $one $value, $value" \
        "$to(zext|trunc) $flags$number $value to $number" "${to}ptrtoaddr ptr $local_name to i64"
    # What is proved not to be reached traps: the compiler takes it out, or check_traps refuses. And zeros are counted, 64 of them in 0.
    printf '%s\n' '  call void @llvm\.trap\(\)' 'declare void @llvm\.trap\(\) #[1-6]' \
        "${to}call i64 @llvm\.ctlz\.i64\(i64 $value, i1 false\)" 'declare i64 @llvm\.ctlz\.i64\(i64, i1 immarg\) #[1-6]'
    printf '%s\n' "($to|  )call (void|$one|$pair) $function\(($handed(, $handed)*)?\)" \
        "  call void @llvm\.memmove\.p0\.p0\.i64\(ptr $local_name, ptr $local_name, i64 $value, i1 false\)" \
        'declare void @llvm\.memmove\.p0\.p0\.i64\(ptr writeonly captures\(none\), ptr readonly captures\(none\), i64, i1 immarg\) #[1-6]' \
        "  call void @llvm\.memset\.p0\.i64\(ptr $local_name, i8 0, i64 $value, i1 false\)" \
        'declare void @llvm\.memset\.p0\.i64\(ptr writeonly captures\(none\), i8, i64, i1 immarg\) #[1-6]'
    printf '%s\n' "attributes #[0-2] = \{ (cold )?(noinline )?nounwind \"probe-stack\"=\"inline-asm\" \"stack-probe-size\"=\"3072\"$x86_attribute \}" \
        'attributes #[1-6] = \{ nocallback nofree nounwind willreturn memory\(argmem: readwrite\) \}' \
        'attributes #[1-6] = \{ nocallback nofree nounwind willreturn memory\(argmem: write\) \}' \
        'attributes #[1-6] = \{ cold noreturn nounwind memory\(inaccessiblemem: write\) \}' \
        'attributes #[1-6] = \{ nocallback nofree nosync nounwind speculatable willreturn memory\(none\) \}' \
        '!llvm\.ident = !\{!0\}' '!0 = !\{!"rattle logic=[0-9a-f]+"\}' '![0-9]+ = !\{\}' '![0-9]+ = !\{i8 [0-9]+, i8 [0-9]+\}'
}

check_lines() {
    local line
    known_lines >"$work/known"
    line=$(grep -nvxEf "$work/known" "$module" | head -n 1) || true
    [ -z "$line" ] || fail "line ${line%%:*} of the module is of no form that is known for aarch64: ${line#*:}"
}

# A function that the header does not declare would be called by nobody knows whom.
check_functions() {
    local exported declared
    exported=$(sed -n 's/^define [^i].* @\(peatmitten_[a-z0-9_]*\)(.*/\1/p' "$module" | LC_ALL=C sort)
    declared=$(sed -n 's/^[a-z0-9_]* \**\(peatmitten_[a-z0-9_]*\)(.*/\1/p' "$root/include/$header" | LC_ALL=C sort)
    [ "$exported" = "$declared" ] || fail "the module hands out other functions than the header declares:" \
        "$(comm -3 <(echo "$exported") <(echo "$declared") | tr -d '\t' | tr '\n' ' ')"
}

change_lines() {
    local wanted
    sed -e "s|^target datalayout = \"$x86_layout\"\$|target datalayout = \"$arm_layout\"|" \
        -e "s|^target triple = \"$x86_triple\"\$|target triple = \"$arm_triple\"|" \
        -e "/^attributes #[0-2] = /s|$x86_attribute||" "$module" >"$work/module.ll"
    diff "$module" "$work/module.ll" >"$work/changes.diff" || true
    wanted=$((2 + $(grep -c "^attributes .*$x86_attribute" "$module" || true)))
    [ "$(grep -c '^>' "$work/changes.diff")" = "$wanted" ] ||
        fail "$(grep -c '^>' "$work/changes.diff") lines of the module are x86-64's own, not $wanted: target, layout, attributes"
}

# Sets words: the kit's own for x86-64, with the processor and the files changed.
change_words() {
    local word
    words=()
    while read -r word; do
        case $word in
        --target="$x86_triple") words+=(--target="$arm_triple") ;;
        # With the word that the kit gives its clang for this processor.
        -march=x86-64) words+=(-march=armv8-a -mllvm -aarch64-load-store-renaming=false) ;;
        module.bc) words+=("$work/module.ll") ;;
        module.o) words+=("$work/$object") ;;
        --sysroot=*) ;; # for headers and libraries, which a module has no use for
        -ffunction-sections | -fdata-sections | -mllvm | -trap-unreachable | -no-trap-after-noreturn | --no-default-config) words+=("$word") ;;
        -no-x86-call-frame-opt | -disable-machine-licm | -disable-postra-machine-licm | -sink-common-insts=false) words+=("$word") ;;
        -no-canonical-prefixes | -fintegrated-cc1 | -fno-crash-diagnostics | -Werror | -c | -x | ir | -o | -fPIC | -O3) words+=("$word") ;;
        *) fail "a word for the compiler is not known for aarch64: $word" ;;
        esac
    done <"$1"
}

# No function of the library has a trap, whatever the module has where it is proved that nobody comes.
check_traps() {
    local word listing=()
    for word in "${words[@]}"; do
        case $word in
        -c) listing+=(-S) ;;
        "$work/$object") listing+=("$work/listing") ;;
        *) listing+=("$word") ;;
        esac
    done
    "$clang" "${listing[@]}" 2>"$work/errors" || fail "the module cannot be listed for aarch64: $(head -n 1 "$work/errors")"
    ! grep -qE '^[[:space:]]+(brk|udf)[[:space:]]' "$work/listing" ||
        fail "a function of the library would have a trap, of a line that the compiler leaves in its place:   call void @llvm.trap()"
}

find_kit
make_work
check_lines
check_functions
change_lines
object=$1.o
change_words "$2/$1.words"
"$clang" "${words[@]}" 2>"$work/errors" || fail "the module does not compile for aarch64: $(head -n 1 "$work/errors")"
check_traps
(cd "$work" && "$archiver" rcsD --format=gnu library.a "$object") || fail "the archive cannot be made"
cp "$work/changes.diff" "$changes"
mv "$work/library.a" "$archive"
