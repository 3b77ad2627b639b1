#!/usr/bin/env bash
# The libraries for aarch64, on any processor. The script that makes one from the proved library's module (scripts/aarch64.sh) changes the
# lines that name the processor, and gives the same archive again. A module with anything that it does not know is refused in one line, and leaves no archive.
set -euo pipefail
test_name=aarch64
. "$(dirname "$0")/host.sh"
need_work
built=$root/target/staticlib/aarch64
refused=0

# carry CRATE: of the module and the words in $work. An archive of before lies there.
carry() {
    touch "$work/lib$1.a"
    status=0
    said=$("$root/scripts/aarch64.sh" "$1" "$work" 2>&1) || status=$?
}

check_archive() { # CRATE
    local changed
    cp "$built/$1.ll" "$built/$1.words" "$work/"
    carry "$1"
    [ "$status $said" = '0 ' ] || say_failed "the own module of $1: status $status, said '$said'"
    cmp -s "$work/lib$1.a" "$built/lib$1.a" || say_failed "the archive of $1 is another one the second time"
    changed=$(sed -n 's/^> //p' "$work/$1.diff" | sed 's/ = .*//' | tr '\n' ' ')
    [[ $changed =~ ^'target datalayout target triple attributes #0 '('attributes #1 ')?('attributes #2 ')?$ ]] || say_failed "these lines of $1 are changed: $changed"
}

# refuse TEXT SED..: the module, edited so, is refused with that text.
refuse() {
    local text=$1
    shift
    cp "$built/agent.words" "$work/"
    sed "$@" "$built/agent.ll" >"$work/agent.ll"
    ! cmp -s "$work/agent.ll" "$built/agent.ll" || say_failed "this edit changes nothing: $*"
    expect_refused "$text"
}

expect_refused() {
    carry agent
    [ "$status" = 1 ] || say_failed "'$1' is not refused: status $status, said '$said'"
    [ "$(wc -l <<<"$said")" = 1 ] || say_failed "more than a line is said: $said"
    [[ $said == *"$1"* ]] || say_failed "'$1' is refused otherwise: $said"
    [ ! -e "$work/libagent.a" ] || say_failed "'$1' leaves an archive"
    refused=$((refused + 1))
}

# A line put at the beginning of the first function that is handed out.
within() {
    refuse "$1" "0,/^define noundef /{/^define noundef /{n;s/\$/\n$1/}}"
}

# A function, put before the first one.
beside() {
    refuse "$1" "0,/^define /s/^define /$1 {\nstart:\n  unreachable\n}\n\n&/"
}

check_values() {
    beside 'define internal void @"other"({ i64, i64 } %a0) #0'
    beside 'define internal void @"other"(ptr byval([24 x i8]) align 8 %a0) #0'
    beside 'define void @peatmitten_other(ptr noundef sret([24 x i8]) align 8 %a0) #0'
    beside 'define noundef { i64, i64 } @peatmitten_other() #0'
    beside 'define noundef i8 @peatmitten_other(i8 noundef %a0) #0'
    beside "define noundef i32 @peatmitten_other($(printf 'i64 noundef %%a%d, ' 0 1 2 3 4 5 6 7)i64 noundef %a8) #0"
    beside 'define noundef i32 @peatmitten_other(i128 noundef %a0) #0'
    beside 'define noundef i32 @peatmitten_other(ptr noundef %a0, ...) #0'
    within '  %other = extractvalue { i64, i64 } poison, 0'
    within '  %other = extractvalue { i64, double } %a0, 1'
    within '  %other = insertvalue { i64, i64 } poison, i64 1, 0'
    within '  store { i64, i64 } zeroinitializer, ptr %a0, align 8'
    within '  %other = add <2 x i64> zeroinitializer, zeroinitializer'
    within '  %other = alloca <4 x i32>, align 16'
    within '  %other = fadd double 1.0, 1.0'
    within '  %other = add i128 1, 1'
    within '  %other = load atomic i64, ptr %a0 seq_cst, align 8'
    within '  %other = load volatile i64, ptr %a0, align 8'
    within '  %other = getelementptr { i8, i64 }, ptr %a0, i64 1'
    within '  %other = alloca [3 x i64], align 8'
}

check_functions() {
    beside 'define noundef i32 @other(ptr noundef %a0) #0'
    refuse 'other functions than the header declares: peatmitten_other ' 's/@peatmitten_read(/@peatmitten_other(/'
    refuse 'declare i64 @strlen(ptr)' '0,/^declare /s//declare i64 @strlen(ptr)\n&/'
    refuse 'declare i64 @llvm.ctpop.i64(i64)' '0,/^declare /s//declare i64 @llvm.ctpop.i64(i64)\n&/'
    within '  call void @other()'
    within '  call void asm sideeffect "nop", ""()'
    within '  call void @llvm.trap()'
    within '  call void @llvm.debugtrap()'
    within '  %other = call i64 %a0(i64 1)'
}

# Lines at the module's own level, and words for the compiler.
check_rest() {
    refuse '@static.9 = private unnamed_addr constant [1 x i64] [i64 1], align 8' \
        '0,/^define /s//@static.9 = private unnamed_addr constant [1 x i64] [i64 1], align 8\n&/'
    refuse '@static.9 = private unnamed_addr global [1 x i8] c"a", align 1' \
        '0,/^define /s//@static.9 = private unnamed_addr global [1 x i8] c"a", align 1\n&/'
    refuse '@other = global i64 0' '0,/^define /s//@other = global i64 0\n&/'
    refuse '%other = type { i64, i64 }' '0,/^define /s//%other = type { i64, i64 }\n&/'
    refuse 'module asm "nop"' '0,/^define /s//module asm "nop"\n&/'
    refuse 'target datalayout = "e' 's/^target datalayout = "e-m:e-/&p:32:32-/'
    refuse 'target triple = "x86_64-pc-windows-msvc"' 's/^target triple = .*/target triple = "x86_64-pc-windows-msvc"/'
    refuse '"target-features"="+avx"' 's/"target-cpu"="x86-64"/& "target-features"="+avx"/'
    refuse " lines of the module are x86-64's own, not " '/^target triple/d'
    refuse 'does not compile for aarch64: ' '0,/^  ret i32 .*/s//  ret i32 %none/'
    cp "$built/agent.ll" "$work/"
    sed 's/^-O3$/-mavx/' "$built/agent.words" >"$work/agent.words"
    expect_refused 'a word for the compiler is not known for aarch64: -mavx'
    rm "$work/agent.ll"
    expect_refused 'there is no module of agent in '
}

"$root/peatmitten" library aarch64 >"$work/printed" 2>"$work/said" || say_failed "the library for aarch64 is not built: $(cat "$work/said")"
[ "$(cat "$work/printed")" = "$built/libagent.a" ] || say_failed "./peatmitten library printed '$(cat "$work/printed")'"
[ "$(tail -n 1 "$work/said")" = 'peatmitten: the library for aarch64 Linux is' ] || say_failed "./peatmitten library said '$(cat "$work/said")'"
[ "$("$root/peatmitten" bank library aarch64 2>/dev/null)" = "$built/libbank.a" ] || say_failed "./peatmitten bank library prints another file"
check_archive agent
check_archive bank
check_values
check_functions
check_rest
echo "aarch64: ok, $refused modules refused"
