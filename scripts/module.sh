#!/usr/bin/env bash
# Proves a library, builds it for x86-64 as scripts/library.sh does, and keeps the LLVM module that it is compiled from. The crate is agent,
# or bank for terminals with owners.
#
#   scripts/module.sh CRATE FOLDER     writes FOLDER/CRATE.ll and FOLDER/CRATE.words: the module as text, and clang's words for it
#
# `rt lib` hands the module to the kit's clang and keeps the archive alone. So it is run a second time, from a kit that is made of links, whose
# clang is a script: it keeps the module and its own words, and calls the real one. The second archive must be the first one, byte for byte. Whether
# the module is theirs is then looked at: compiled again, as it is and as text, it must give the archive's object byte for byte.
set -euo pipefail
. "$(dirname "$0")/kit.sh"
[ $# -eq 2 ] || fail "usage: scripts/module.sh CRATE FOLDER"
crate=$1
root=$(cd "$(dirname "$0")/.." && pwd -P)
archive=$root/target/staticlib/lib$crate.a
again=$root/crates/$crate/out/lib$crate.a
triple=x86_64-unknown-linux-gnu
rm -f "$2/$crate.ll" "$2/$crate.words" "$2/lib$crate.a"
mkdir -p "$2"
folder=$(cd "$2" && pwd -P)

link_all_but() { # FROM TO NAME..
    local path from=$1 to=$2
    shift 2
    mkdir -p "$to"
    for path in "$from"/*; do
        [[ " $* " == *" ${path##*/} "* ]] || ln -s "$path" "$to/"
    done
}

# `rt` takes for its kit the folder above its own file, so its two files are copies here.
make_kit() {
    link_all_but "$kit" "$work/kit" bin toolchain
    link_all_but "$kit/bin" "$work/kit/bin" rt rtlib.py
    cp "$kit/bin/rt" "$kit/bin/rtlib.py" "$work/kit/bin/"
    link_all_but "$kit/toolchain" "$work/kit/toolchain" bin
    link_all_but "$kit/toolchain/bin" "$work/kit/toolchain/bin" clang
    cat >"$work/kit/toolchain/bin/clang" <<END
#!/bin/sh
# A second module would be another one than the archive's.
[ ! -e '$work/module.bc' ] || exit 1
/bin/cp module.bc '$work/module.bc' && printf '%s\n' "\$@" >'$work/words' || exit 1
exec '$clang' "\$@"
END
    chmod +x "$work/kit/toolchain/bin/clang"
}

prove() {
    "$root/scripts/library.sh" "$crate" "${archive%/*}"
    rm -f "$again"
    (cd "$root/crates/$crate" && "$work/kit/bin/rt" lib --cpu x86-64) >"$work/said" 2>&1 || { cat "$work/said" && fail "the library is not built again"; }
    grep -q "^logic=proved .*target=$triple" "$work/said" || fail "rt does not say that the library is proved again, for $triple"
    [ -f "$work/module.bc" ] || fail "the kit's clang was called with no module.bc"
    cmp -s "$archive" "$again" || fail "the library is another one the second time"
}

# The object within the archive.
take_object() {
    mkdir "$work/member"
    (cd "$work/member" && "$archiver" x "$archive")
    [ "$(ls "$work/member")" = "$crate.o" ] || fail "the archive holds something else than $crate.o: $(echo "$work/member"/*)"
}

# gives_object FILE: whether a module, compiled with the words that were kept, gives that object.
gives_object() {
    local words
    mapfile -t words <"$work/words"
    rm -rf "$work/again"
    mkdir "$work/again"
    cp "$1" "$work/again/module.bc"
    (cd "$work/again" && "$clang" "${words[@]}" >/dev/null 2>&1) && cmp -s "$work/again/module.o" "$work/member/$crate.o"
}

find_kit
make_work
make_kit
prove
take_object
gives_object "$work/module.bc" || fail "the module that was kept does not give the proved archive's object"
"$clang" --target=$triple --no-default-config -S -emit-llvm -Xclang -disable-llvm-passes -x ir "$work/module.bc" -o "$work/module.ll" ||
    fail "the module cannot be written as text"
gives_object "$work/module.ll" || fail "the module as text does not give the proved archive's object"
cp "$work/words" "$folder/$crate.words"
cp "$work/module.ll" "$folder/$crate.ll"
