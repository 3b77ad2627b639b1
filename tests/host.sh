# shellcheck shell=bash disable=SC2034 # what is set here is for those who source it
# Sourced by the tests and by ./peatmitten: how programs that link the library are built and run on this machine. They are built for the
# machine's own processor, or for the one that PEATMITTEN_PROCESSOR names: x86_64 or aarch64. For another processor than its own they are
# built by a cross compiler and run under an emulator; for x86_64 tests/install_cross.sh installs both.
#
#   PROCESSOR    the processor that programs are built for
#   LIBRARY_DIR  where its library is: PEATMITTEN_LIB_DIR, or where ./peatmitten builds it
#   ARCHIVE      after need_library, its file: installed it is libpeatmitten.a, as it is built libagent.a
#   BANK_ARCHIVE the same for terminals with owners: libpeatmitten_bank.a, libbank.a
#   CC           after need_c, a C compiler for that processor
#   EMULATOR     after need_c, empty for the machine's own processor, else the command that runs a program
#   SANITIZERS   after find_sanitizers, the C compiler's options for the sanitizers that run here
#   CARGO        after need_rust, what builds the Rust crates; RUST_TARGET is for which target
#   PROGRAM      after need_program, the command of a program that is proved and built
#   TOOL         after need_tool, the command behind ./peatmitten base, run and show
#   work         after need_work, a folder for a test's own files, which is removed when the test ends

root=$(cd "$(dirname "${BASH_SOURCE[0]}")/.." && pwd)

# Where the library for a processor is built.
library_folder() {
    case $1 in
    x86_64) echo "$root/target/staticlib" ;;
    *) echo "$root/target/staticlib/$1" ;;
    esac
}

choose_processor() {
    PROCESSOR=$1
    RUST_TARGET=$1-unknown-linux-gnu
    LIBRARY_DIR=${PEATMITTEN_LIB_DIR:-$(library_folder "$1")}
}

choose_processor "${PEATMITTEN_PROCESSOR:-$(uname -m)}"

say_failed() {
    echo "${test_name:?}: FAILED: $*" >&2
    exit 1
}

need_work() {
    work=$(mktemp -d)
    trap 'rm -rf "$work"' EXIT
}

# write_second_plan FILE: a plan for edition 1 of the terminal that examples/first.plan leaves: remove zone 5.
write_second_plan() {
    local number
    {
        for number in 3 0 1 2 1; do printf '%b\0\0\0' "\\x$number"; done
        printf '\0\0\0\x8\0\0\0\0\0\0\0\x8\0\0\0\0\0\0\x1\0\0\0\0\0\x3\0\0\0\0\0\0\0'
        for number in 1 5 0 0 1 2 5; do printf '%b\0\0\0' "\\x$number"; done
        head -c 32 /dev/zero
    } >"$1"
}

# The functions that a header declares, one a line.
declared_functions() { # [HEADER]
    grep -oE '^[a-z0-9_]+ \*?peatmitten_[a-z0-9_]+\(' "$root/include/${1:-peatmitten.h}" | grep -oE 'peatmitten_[a-z0-9_]+\(' | tr -d '(' | sort
}

# find_archive NAME..: prints the file of the first name that is there.
find_archive() {
    local name
    for name; do
        if [ -f "$LIBRARY_DIR/$name" ]; then
            echo "$LIBRARY_DIR/$name"
            return
        fi
    done
    say_failed "there is no $name in $LIBRARY_DIR: build it by './peatmitten library $PROCESSOR'"
}

need_library() {
    [ ! -d "$LIBRARY_DIR" ] || LIBRARY_DIR=$(cd "$LIBRARY_DIR" && pwd)
    ARCHIVE=$(find_archive libpeatmitten.a libagent.a)
    BANK_ARCHIVE=$(find_archive libpeatmitten_bank.a libbank.a)
}

is_native() {
    [ "$(uname -m)" = "$PROCESSOR" ]
}

need_c() {
    if is_native; then
        CC=${CC:-cc}
        EMULATOR=
    else
        CC=$PROCESSOR-linux-gnu-gcc
        EMULATOR=qemu-$PROCESSOR
        command -v "$EMULATOR" >/dev/null || say_failed "there is no $EMULATOR (qemu-x86_64 comes by tests/install_cross.sh)"
        # The emulator's own processor has instructions that copy and clear any length, and does them byte by byte: three times as slow.
        [ "$PROCESSOR" != x86_64 ] || export QEMU_CPU=Nehalem
    fi
    command -v "$CC" >/dev/null || say_failed "there is no C compiler $CC (a cross compiler for x86_64 comes by tests/install_cross.sh)"
}

# Whether a program that is built with these options of the compiler runs here.
can_run_with() {
    local folder answer=0
    folder=$(mktemp -d)
    printf 'int main(void) { return 0; }\n' >"$folder/empty.c"
    { "$CC" "$@" "$folder/empty.c" -o "$folder/empty" && $EMULATOR "$folder/empty"; } >/dev/null 2>&1 || answer=1
    rm -rf "$folder"
    return "$answer"
}

# Sets SANITIZERS to the compiler's options for the sanitizers that it has and that run here; says which are left out. The address
# sanitizer reserves more memory than an emulated program can have, so it is tried on the machine's own processor alone. Its search for
# leaks, which can take seconds at the end of each run, is left out: the library allocates nothing, and an example only what it needs to its end.
find_sanitizers() {
    local options
    export ASAN_OPTIONS=detect_leaks=0
    while read -r options; do
        read -ra SANITIZERS <<<"$options"
        if ! can_run_with "${SANITIZERS[@]}"; then
            echo "$test_name: no program with $options runs here"
        else
            [[ $options == *address* ]] || echo "$test_name: the address sanitizer is left out, the undefined-behaviour sanitizer is run"
            return
        fi
    done < <(
        ! is_native || echo "-fsanitize=address,undefined -fno-sanitize-recover=all"
        echo "-fsanitize=undefined -fno-sanitize-recover=all -static-libubsan"
        echo "-fsanitize=undefined -fsanitize-undefined-trap-on-error"
    )
    echo "$test_name: no sanitizer is run"
    SANITIZERS=()
}

# Any cargo, for what does not link the library and runs as it is built.
need_cargo() {
    CARGO=$(command -v cargo) || say_failed "there is no cargo"
}

# Whether the Rust compiler $1 has a standard library for the target.
has_rust_target() {
    local libraries
    libraries=$("$1" --print target-libdir --target "$RUST_TARGET" 2>/dev/null) && ls "$libraries"/libstd-*.rlib >/dev/null 2>&1
}

# Finds a cargo whose compiler can build for the target, the one on the PATH first, and sets what it needs. Fails if there is none.
find_cargo() {
    local bin
    for bin in "$(dirname "$(command -v cargo || echo /none/cargo)")" /usr/bin; do
        if [ -x "$bin/cargo" ] && has_rust_target "$bin/rustc"; then
            export CARGO=$bin/cargo RUSTC=$bin/rustc RUSTDOC=$bin/rustdoc
            return 0
        fi
    done
    return 1
}

# After need_c: tells cargo by what programs for the target are linked and run.
set_cargo_target() {
    local name=${RUST_TARGET^^}
    name=CARGO_TARGET_${name//-/_}
    export "${name}_LINKER=$CC"
    [ -z "$EMULATOR" ] || export "${name}_RUNNER=$EMULATOR"
}

# After need_c.
need_rust() {
    find_cargo || say_failed "no Rust compiler here builds for $PROCESSOR (one for x86_64 comes by tests/install_cross.sh)"
    set_cargo_target
}

# Asked by itself the tool is quicker than by ./peatmitten, which is asked once here to build it.
need_tool() {
    "$root/peatmitten" show "$root/examples/first.plan" >/dev/null || say_failed "the tool is not built"
    TOOL=("$root/rust/target/$RUST_TARGET/release/peatmitten-tool")
    [ -z "$EMULATOR" ] || TOOL=("$EMULATOR" "${TOOL[@]}")
}

# need_program NAME FILE: has rt prove and build a program that ./peatmitten does not know, and run it once on a file of the repository's.
need_program() {
    (cd "$root/crates/$1" && rt run -- "$root/$2") >/dev/null || say_failed "the program $1 is not proved, or not built"
    PROGRAM=("$root/crates/$1/out/$1")
    on_this_processor
}

# On another processor than x86-64 an emulator runs what rt built.
on_this_processor() {
    local libraries
    if [ "$(uname -m)" != x86_64 ]; then
        libraries=$(dirname "$(rt doc)")/toolchain/lib
        PROGRAM=(qemu-x86_64 "$libraries/ld-linux-x86-64.so.2" --library-path "$libraries" "${PROGRAM[@]}")
    fi
}
