# shellcheck shell=bash disable=SC2034 # what is set here is for those who source it
# Sourced by the scripts beside it: the tools of the Rattle kit, which stay where they are.
#
#   kit     the kit's folder
#   clang   its compiler
#   archiver  what puts objects into an archive
#   work    a folder for a script's own files, which is removed when the script ends

fail() {
    echo "peatmitten: $*" >&2
    exit 1
}

find_kit() {
    command -v rt >/dev/null || fail "the Rattle toolchain is not installed: its command rt is not on the PATH"
    kit=$(cd "$(dirname "$(rt doc)")" && pwd -P)
    clang=$kit/toolchain/bin/clang
    archiver=$kit/toolchain/bin/llvm-ar
    if [ ! -x "$clang" ] || [ ! -x "$archiver" ]; then fail "the kit at $kit has no clang and llvm-ar in toolchain/bin"; fi
}

make_work() {
    work=$(mktemp -d)
    trap 'rm -rf "$work"' EXIT
}
