#!/usr/bin/env bash
# The C header at work: builds the static library, holds include/togasipe.h and wrapper/src/ffi.rs to it, compiles, links and runs the
# header's example, examples/swap.c over an installed copy, and the program of tools/c, which knows the header only. The last line
# counts the program's cases, or says what was left out and why (status 77).
#     CC and CXX name other compilers.
set -eu
cd "$(dirname "$0")/.."
archive=target/staticlib/libtogasipe.a
out=target/c
cc=${CC:-cc}
cxx=${CXX:-c++}
flags=(-O2 -Wall -Wextra -Werror -pedantic -Iinclude)

leave_out() {
    echo "c: left out: $1"
    exit 77
}

tools/library.sh
python3 tools/c/drift.py "$archive"

command -v "$cc" > /dev/null || leave_out "there is no C compiler ($cc)"
case $("$cc" -dumpmachine) in
x86_64*linux*) ;;
*) leave_out "the library is for x86-64 Linux, and $cc compiles for $("$cc" -dumpmachine)" ;;
esac

mkdir -p "$out"
if command -v "$cxx" > /dev/null; then
    "$cxx" -std=c++11 "${flags[@]}" tools/c/from_cpp.cpp "$archive" -o "$out/from_cpp"
    "$out/from_cpp" || { echo "c: FAILED: the same answers from C++"; exit 1; }
fi
tools/c/shown.sh "$cc" "$out"
"$cc" -std=c99 "${flags[@]}" tools/c/*.c "$archive" -o "$out/cases"
"$out/cases"
