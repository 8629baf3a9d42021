#!/bin/sh
# Compares the library with the given Rust, at scale: builds the oracle, the library and the comparison, and runs it.
# The last line says how many answers were compared, or that the comparison was left out and why (status 77).
set -eu
cd "$(dirname "$0")/.."
root=$PWD
out=$root/target/compare
source=${TOGASIPE_RUST_SRC:-$root/../shared/docs/src}

leave_out() {
    echo "compare: left out: $1"
    exit 77
}

[ -d "$source/src" ] || leave_out "the given Rust is not at $source (TOGASIPE_RUST_SRC names another folder)"
command -v rustc > /dev/null || leave_out "there is no rustc"
command -v python3 > /dev/null || leave_out "there is no python3"

mkdir -p "$out"
python3 tools/oracle/build.py "$source" target/oracle
tools/library.sh

# compile PROGRAM SOURCE: a program over the oracle and the library.
compile() {
    rustc --edition 2024 -C opt-level=3 -D warnings -A dead_code "$2" -o "$out/$1" --extern oracle=target/oracle/liboracle.rlib \
        -L target/oracle/stubs -L native=target/staticlib
}

compile record tools/oracle/record.rs
"$out/record" > "$out/recorded"
cmp "$out/recorded" crates/replay/stdin || {
    echo "compare: crates/replay/stdin is not what the oracle writes ($out/recorded)"
    exit 1
}

compile compare tools/compare/main.rs
"$out/compare"
