#!/bin/sh
# Tests the Rust package in wrapper/: builds the library, and the given Rust where it is at hand, and runs the package's
# tests, the comparison at scale among them. The last line counts them, or says that they were left out and why (status 77).
set -eu
cd "$(dirname "$0")/.."
root=$PWD
out=$root/target/wrapper
source=${TOGASIPE_RUST_SRC:-$root/../shared/docs/src}

command -v cargo > /dev/null || {
    echo "wrapper: left out: there is no cargo"
    exit 77
}

mkdir -p "$out"
tools/library.sh
export TOGASIPE_LIB_DIR="$root/target/staticlib" CARGO_TARGET_DIR="$out"

if [ ! -d "$source/src" ]; then
    echo "wrapper: not compared: the given Rust is not at $source (TOGASIPE_RUST_SRC names another folder)"
elif ! command -v python3 > /dev/null; then
    echo "wrapper: not compared: there is no python3 to build the given Rust with"
else
    python3 tools/oracle/build.py "$source" target/oracle
    export TOGASIPE_ORACLE_DIR="$root/target/oracle"
fi

failed=0
(cd wrapper && cargo test --offline --release --no-fail-fast) > "$out/test.log" 2>&1 || failed=1
grep -E '^(test |error|warning)' "$out/test.log" | grep -v '^test result' || true
[ "$failed" -eq 0 ] || cat "$out/test.log"
awk -v failed="$failed" '
    /^test result:/ { tests += $4; failures += $6 }
    END {
        if (failed && failures == 0) failures = 1
        printf "wrapper: %d tests, %d failures\n", tests + failures, failures
        exit failures > 0 || tests == 0
    }' "$out/test.log"
