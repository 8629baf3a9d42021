#!/bin/sh
# Times the library against the given Rust and prints a Markdown table: builds the oracle, the library and the benchmark,
# and runs it on one core. TOGASIPE_CORE names the core (default: the last one).
set -eu
cd "$(dirname "$0")/.."
out=target/bench
source=${TOGASIPE_RUST_SRC:-../shared/docs/src}

give_up() {
    echo "bench: $1"
    exit 1
}

[ -d "$source/src" ] || give_up "the given Rust is not at $source (TOGASIPE_RUST_SRC names another folder)"
for needed in rustc python3; do
    command -v $needed > /dev/null || give_up "there is no $needed"
done

mkdir -p "$out"
python3 tools/oracle/build.py "$source" target/oracle
tools/library.sh
rustc --edition 2024 -C opt-level=3 -D warnings tools/bench/main.rs -o "$out/bench" \
    --extern oracle=target/oracle/liboracle.rlib -L target/oracle/stubs -L native=target/staticlib

cores=$(getconf _NPROCESSORS_ONLN)
core=${TOGASIPE_CORE:-$((cores - 1))}
echo "Machine: $(sed -n 's/^model name[^:]*: //p' /proc/cpuinfo | head -n 1), core $core of $cores; $(rustc --version)."
echo "Load before: $(cut -d ' ' -f 1-3 /proc/loadavg)."
echo
if command -v taskset > /dev/null; then
    taskset -c "$core" "$out/bench"
else
    "$out/bench"
fi
