#!/bin/sh
# Proves the library and writes target/staticlib/libtogasipe.a, unless the one there is newer than all that it is made from.
set -eu
cd "$(dirname "$0")/.."
archive=target/staticlib/libtogasipe.a
log=target/library.log

if [ -f "$archive" ] && [ -z "$(find crates.txt crates/*/src crates/*/specs crates/*/proofs -newer "$archive" -print -quit)" ]; then
    exit 0
fi
command -v rt > /dev/null || {
    echo "library: there is no $archive, and no rt, the command of the Rattle toolchain, to build it with"
    exit 1
}
mkdir -p target/staticlib
(cd crates/togasipe && rt lib) > "$log" 2>&1 || { tail -n 40 "$log"; exit 1; }
cp crates/togasipe/out/libtogasipe.a "$archive"
