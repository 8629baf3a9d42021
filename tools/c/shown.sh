#!/usr/bin/env bash
# What a C programmer is shown, tried: the header's example as it stands there, a dropped answer that must be warned of, and
# examples/swap.c over a copy installed under a fresh prefix.
#     tools/c/shown.sh CC FOLDER     (tools/c_cases.sh calls it; FOLDER is for what is built)
set -eu
cd "$(dirname "$0")/../.."
cc=$1
out=$2
archive=target/staticlib/libtogasipe.a
flags=(-std=c99 -O2 -Wall -Wextra -Werror -pedantic)

fail() {
    echo "c: FAILED: $1"
    exit 1
}

# the header's example: the lines of its first comment from the first #include to the closing brace
sed -n '/^ \*     #include/,/^ \*     }$/s/^ \*\( \{5\}\)\{0,1\}//p' include/togasipe.h > "$out/example.c"
"$cc" "${flags[@]}" -Iinclude "$out/example.c" "$archive" -o "$out/example"
[ "$("$out/example")" = 57 ] || fail "the header's example does not print 57"

# a dropped answer is warned of, and the same answer used is not
printf '#include "togasipe.h"\nuint32_t f(uint8_t *d);\nuint32_t f(uint8_t *d) { return togasipe_rijndael_write(1, d, 1); }\n' > "$out/used.c"
sed 's/return \(.*;\) }/\1 return 0; }/' "$out/used.c" > "$out/dropped.c"
"$cc" "${flags[@]}" -Iinclude -c "$out/used.c" -o "$out/used.o" || fail "an answer that is used does not compile"
if LC_ALL=C "$cc" "${flags[@]}" -Iinclude -c "$out/dropped.c" -o "$out/dropped.o" 2> "$out/dropped.log"; then
    fail "a dropped refusal compiles without a warning"
fi
grep -q 'error: .*unused' "$out/dropped.log" || {
    cat "$out/dropped.log"
    fail "what the compiler says of a dropped refusal is not that it is unused"
}

# an installed copy
prefix=$out/prefix
rm -rf "$prefix"
./install "$prefix" > "$out/install.log"
if command -v pkg-config > /dev/null; then
    installed=$(PKG_CONFIG_PATH=$prefix/lib/pkgconfig pkg-config --cflags --libs togasipe)
    [ "$(PKG_CONFIG_PATH=$prefix/lib/pkgconfig pkg-config --modversion togasipe)" = \
        "$(sed -n 's/^#define TOGASIPE_VERSION_TEXT "\(.*\)"$/\1/p' include/togasipe.h)" ] || fail "pkg-config says another version"
else
    echo "c: left out: the file for pkg-config: there is no pkg-config"
    installed="-I$prefix/include -L$prefix/lib -ltogasipe"
fi
# shellcheck disable=SC2086
"$cc" "${flags[@]}" examples/swap.c $installed -o "$out/swap"
"$out/swap" < crates/seats/stdin > "$out/swap.out" || fail "examples/swap.c"
grep '^fingerprint' crates/seats/stdout | cmp - "$out/swap.out" || fail "examples/swap.c prints other fingerprints than seats"
if head -c 32769 /dev/zero | "$out/swap" > "$out/swap.out" 2> "$out/swap.log"; then
    fail "examples/swap.c accepts 32,769 rows"
fi
[ ! -s "$out/swap.out" ] || fail "examples/swap.c prints a fingerprint of 32,769 rows"
