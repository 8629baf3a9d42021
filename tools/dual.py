#!/usr/bin/env python3
"""The dual of the basis 1, x, .., x^(n-1) of GF(2)[x]/(x^n + t) under the trace: Tr(d_b x^k) is 1 where b = k, else 0.

    python3 tools/dual.py 8 0x1b        d_0 .. d_7: `dual8` of crates/spellings, DUAL of crates/frobenius
"""
import sys

n, t = int(sys.argv[1]), int(sys.argv[2], 0)


def mul(a, b):
    """The product of two residues."""
    r = 0
    while b:
        r ^= a if b & 1 else 0
        a <<= 1
        a ^= (t | 1 << n) if a >> n else 0
        b >>= 1
    return r


def trace(a):
    """The sum of a and its n - 1 repeated squares: 0 or 1."""
    s = 0
    for _ in range(n):
        s, a = s ^ a, mul(a, a)
    return s


# Row k has the trace of x^i x^k in column i, and on the right 1 in column k: solved, the right-hand columns are the dual.
rows = [(sum(trace(mul(1 << i, 1 << k)) << i for i in range(n)), 1 << k) for k in range(n)]
for c in range(n):
    p = next(r for r in range(c, n) if rows[r][0] >> c & 1)
    rows[c], rows[p] = rows[p], rows[c]
    for r in range(n):
        if r != c and rows[r][0] >> c & 1:
            rows[r] = (rows[r][0] ^ rows[c][0], rows[r][1] ^ rows[c][1])
dual = [sum((rows[i][1] >> b & 1) << i for i in range(n)) for b in range(n)]
assert all(trace(mul(dual[b], 1 << k)) == (b == k) for b in range(n) for k in range(n))
print(' '.join(f'{d:#04x}' for d in dual))
