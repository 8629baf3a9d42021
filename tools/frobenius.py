#!/usr/bin/env python3
"""The byte field's eight Frobenius maps as quadwords, entry k squaring k times: FROBENIUS of crates/frobenius.

    python3 tools/frobenius.py
"""


def mul(a, b):
    """The product of two bytes modulo x^8 + x^4 + x^3 + x + 1."""
    r = 0
    while b:
        r ^= a if b & 1 else 0
        a <<= 1
        a ^= 0x11B if a >> 8 else 0
        b >>= 1
    return r


def squared(k, a):
    """a to the power 2^k."""
    for _ in range(k):
        a = mul(a, a)
    return a


def quadword(f):
    """The quadword of a byte map: bit 8i + b is bit 7 - i of where 2^b goes."""
    return sum((f(1 << k % 8) >> (7 - k // 8) & 1) << k for k in range(64))


for power_log in range(8):
    print(f'{quadword(lambda a: squared(power_log, a)):#018x}')
