//! Carryless products of words and what they are made of, on plain numbers: bit i is the coefficient of x^i. The old crate
//! has these for itself alone.

use crate::ffi::*;
use crate::refusal::written;

/// The low half of the carryless product of two words.
#[must_use]
#[inline]
pub fn bmul64(x: u64, y: u64) -> u64 {
    togasipe_bmul64(x, y)
}

/// The high half of the carryless product of two words.
#[must_use]
#[inline]
pub fn bmul64_high(x: u64, y: u64) -> u64 {
    togasipe_bmul64_high(x, y)
}

/// The carryless product of two words.
///
/// ```
/// let both_halves = 0x5555_5555_5555_5555_5555_5555_5555_5555;
/// assert_eq!(togasipe::clmul::clmul_64x64(u64::MAX, u64::MAX), both_halves);
/// ```
#[must_use]
#[inline]
pub fn clmul_64x64(a: u64, b: u64) -> u128 {
    joined(written(|out| togasipe_clmul_64x64(a, b, out)))
}

/// Bit i of a word at bit 2i of two.
#[must_use]
#[inline]
pub fn spread_bits_64(v: u64) -> u128 {
    joined(written(|out| togasipe_spread_bits_64(v, out)))
}

/// Bit 2i of a word at bit i, for i from 0 to 31, with zeros above.
#[must_use]
#[inline]
pub fn compact_even(x: u64) -> u64 {
    togasipe_compact_even(x)
}

/// The remainder of a product of two words modulo x^64 + x^4 + x^3 + x + 1.
#[must_use]
#[inline]
pub fn reduce_64(product: u128) -> u64 {
    let [low, high] = limbs(product);
    togasipe_reduce_64(low, high)
}

/// The remainder modulo x^128 + x^7 + x^2 + x + 1 of the product whose low and high halves are given.
#[must_use]
#[inline]
pub fn reduce_128(low: u128, high: u128) -> u128 {
    let ([p0, p1], [p2, p3]) = (limbs(low), limbs(high));
    joined(written(|out| togasipe_reduce_128(p0, p1, p2, p3, out)))
}

fn limbs(value: u128) -> [u64; 2] {
    [value as u64, (value >> 64) as u64]
}

fn joined([low, high]: [u64; 2]) -> u128 {
    u128::from(low) | u128::from(high) << 64
}
