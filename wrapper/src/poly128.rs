//! The field of 128 bits, without its inverses.

use core::ops::{Add, Mul};

use crate::ffi::*;
use crate::operators::{byte_streams, ring_methods, ring_operators, shown_as_bits};
use crate::refusal::{Refusal, answered, value, written};

/// A polynomial over two elements modulo x^128 + x^7 + x^2 + x + 1, as two limbs of 64 bits, the low one first.
///
/// Bit i is the coefficient of x^i. NIST SP 800-38D writes the same polynomial with its bits in the other order.
///
/// ```
/// use togasipe::Poly128;
///
/// assert_eq!(Poly128::from_limbs(0, 1).square(), Poly128::new(0x87));
/// ```
#[derive(Copy, Clone, Default, PartialEq, Eq, Hash)]
#[repr(transparent)]
#[must_use]
pub struct Poly128([u64; 2]);

impl Poly128 {
    /// Zero.
    pub const ZERO: Self = Self([0, 0]);
    /// One.
    pub const ONE: Self = Self([1, 0]);

    /// The element with these bits.
    #[inline]
    pub const fn new(bits: u128) -> Self {
        Self([bits as u64, (bits >> 64) as u64])
    }

    /// The element's bits.
    #[must_use]
    #[inline]
    pub const fn to_bits(self) -> u128 {
        self.0[0] as u128 | (self.0[1] as u128) << 64
    }

    /// The element with these limbs.
    #[inline]
    pub const fn from_limbs(low: u64, high: u64) -> Self {
        Self([low, high])
    }

    /// The limbs, the low one first.
    #[must_use]
    #[inline]
    pub const fn to_limbs(self) -> [u64; 2] {
        self.0
    }

    /// The element of sixteen bytes, low byte first.
    #[inline]
    pub const fn from_le_bytes(bytes: [u8; 16]) -> Self {
        Self::new(u128::from_le_bytes(bytes))
    }

    /// The square.
    #[inline]
    pub fn square(&self) -> Self {
        let [low, high] = self.0;
        Self(written(|out| togasipe_poly_square_128(low, high, out)))
    }

    /// The sum of the products of two lists, entry by entry, or refusal 2 where their lengths differ. The sum of none is
    /// zero.
    pub fn dot(a: &[Self], b: &[Self]) -> Result<Self, Refusal> {
        Self::dot_limbs(limbs(a), limbs(b))
    }

    /// The same of two lists of limbs, two to an element, the low one first: refusal 2 where the lengths differ, else
    /// refusal 5 where a limb has no partner.
    pub fn dot_limbs(a: &[u64], b: &[u64]) -> Result<Self, Refusal> {
        // SAFETY: pointers and lengths are those of the lists.
        value(|out| unsafe { togasipe_poly_dot_128(a.as_ptr(), a.len(), b.as_ptr(), b.len(), out) }).map(Self)
    }

    /// The element of the first sixteen bytes, low byte first, or refusal 4 where there are fewer. What follows is
    /// ignored.
    pub fn read(bytes: &[u8]) -> Result<Self, Refusal> {
        // SAFETY: pointer and length are those of the list.
        value(|out| unsafe { togasipe_read_128(bytes.as_ptr(), bytes.len(), out) }).map(Self)
    }

    /// Writes the element over the first sixteen bytes and leaves the others alone; refusal 4 where there are fewer.
    pub fn write(self, bytes: &mut [u8]) -> Result<(), Refusal> {
        let [low, high] = self.0;
        // SAFETY: pointer and length are those of the list.
        answered(unsafe { togasipe_write_128(low, high, bytes.as_mut_ptr(), bytes.len()) })
    }
}

/// A list of elements as the list of their limbs.
fn limbs(elements: &[Poly128]) -> &[u64] {
    // SAFETY: an element is two words and nothing else, so that the list is one of twice as many words.
    unsafe { core::slice::from_raw_parts(elements.as_ptr().cast(), 2 * elements.len()) }
}

impl Add for Poly128 {
    type Output = Self;

    #[inline]
    fn add(self, rhs: Self) -> Self {
        let ([a0, a1], [b0, b1]) = (self.0, rhs.0);
        Self(written(|out| togasipe_add_128(a0, a1, b0, b1, out)))
    }
}

impl Mul for Poly128 {
    type Output = Self;

    #[inline]
    fn mul(self, rhs: Self) -> Self {
        let ([a0, a1], [b0, b1]) = (self.0, rhs.0);
        Self(written(|out| togasipe_poly_mul_128(a0, a1, b0, b1, out)))
    }
}

ring_operators!(Poly128);
ring_methods!(Poly128, 7);
shown_as_bits!(Poly128, to_bits);
byte_streams!(Poly128, 16);
