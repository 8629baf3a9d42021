//! The field of 64 bits.

use crate::ffi::*;
use crate::operators::{byte_streams, division, ring_methods, ring_operators, shown_as_bits, sum_and_product};
use crate::refusal::{Refusal, answered, value};

/// An element of the field of 64 bits: a polynomial over two elements modulo x^64 + x^4 + x^3 + x + 1.
///
/// Bit i is the coefficient of x^i, and every word is an element. No routine reads a table.
///
/// ```
/// use togasipe::Poly64;
///
/// let top = Poly64::new(0x8000_0000_0000_0000);
/// assert_eq!((top * Poly64::new(2)).to_bits(), 0x1b);
/// assert_eq!(top.square().to_bits(), 0xc000_0000_0000_005a);
/// assert_eq!(Poly64::dot(&[top, top], &[Poly64::new(2), Poly64::ONE]), Ok(Poly64::new(0x1b) + top));
/// ```
#[derive(Copy, Clone, Default, PartialEq, Eq, Hash, PartialOrd, Ord)]
#[repr(transparent)]
#[must_use]
pub struct Poly64(u64);

impl Poly64 {
    /// Zero.
    pub const ZERO: Self = Self(0);
    /// One.
    pub const ONE: Self = Self(1);
    /// The old crate's generator. (That every nonzero word is a power of it is tested here, and not proved.)
    pub const GENERATOR: Self = Self(0xc313_d8d1_bfae_2150);

    /// The element with these bits. Every word is one.
    #[inline]
    pub const fn new(bits: u64) -> Self {
        Self(bits)
    }

    /// The element's bits.
    #[must_use]
    #[inline]
    pub const fn to_bits(self) -> u64 {
        self.0
    }

    /// The element with these bits.
    #[inline]
    pub const fn from_repr(bits: u64) -> Self {
        Self(bits)
    }

    /// The element's bits.
    #[must_use]
    #[inline]
    pub const fn to_repr(self) -> u64 {
        self.0
    }

    /// The element of eight bytes, low byte first.
    #[inline]
    pub const fn from_le_bytes(bytes: [u8; 8]) -> Self {
        Self(u64::from_le_bytes(bytes))
    }

    /// Interpolation node i, which is the word i.
    #[inline]
    pub const fn interpolation_node(i: usize) -> Self {
        Self(i as u64)
    }

    /// The square.
    #[inline]
    pub fn square(&self) -> Self {
        Self(togasipe_poly_square_64(self.0))
    }

    /// Squared `power_log` times. Only the remainder of `power_log` by 64 matters.
    pub fn exp_power_of_2(&self, power_log: usize) -> Self {
        (0..power_log % 64).fold(*self, |power, _| power.square())
    }

    /// The square root, of which every element has exactly one.
    #[inline]
    pub fn sqrt(&self) -> Self {
        Self(togasipe_poly_sqrt_64(self.0))
    }

    /// The square root, always `Some`: the old crate's form of [`sqrt`](Self::sqrt).
    #[inline]
    pub fn try_sqrt(&self) -> Option<Self> {
        Some(self.sqrt())
    }

    /// The inverse, and zero for zero.
    #[inline]
    pub fn invert_or_zero(self) -> Self {
        Self(togasipe_poly_inverse_64(self.0))
    }

    /// The inverse, or `None` for zero.
    #[inline]
    pub fn try_inverse(&self) -> Option<Self> {
        value(|out| togasipe_try_inverse_64(self.0, out)).ok().map(Self)
    }

    /// This element times the divisor's inverse, or refusal 1 where the divisor is zero. The operator `/` panics there.
    #[inline]
    pub fn try_div(self, divisor: Self) -> Result<Self, Refusal> {
        value(|out| togasipe_div_64(self.0, divisor.0, out)).map(Self)
    }

    /// The sum of the products of two lists, entry by entry, or refusal 2 where their lengths differ. The sum of none is
    /// zero.
    pub fn dot(a: &[Self], b: &[Self]) -> Result<Self, Refusal> {
        // SAFETY: an element is a word and nothing else, and pointers and lengths are those of the lists.
        value(|out| unsafe { togasipe_poly_dot_64(a.as_ptr().cast(), a.len(), b.as_ptr().cast(), b.len(), out) })
            .map(Self)
    }

    /// The sum of the products of two lists of one length: the old crate's form of [`dot`](Self::dot).
    pub fn dot_product<const N: usize>(u: &[Self; N], v: &[Self; N]) -> Self {
        Self::dot(u, v).expect("the lengths are equal")
    }

    /// The element of the first eight bytes, low byte first, or refusal 4 where there are fewer. What follows is ignored.
    pub fn read(bytes: &[u8]) -> Result<Self, Refusal> {
        // SAFETY: pointer and length are those of the list.
        value(|out| unsafe { togasipe_read_64(bytes.as_ptr(), bytes.len(), out) }).map(Self)
    }

    /// Writes the element over the first eight bytes and leaves the others alone; refusal 4 where there are fewer.
    pub fn write(self, bytes: &mut [u8]) -> Result<(), Refusal> {
        // SAFETY: pointer and length are those of the list.
        answered(unsafe { togasipe_write_64(self.0, bytes.as_mut_ptr(), bytes.len()) })
    }
}

sum_and_product!(Poly64, togasipe_add_64, togasipe_poly_mul_64);
ring_operators!(Poly64);
ring_methods!(Poly64, 6);
division!(Poly64);
shown_as_bits!(Poly64, to_bits);
byte_streams!(Poly64, 8);
