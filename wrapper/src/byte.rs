//! The byte field of FIPS 197.

use crate::ffi::*;
use crate::operators::byte_element;
use crate::refusal::{Refusal, answered, value, written};
use crate::{BinaryField8, ByteMatrix};

/// An element of the byte field: a polynomial over two elements modulo x^8 + x^4 + x^3 + x + 1.
///
/// Bit i is the coefficient of x^i, and every byte is an element. No routine reads a table indexed by an operand.
///
/// ```
/// use togasipe::Rijndael8b;
///
/// let a = Rijndael8b::from_byte(0x53);
/// assert_eq!(a.try_inverse(), Some(Rijndael8b::from_byte(0xca)));
/// assert_eq!(a * a.inverse(), Rijndael8b::ONE);
/// assert_eq!(Rijndael8b::ZERO.try_inverse(), None);
/// ```
#[derive(Copy, Clone, Default, PartialEq, Eq, Hash, PartialOrd, Ord)]
#[repr(transparent)]
#[must_use]
pub struct Rijndael8b(u8);

impl Rijndael8b {
    /// Zero.
    pub const ZERO: Self = Self(0);
    /// One.
    pub const ONE: Self = Self(1);
    /// The image of tower byte 0x13; its first 255 powers are distinct.
    pub const GENERATOR: Self = Self(0x88);

    /// The element with these bits.
    #[inline]
    pub const fn new(byte: u8) -> Self {
        Self(byte)
    }

    /// The element with these bits. Every byte is one.
    #[inline]
    pub const fn from_byte(byte: u8) -> Self {
        Self(byte)
    }

    /// The element's bits.
    #[must_use]
    #[inline]
    pub const fn to_byte(self) -> u8 {
        self.0
    }

    /// The square.
    #[inline]
    pub fn square(&self) -> Self {
        Self(togasipe_rijndael_square(self.0))
    }

    /// Squared `power_log` times. Only the remainder of `power_log` by 8 matters.
    #[inline]
    pub fn exp_power_of_2(&self, power_log: usize) -> Self {
        Self(togasipe_rijndael_exp_power_of_2(self.0, power_log))
    }

    /// The square root, of which every element has exactly one.
    #[inline]
    pub fn sqrt(&self) -> Self {
        Self(togasipe_rijndael_sqrt(self.0))
    }

    /// The inverse, and zero for zero.
    #[inline]
    pub fn invert_or_zero(self) -> Self {
        Self(togasipe_rijndael_invert_or_zero(self.0))
    }

    /// The inverse, or `None` for zero.
    #[inline]
    pub fn try_inverse(&self) -> Option<Self> {
        value(|out| togasipe_rijndael_try_inverse(self.0, out)).ok().map(Self)
    }

    /// This element times the divisor's inverse, or refusal 1 where the divisor is zero. The operator `/` panics there.
    #[inline]
    pub fn try_div(self, divisor: Self) -> Result<Self, Refusal> {
        value(|out| togasipe_rijndael_div(self.0, divisor.0, out)).map(Self)
    }

    /// The map that multiplies by this element.
    pub fn scaling_matrix(self) -> ByteMatrix {
        ByteMatrix::from_quadword(togasipe_rijndael_scaling_matrix(self.0))
    }

    /// The map that squares `power_log` times. Only the remainder of `power_log` by 8 matters.
    pub fn frobenius_map(power_log: usize) -> ByteMatrix {
        ByteMatrix::from_quadword(togasipe_frobenius_map(power_log))
    }

    /// This element squared k times, for every k below 8.
    pub fn frobenius_orbit(self) -> [Self; 8] {
        written(|out| togasipe_frobenius_orbit(self.0, out)).map(Self)
    }

    /// The product with the image of X2, the tower's topmost generator.
    #[inline]
    pub fn mul_alpha(self) -> Self {
        Self(togasipe_rijndael_mul_alpha(self.0))
    }
}

impl From<BinaryField8> for Rijndael8b {
    /// The same field element, out of the tower's basis.
    #[inline]
    fn from(x: BinaryField8) -> Self {
        Self(togasipe_tower_to_rijndael(x.to_repr()))
    }
}

byte_element!(Rijndael8b, togasipe_rijndael_add, togasipe_rijndael_mul);
