//! The tower byte.

use crate::Rijndael8b;
use crate::ffi::*;
use crate::operators::byte_element;
use crate::refusal::{Refusal, answered, value};

/// An element of the tower's byte field, over the generators X0, X1 and X2, where each Xk squared is X(k-1) Xk + 1 and
/// X(-1) is 1. Bit j is the coefficient of the product of the generators that the bits of j name.
///
/// It is a type of its own: only a change of basis makes a [`Rijndael8b`] of it, or back. The library has its sums, products
/// and changes of basis; inverses, quotients, roots and powers of 2 are taken in the byte field, there and back, since the
/// change of basis keeps sums and products.
///
/// ```
/// use togasipe::{BinaryField8, Rijndael8b};
///
/// let x0 = BinaryField8::from_repr(0x02);
/// assert_eq!((x0 * x0).to_repr(), 0x03);
/// assert_eq!(Rijndael8b::from(x0).to_byte(), 0xbc);
/// assert_eq!(BinaryField8::from(Rijndael8b::from_byte(0xbc)), x0);
/// ```
#[derive(Copy, Clone, Default, PartialEq, Eq, Hash, PartialOrd, Ord)]
#[repr(transparent)]
#[must_use]
pub struct BinaryField8(u8);

impl BinaryField8 {
    /// Zero.
    pub const ZERO: Self = Self(0);
    /// One.
    pub const ONE: Self = Self(1);
    /// The element whose image is [`Rijndael8b::GENERATOR`].
    pub const GENERATOR: Self = Self(0x13);

    /// The element of one byte.
    #[inline]
    pub const fn from_le_bytes(bytes: [u8; 1]) -> Self {
        Self(bytes[0])
    }

    /// The square: the product of the element with itself.
    #[inline]
    pub fn square(&self) -> Self {
        *self * *self
    }

    /// Squared `power_log` times. Only the remainder of `power_log` by 8 matters.
    #[inline]
    pub fn exp_power_of_2(&self, power_log: usize) -> Self {
        Rijndael8b::from(*self).exp_power_of_2(power_log).into()
    }

    /// The square root, of which every element has exactly one.
    #[inline]
    pub fn sqrt(&self) -> Self {
        Rijndael8b::from(*self).sqrt().into()
    }

    /// The inverse, and zero for zero.
    #[inline]
    pub fn invert_or_zero(self) -> Self {
        Rijndael8b::from(self).invert_or_zero().into()
    }

    /// The inverse, or `None` for zero.
    #[inline]
    pub fn try_inverse(&self) -> Option<Self> {
        Rijndael8b::from(*self).try_inverse().map(Self::from)
    }

    /// This element times the divisor's inverse, or refusal 1 where the divisor is zero. The operator `/` panics there.
    #[inline]
    pub fn try_div(self, divisor: Self) -> Result<Self, Refusal> {
        Rijndael8b::from(self).try_div(divisor.into()).map(Self::from)
    }

    /// The product with X2, the tower's topmost generator.
    #[inline]
    pub fn mul_alpha(self) -> Self {
        self * Self(0x10)
    }
}

impl From<Rijndael8b> for BinaryField8 {
    /// The same field element, in the tower's basis.
    #[inline]
    fn from(x: Rijndael8b) -> Self {
        Self(togasipe_tower_from_rijndael(x.to_byte()))
    }
}

byte_element!(BinaryField8, togasipe_tower_add, togasipe_tower_mul);
