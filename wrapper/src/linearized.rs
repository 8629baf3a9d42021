//! Byte maps as coefficients.

use crate::ffi::*;
use crate::refusal::written;
use crate::{ByteMatrix, Rijndael8b};

/// A byte map that keeps XOR, as a linearized polynomial: it sends v to the sum over j of coefficient j times v^(2^j).
///
/// Every such map has exactly one of these, one quadword and one list of images, and each is found from the others.
///
/// ```
/// use togasipe::{ByteMatrix, LinearizedPoly8b};
///
/// let map = ByteMatrix::from_quadword(0x8040_2010_0804_0201);
/// assert_eq!(LinearizedPoly8b::from_matrix(map).to_matrix(), map);
/// ```
#[derive(Copy, Clone, Debug, Default, PartialEq, Eq, Hash)]
#[repr(transparent)]
#[must_use]
pub struct LinearizedPoly8b([Rijndael8b; 8]);

impl LinearizedPoly8b {
    /// The map with these coefficients, in order of increasing squaring power.
    pub const fn new(coefficients: [Rijndael8b; 8]) -> Self {
        Self(coefficients)
    }

    /// The coefficients, in order of increasing squaring power.
    pub const fn coefficients(&self) -> [Rijndael8b; 8] {
        self.0
    }

    /// The value at one byte.
    pub fn eval(&self, x: Rijndael8b) -> Rijndael8b {
        Rijndael8b::from_byte(togasipe_linearized_eval(&self.bytes(), x.to_byte()))
    }

    /// The same map as a quadword.
    pub fn to_matrix(&self) -> ByteMatrix {
        ByteMatrix::from_quadword(togasipe_linearized_to_matrix(&self.bytes()))
    }

    /// Where the map sends the eight single-bit bytes, lowest bit first.
    #[must_use]
    pub fn to_images(&self) -> [u8; 8] {
        written(|out| togasipe_linearized_to_images(&self.bytes(), out))
    }

    /// The way back from a quadword. The old crate has none.
    pub fn from_matrix(map: ByteMatrix) -> Self {
        Self::of(written(|out| togasipe_linearized_from_matrix(map.to_quadword(), out)))
    }

    /// The map that sends `1 << b` to entry b. The old crate has none.
    pub fn from_images(images: [u8; 8]) -> Self {
        Self::of(written(|out| togasipe_linearized_from_images(&images, out)))
    }

    fn bytes(&self) -> [u8; 8] {
        self.0.map(Rijndael8b::to_byte)
    }

    fn of(bytes: [u8; 8]) -> Self {
        Self(bytes.map(Rijndael8b::from_byte))
    }
}
