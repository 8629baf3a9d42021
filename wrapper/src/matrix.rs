//! Byte maps as quadwords.

use crate::ffi::*;
use crate::refusal::written;

/// A byte map that keeps XOR, as a quadword: output bit i is the parity of the input ANDed with byte 7 - i.
///
/// ```
/// use togasipe::{ByteMatrix, Rijndael8b};
///
/// let double = Rijndael8b::from_byte(2).scaling_matrix();
/// assert_eq!(double.images(), [0x02, 0x04, 0x08, 0x10, 0x20, 0x40, 0x80, 0x1b]);
/// assert_eq!(double.compose(double).apply(0x40), 0x1b);
/// ```
#[derive(Copy, Clone, Debug, Default, PartialEq, Eq, Hash)]
#[repr(transparent)]
#[must_use]
pub struct ByteMatrix(u64);

impl ByteMatrix {
    /// The map that sends every byte to zero.
    pub const ZERO: Self = Self(0);
    /// The map that leaves every byte alone.
    pub const IDENTITY: Self = Self(0x0102_0408_1020_4080);

    /// The map that sends `1 << b` to entry b.
    pub fn from_images(images: [u8; 8]) -> Self {
        Self(togasipe_matrix_from_images(&images))
    }

    /// Where the map sends the eight single-bit bytes, lowest bit first.
    #[must_use]
    pub fn images(self) -> [u8; 8] {
        written(|out| togasipe_matrix_images(self.0, out))
    }

    /// The image of one byte.
    #[must_use]
    #[inline]
    pub fn apply(self, byte: u8) -> u8 {
        togasipe_matrix_apply(self.0, byte)
    }

    /// The map that applies the argument first and this one second.
    pub fn compose(self, first: Self) -> Self {
        Self(togasipe_matrix_compose(self.0, first.0))
    }

    /// The quadword that holds the map.
    #[must_use]
    #[inline]
    pub const fn to_quadword(self) -> u64 {
        self.0
    }

    /// The map held in a quadword. Every quadword is one.
    #[inline]
    pub const fn from_quadword(rows: u64) -> Self {
        Self(rows)
    }

    /// Replaces every byte of the list with its image.
    #[inline]
    pub fn apply_slice(self, bytes: &mut [u8]) {
        // SAFETY: pointer and length are those of the list.
        unsafe { togasipe_apply_slice(self.0, bytes.as_mut_ptr(), bytes.len()) }
    }
}
