//! Sweeps over bytes of the byte field.

use crate::ffi::*;
use crate::refusal::{Refusal, answered};

/// Multiplies every byte of the first list by the byte of the second at its place.
///
/// Refusal 2 where the lengths differ, and then the first list is as it was; the old crate panics there. Empty lists are
/// accepted.
///
/// ```
/// let mut row = [0x57, 0x57];
/// togasipe::mul_slice(&mut row, &[0x83, 0x13]).unwrap();
/// assert_eq!(row, [0xc1, 0xfe]);
/// ```
#[inline]
pub fn mul_slice(dst: &mut [u8], src: &[u8]) -> Result<(), Refusal> {
    // SAFETY: pointers and lengths are those of the lists, which do not overlap.
    answered(unsafe { togasipe_mul_slice(dst.as_mut_ptr(), dst.len(), src.as_ptr(), src.len()) })
}

/// Replaces every byte of the list with its inverse, and leaves zero alone.
#[inline]
pub fn invert_slice(bytes: &mut [u8]) {
    // SAFETY: pointer and length are those of the list.
    unsafe { togasipe_invert_slice(bytes.as_mut_ptr(), bytes.len()) }
}
