//! The fingerprint, and a map's rows as its words.

use crate::ffi::*;
use crate::refusal::{Refusal, value};

/// As many words have a fingerprint.
pub const MOST_WORDS: usize = 4096;

/// Writes a map's rows, one byte a row, to the first words, eight rows a word, and answers how many words they are. Row 0 is
/// the lowest byte of word 0, and the last word is filled with zeros. Words after them stay as they were; refusal 4 where
/// there are too few, and then all do.
///
/// ```
/// let mut words = [7; 3];
/// assert_eq!(togasipe::pack_rows(&[1, 2, 3, 4, 5, 6, 7, 8, 9], &mut words), Ok(2));
/// assert_eq!(words, [0x0807_0605_0403_0201, 9, 7]);
/// ```
pub fn pack_rows(rows: &[u8], words: &mut [u64]) -> Result<usize, Refusal> {
    let (room, words_at) = (words.len(), words.as_mut_ptr());
    // SAFETY: pointers and lengths are those of the lists, which do not overlap.
    let count: u64 = value(|out| unsafe { togasipe_pack_rows(rows.as_ptr(), rows.len(), words_at, room, out) })?;
    Ok(count as usize)
}

/// The fingerprint of a list of words at a point: from 0, each word is XORed in and the sum multiplied by the point, in the
/// field of 64 bits. Refusal 6 for more than 4,096 words; the fingerprint of none is 0.
///
/// In this version it does not tell lists apart that differ only by words of 0 in front. At point 0 every fingerprint is 0,
/// and at point 1 the words' order does not matter: choose another point, best at random.
///
/// ```
/// assert_eq!(togasipe::fingerprint(&[1], 2), Ok(2));
/// ```
pub fn fingerprint(words: &[u64], point: u64) -> Result<u64, Refusal> {
    // SAFETY: pointer and length are those of the list.
    value(|out| unsafe { togasipe_fingerprint(words.as_ptr(), words.len(), point, out) })
}
