//! Binary fields and byte matrices under the names of the crate p3-binary-field, answered by the library `togasipe`,
//! each function of which is proved to meet its contract.
//!
//! - [`Rijndael8b`]: the byte field of FIPS 197, modulo x^8 + x^4 + x^3 + x + 1.
//! - [`ByteMatrix`] and [`LinearizedPoly8b`]: byte maps that keep XOR, as a quadword and as eight coefficients.
//! - [`BinaryField8`]: the tower byte, a type of its own.
//! - [`Poly64`] and [`Poly128`]: the fields modulo x^64 + x^4 + x^3 + x + 1 and x^128 + x^7 + x^2 + x + 1.
//! - [`mul_slice`], [`invert_slice`] and [`ByteMatrix::apply_slice`]: sweeps over lists of bytes.
//! - [`fingerprint`]: what two ends compare instead of a list of words; [`pack_rows`] makes the words of a map's rows.
//! - [`clmul`]: the carryless product of words, and what it is made of.
//!
//! Every answer comes from the library, sums included, or is put together of its answers (`exp_u64`, `powers`, sums of
//! iterators, the tower byte's inverse); only wrapping bits up and taking them out is done here, and stays `const`. Where the
//! library refuses, a call answers `Err` of a [`Refusal`], which has the number of the C header. Where the old crate panics,
//! the old name still does, and a name beginning with `try_` answers with the refusal. The package is `no_std`.
//!
//! ```
//! use togasipe::{fingerprint, ByteMatrix, Refusal, Rijndael8b};
//!
//! let product = Rijndael8b::from_byte(0x57) * Rijndael8b::from_byte(0x83);
//! assert_eq!(product.to_byte(), 0xc1);
//!
//! // The matrix that turns a row of seats around.
//! let mut rows = [0b0000_0001, 0b1100_0000];
//! ByteMatrix::from_quadword(0x8040_2010_0804_0201).apply_slice(&mut rows);
//! assert_eq!(rows, [0b1000_0000, 0b0000_0011]);
//!
//! assert_eq!(fingerprint(&[1, 0], 2), Ok(4));
//! assert_eq!(fingerprint(&[0; 4097], 2), Err(Refusal::TooManyWords));
//! ```

#![no_std]
#![warn(missing_docs)]

mod byte;
pub mod clmul;
// The whole boundary; not all of it is called here, since Rust's own numbers have some of it.
#[allow(dead_code)]
mod ffi;
mod linearized;
mod matrix;
mod operators;
mod poly128;
mod poly64;
mod print;
mod refusal;
mod sweep;
mod tower;

pub use byte::Rijndael8b;
pub use linearized::LinearizedPoly8b;
pub use matrix::ByteMatrix;
pub use poly64::Poly64;
pub use poly128::Poly128;
pub use print::{MOST_WORDS, fingerprint, pack_rows};
pub use refusal::Refusal;
pub use sweep::{invert_slice, mul_slice};
pub use tower::BinaryField8;

/// The version of the library that is linked: major << 16 | minor << 8 | patch, so 0x000200 for 0.2.0.
#[must_use]
pub fn version() -> u32 {
    ffi::togasipe_version()
}

/// The README's example is tested with the others.
#[cfg(doctest)]
#[doc = include_str!("../README.md")]
struct Readme;
