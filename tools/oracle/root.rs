//! The root of the oracle's crate: the given modules, and `api`, by which the comparison calls them.
#![allow(dead_code, unused_imports, unexpected_cfgs)]

extern crate alloc;

mod aes;
mod cantor;
mod clmul;
mod gf2;
mod linear;
mod poly64;
mod tables;
mod tower;

pub mod api;

pub use aes::{ByteMatrix, LinearizedPoly8b, Rijndael8b};
pub use gf2::Gf2;
pub use poly64::Poly64;
pub use tower::*;

/// Stands in for the file of subfield maps, which was not given, for poly64.rs alone: a level's bits are the low bits
/// of the level above.
macro_rules! embed {
    ($($narrow:ident)*) => {
        $(impl From<$narrow> for BinaryField64 {
            fn from(x: $narrow) -> Self {
                Self::from_repr(u64::from(x.to_repr()))
            }
        })*
    };
}

embed!(BinaryField8 BinaryField16 BinaryField32);
