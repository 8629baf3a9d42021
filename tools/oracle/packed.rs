//! Stands in for the file of packed registers, which is out of scope. As a child of `aes` it sees what is private
//! there, and hands it out as associated items of the one name that `aes` takes from here.

use super::engine;

pub(super) const PACKING_WIDTH: usize = 16;

pub struct PackedRijndael8b<const N: usize>;

impl PackedRijndael8b<0> {
    pub const FROM_TOWER: super::ByteMatrix = super::FROM_TOWER;
    pub const INTO_TOWER: super::ByteMatrix = super::INTO_TOWER;
    pub const XI: [u8; 3] = super::XI;

    pub fn tower_images() -> [u8; 8] {
        super::tower_images()
    }

    #[inline(always)]
    pub fn carryless(a: u8, b: u8) -> u16 {
        super::carryless(a, b)
    }

    #[inline(always)]
    pub fn mul_bytes(a: u8, b: u8) -> u8 {
        super::mul_bytes(a, b)
    }

    #[inline(always)]
    pub fn invert_byte(a: u8) -> u8 {
        super::invert_byte(a)
    }

    #[inline(always)]
    pub fn mul_slice(dst: &mut [u8], src: &[u8]) {
        engine::mul_slice(dst, src)
    }

    #[inline(always)]
    pub fn invert_slice(bytes: &mut [u8]) {
        engine::invert_slice(bytes)
    }
}
