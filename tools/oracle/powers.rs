//! Stands in for the file of powers, which was not given. As a child of `clmul` it sees what is private there, and
//! hands it out under the one name that `clmul` takes from here.

pub(crate) mod poly_dot_powers_128 {
    use crate::clmul::{self, portable};

    pub(crate) use portable::probe;

    #[inline(always)]
    pub(crate) fn bmul64(x: u64, y: u64) -> u64 {
        portable::bmul64(x, y)
    }

    #[inline(always)]
    pub(crate) fn clmul_64x64(a: u64, b: u64) -> u128 {
        portable::clmul_64x64(a, b)
    }

    #[inline(always)]
    pub(crate) fn reduce_64(product: u128) -> u64 {
        clmul::reduce_64(product)
    }

    #[inline(always)]
    pub(crate) fn reduce_128(low: u128, high: u128) -> u128 {
        clmul::reduce_128(low, high)
    }

    #[inline(always)]
    pub(crate) fn compact_even(x: u64) -> u64 {
        clmul::sqrt::compact_even(x)
    }
}
