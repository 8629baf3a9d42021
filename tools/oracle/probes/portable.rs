
/// Appended to the given file: hands out what is private there.
pub(crate) mod probe {
    #[inline(always)]
    pub(crate) fn clmul_64x64_halves(a: u64, b: u64) -> (u64, u64) {
        super::clmul_64x64_halves(a, b)
    }

    #[inline(always)]
    pub(crate) fn spread_bits_64(v: u64) -> u128 {
        super::spread_bits_64(v)
    }
}
