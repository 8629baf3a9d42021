//! The calls of the library, as its archive exports them: the whole boundary, held to the library's source by
//! tools/c/drift.py. Every input is answered, so a call that takes numbers and references is safe; one that takes a list
//! takes a pointer and a length, and is unsafe for that alone.

#[link(name = "togasipe", kind = "static")]
unsafe extern "C" {
    pub safe fn togasipe_version() -> u32;

    // Words.
    pub safe fn togasipe_wrapping_mul_64(a: u64, b: u64) -> u64;
    pub safe fn togasipe_reverse_bits_8(x: u8) -> u8;
    pub safe fn togasipe_reverse_bits_64(x: u64) -> u64;
    pub safe fn togasipe_spread_bits_64(v: u64, out: &mut [u64; 2]);
    pub safe fn togasipe_compact_even(x: u64) -> u64;

    // Carryless products and their remainders.
    pub safe fn togasipe_bmul64(x: u64, y: u64) -> u64;
    pub safe fn togasipe_bmul64_high(x: u64, y: u64) -> u64;
    pub safe fn togasipe_clmul_64x64(a: u64, b: u64, out: &mut [u64; 2]);
    pub safe fn togasipe_reduce_64(low: u64, high: u64) -> u64;
    pub safe fn togasipe_reduce_128(p0: u64, p1: u64, p2: u64, p3: u64, out: &mut [u64; 2]);

    // The byte field.
    pub safe fn togasipe_rijndael_add(a: u8, b: u8) -> u8;
    pub safe fn togasipe_rijndael_sub(a: u8, b: u8) -> u8;
    pub safe fn togasipe_rijndael_mul(a: u8, b: u8) -> u8;
    pub safe fn togasipe_rijndael_square(a: u8) -> u8;
    pub safe fn togasipe_rijndael_exp_power_of_2(a: u8, power_log: usize) -> u8;
    pub safe fn togasipe_rijndael_sqrt(a: u8) -> u8;
    pub safe fn togasipe_rijndael_invert_or_zero(a: u8) -> u8;
    pub safe fn togasipe_rijndael_try_inverse(a: u8, out: &mut u8) -> u32;
    pub safe fn togasipe_rijndael_div(a: u8, b: u8, out: &mut u8) -> u32;
    pub safe fn togasipe_rijndael_interpolation_node(i: usize, out: &mut u8) -> u32;
    pub safe fn togasipe_rijndael_scaling_matrix(a: u8) -> u64;
    pub safe fn togasipe_rijndael_mul_alpha(a: u8) -> u8;
    pub fn togasipe_rijndael_read(s: *const u8, s_len: usize, out: &mut u8) -> u32;
    pub fn togasipe_rijndael_write(a: u8, d: *mut u8, d_len: usize) -> u32;

    // Byte maps.
    pub safe fn togasipe_matrix_apply(quadword: u64, byte: u8) -> u8;
    pub safe fn togasipe_matrix_compose(second: u64, first: u64) -> u64;
    pub safe fn togasipe_matrix_from_images(images: &[u8; 8]) -> u64;
    pub safe fn togasipe_matrix_images(quadword: u64, out: &mut [u8; 8]);
    pub safe fn togasipe_frobenius_map(power_log: usize) -> u64;
    pub safe fn togasipe_frobenius_orbit(a: u8, out: &mut [u8; 8]);
    pub safe fn togasipe_linearized_eval(coefficients: &[u8; 8], a: u8) -> u8;
    pub safe fn togasipe_linearized_to_matrix(coefficients: &[u8; 8]) -> u64;
    pub safe fn togasipe_linearized_to_images(coefficients: &[u8; 8], out: &mut [u8; 8]);
    pub safe fn togasipe_linearized_from_matrix(quadword: u64, out: &mut [u8; 8]);
    pub safe fn togasipe_linearized_from_images(images: &[u8; 8], out: &mut [u8; 8]);

    // Sweeps.
    pub fn togasipe_mul_slice(dst: *mut u8, dst_len: usize, src: *const u8, src_len: usize) -> u32;
    pub fn togasipe_invert_slice(dst: *mut u8, dst_len: usize);
    pub fn togasipe_apply_slice(quadword: u64, dst: *mut u8, dst_len: usize);

    // The tower byte.
    pub safe fn togasipe_tower_add(a: u8, b: u8) -> u8;
    pub safe fn togasipe_tower_mul(a: u8, b: u8) -> u8;
    pub safe fn togasipe_tower_to_rijndael(a: u8) -> u8;
    pub safe fn togasipe_tower_from_rijndael(a: u8) -> u8;

    // The field of 64 bits.
    pub safe fn togasipe_add_64(a: u64, b: u64) -> u64;
    pub safe fn togasipe_poly_mul_64(a: u64, b: u64) -> u64;
    pub safe fn togasipe_poly_square_64(a: u64) -> u64;
    pub safe fn togasipe_poly_sqrt_64(a: u64) -> u64;
    pub safe fn togasipe_poly_inverse_64(x: u64) -> u64;
    pub safe fn togasipe_try_inverse_64(x: u64, out: &mut u64) -> u32;
    pub safe fn togasipe_div_64(a: u64, b: u64, out: &mut u64) -> u32;
    pub fn togasipe_poly_dot_64(a: *const u64, a_len: usize, b: *const u64, b_len: usize, out: &mut u64) -> u32;

    // The field of 128 bits.
    pub safe fn togasipe_add_128(a0: u64, a1: u64, b0: u64, b1: u64, out: &mut [u64; 2]);
    pub safe fn togasipe_poly_mul_128(a0: u64, a1: u64, b0: u64, b1: u64, out: &mut [u64; 2]);
    pub safe fn togasipe_poly_square_128(a0: u64, a1: u64, out: &mut [u64; 2]);
    pub fn togasipe_poly_dot_128(a: *const u64, a_len: usize, b: *const u64, b_len: usize, out: &mut [u64; 2]) -> u32;

    // Readers and writers.
    pub fn togasipe_read_64(s: *const u8, s_len: usize, out: &mut u64) -> u32;
    pub fn togasipe_write_64(v: u64, d: *mut u8, d_len: usize) -> u32;
    pub fn togasipe_read_128(s: *const u8, s_len: usize, out: &mut [u64; 2]) -> u32;
    pub fn togasipe_write_128(low: u64, high: u64, d: *mut u8, d_len: usize) -> u32;

    // The fingerprint.
    pub fn togasipe_pack_rows(
        rows: *const u8,
        rows_len: usize,
        words: *mut u64,
        words_len: usize,
        out: &mut u64,
    ) -> u32;
    pub fn togasipe_fingerprint(words: *const u64, words_len: usize, point: u64, out: &mut u64) -> u32;
}
