//! The library under test, as its archive exports it. No call has a precondition, so each is safe to call.

#[link(name = "togasipe", kind = "static")]
unsafe extern "C" {
    pub safe fn togasipe_wrapping_mul_64(a: u64, b: u64) -> u64;
    pub safe fn togasipe_reverse_bits_8(x: u8) -> u8;
    pub safe fn togasipe_reverse_bits_64(x: u64) -> u64;
    pub safe fn togasipe_spread_bits_64(v: u64, out: &mut [u64; 2]);
    pub safe fn togasipe_compact_even(x: u64) -> u64;

    pub safe fn togasipe_bmul64(x: u64, y: u64) -> u64;
    pub safe fn togasipe_bmul64_high(x: u64, y: u64) -> u64;
    pub safe fn togasipe_clmul_64x64(a: u64, b: u64, out: &mut [u64; 2]);
    pub safe fn togasipe_reduce_64(low: u64, high: u64) -> u64;
    pub safe fn togasipe_reduce_128(p0: u64, p1: u64, p2: u64, p3: u64, out: &mut [u64; 2]);

    pub safe fn togasipe_add_128(a0: u64, a1: u64, b0: u64, b1: u64, out: &mut [u64; 2]);
    pub safe fn togasipe_poly_mul_128(a0: u64, a1: u64, b0: u64, b1: u64, out: &mut [u64; 2]);
    pub safe fn togasipe_poly_square_128(a0: u64, a1: u64, out: &mut [u64; 2]);

    pub safe fn togasipe_add_64(a: u64, b: u64) -> u64;
    pub safe fn togasipe_poly_mul_64(a: u64, b: u64) -> u64;
    pub safe fn togasipe_poly_square_64(a: u64) -> u64;
    pub safe fn togasipe_poly_sqrt_64(a: u64) -> u64;
    pub safe fn togasipe_poly_inverse_64(x: u64) -> u64;
    pub safe fn togasipe_try_inverse_64(x: u64, out: &mut u64) -> u32;
    pub safe fn togasipe_div_64(a: u64, b: u64, out: &mut u64) -> u32;

    pub safe fn togasipe_rijndael_add(a: u8, b: u8) -> u8;
    pub safe fn togasipe_rijndael_sub(a: u8, b: u8) -> u8;
    pub safe fn togasipe_rijndael_mul(a: u8, b: u8) -> u8;
    pub safe fn togasipe_rijndael_square(a: u8) -> u8;
    pub safe fn togasipe_rijndael_exp_power_of_2(a: u8, power_log: usize) -> u8;
    pub safe fn togasipe_rijndael_sqrt(a: u8) -> u8;
    pub safe fn togasipe_rijndael_invert_or_zero(a: u8) -> u8;
    pub safe fn togasipe_rijndael_try_inverse(a: u8, out: &mut u8) -> u32;
    pub safe fn togasipe_rijndael_div(a: u8, b: u8, out: &mut u8) -> u32;
    pub safe fn togasipe_rijndael_interpolation_node(i: usize, out: &mut u8) -> u32;
    pub safe fn togasipe_rijndael_scaling_matrix(a: u8) -> u64;
    pub safe fn togasipe_rijndael_mul_alpha(a: u8) -> u8;

    pub safe fn togasipe_matrix_apply(quadword: u64, byte: u8) -> u8;
    pub safe fn togasipe_matrix_compose(second: u64, first: u64) -> u64;
    pub safe fn togasipe_matrix_from_images(images: &[u8; 8]) -> u64;
    pub safe fn togasipe_matrix_images(quadword: u64, out: &mut [u8; 8]);
    pub safe fn togasipe_frobenius_map(power_log: usize) -> u64;
    pub safe fn togasipe_frobenius_orbit(a: u8, out: &mut [u8; 8]);
    pub safe fn togasipe_linearized_eval(coefficients: &[u8; 8], a: u8) -> u8;
    pub safe fn togasipe_linearized_to_matrix(coefficients: &[u8; 8]) -> u64;
    pub safe fn togasipe_linearized_to_images(coefficients: &[u8; 8], out: &mut [u8; 8]);
    pub safe fn togasipe_linearized_from_matrix(quadword: u64, out: &mut [u8; 8]);
    pub safe fn togasipe_linearized_from_images(images: &[u8; 8], out: &mut [u8; 8]);

    pub safe fn togasipe_tower_add(a: u8, b: u8) -> u8;
    pub safe fn togasipe_tower_mul(a: u8, b: u8) -> u8;
    pub safe fn togasipe_tower_to_rijndael(a: u8) -> u8;
    pub safe fn togasipe_tower_from_rijndael(a: u8) -> u8;

    pub safe fn togasipe_version() -> u32;
}

/// The calls that take lists: a pointer and a length each.
mod lists {
    unsafe extern "C" {
        pub fn togasipe_poly_dot_128(a: *const u64, al: usize, b: *const u64, bl: usize, out: &mut [u64; 2]) -> u32;
        pub fn togasipe_poly_dot_64(a: *const u64, al: usize, b: *const u64, bl: usize, out: &mut u64) -> u32;
        pub fn togasipe_mul_slice(dst: *mut u8, dl: usize, src: *const u8, sl: usize) -> u32;
        pub fn togasipe_invert_slice(dst: *mut u8, dl: usize);
        pub fn togasipe_apply_slice(quadword: u64, dst: *mut u8, dl: usize);
        pub fn togasipe_rijndael_read(s: *const u8, sl: usize, out: &mut u8) -> u32;
        pub fn togasipe_rijndael_write(a: u8, d: *mut u8, dl: usize) -> u32;
        pub fn togasipe_read_64(s: *const u8, sl: usize, out: &mut u64) -> u32;
        pub fn togasipe_write_64(v: u64, d: *mut u8, dl: usize) -> u32;
        pub fn togasipe_read_128(s: *const u8, sl: usize, out: &mut [u64; 2]) -> u32;
        pub fn togasipe_write_128(low: u64, high: u64, d: *mut u8, dl: usize) -> u32;
        pub fn togasipe_pack_rows(rows: *const u8, rl: usize, words: *mut u64, wl: usize, out: &mut u64) -> u32;
        pub fn togasipe_fingerprint(words: *const u64, wl: usize, point: u64, out: &mut u64) -> u32;
    }
}

// SAFETY, of each call below: the pointer and the length are those of a slice, and a list that is written overlaps no
// other, as Rust's references say.

pub fn poly_dot_128(a: &[u64], b: &[u64], out: &mut [u64; 2]) -> u32 {
    unsafe { lists::togasipe_poly_dot_128(a.as_ptr(), a.len(), b.as_ptr(), b.len(), out) }
}

pub fn poly_dot_64(a: &[u64], b: &[u64], out: &mut u64) -> u32 {
    unsafe { lists::togasipe_poly_dot_64(a.as_ptr(), a.len(), b.as_ptr(), b.len(), out) }
}

pub fn mul_slice(dst: &mut [u8], src: &[u8]) -> u32 {
    unsafe { lists::togasipe_mul_slice(dst.as_mut_ptr(), dst.len(), src.as_ptr(), src.len()) }
}

pub fn invert_slice(dst: &mut [u8]) {
    unsafe { lists::togasipe_invert_slice(dst.as_mut_ptr(), dst.len()) }
}

pub fn apply_slice(quadword: u64, dst: &mut [u8]) {
    unsafe { lists::togasipe_apply_slice(quadword, dst.as_mut_ptr(), dst.len()) }
}

pub fn rijndael_read(s: &[u8], out: &mut u8) -> u32 {
    unsafe { lists::togasipe_rijndael_read(s.as_ptr(), s.len(), out) }
}

pub fn rijndael_write(a: u8, d: &mut [u8]) -> u32 {
    unsafe { lists::togasipe_rijndael_write(a, d.as_mut_ptr(), d.len()) }
}

pub fn read_64(s: &[u8], out: &mut u64) -> u32 {
    unsafe { lists::togasipe_read_64(s.as_ptr(), s.len(), out) }
}

pub fn write_64(v: u64, d: &mut [u8]) -> u32 {
    unsafe { lists::togasipe_write_64(v, d.as_mut_ptr(), d.len()) }
}

pub fn read_128(s: &[u8], out: &mut [u64; 2]) -> u32 {
    unsafe { lists::togasipe_read_128(s.as_ptr(), s.len(), out) }
}

pub fn write_128(value: [u64; 2], d: &mut [u8]) -> u32 {
    unsafe { lists::togasipe_write_128(value[0], value[1], d.as_mut_ptr(), d.len()) }
}

pub fn pack_rows(rows: &[u8], words: &mut [u64], out: &mut u64) -> u32 {
    unsafe { lists::togasipe_pack_rows(rows.as_ptr(), rows.len(), words.as_mut_ptr(), words.len(), out) }
}

pub fn fingerprint(words: &[u64], point: u64, out: &mut u64) -> u32 {
    unsafe { lists::togasipe_fingerprint(words.as_ptr(), words.len(), point, out) }
}

/// What stands behind a pointer before a call, so that one that writes nothing, or writes on refusal, is seen.
pub const BEFORE_8: u8 = 0xa7;
pub const BEFORE_64: u64 = 0xdead_beef_0bad_cafe;
pub const BEFORE_128: [u64; 2] = [0xdead_beef_0bad_cafe, 0xfeed_face_1234_5678];

/// The two words that a call writes.
pub fn two(call: impl FnOnce(&mut [u64; 2])) -> [u64; 2] {
    let mut out = BEFORE_128;
    call(&mut out);
    out
}

/// The eight bytes that a call writes.
pub fn eight(call: impl FnOnce(&mut [u8; 8])) -> [u8; 8] {
    let mut out = [BEFORE_8; 8];
    call(&mut out);
    out
}

/// The number that a call answers, and the value behind its pointer afterwards.
pub fn answered<T>(before: T, call: impl FnOnce(&mut T) -> u32) -> (u32, T) {
    let mut out = before;
    let number = call(&mut out);
    (number, out)
}
