//! The field of 64 bits against the given Rust. Division, which the given text does not have, is the product with the
//! inverse.

use oracle::api::gf64;

use crate::inputs::{RANDOM, Source, words, words_paired};
use crate::library::*;
use crate::report::Report;

const FEWER: usize = 100_000;
const NO_INVERSE: u32 = 1;
const LENGTHS_DIFFER: u32 = 2;

pub fn compare(report: &mut Report) {
    report.call("add_64", |call| {
        for (a, b) in words_paired("add_64", RANDOM) {
            call.same((a, b), togasipe_add_64(a, b), gf64::add(a, b));
        }
    });
    report.call("poly_mul_64", |call| {
        for (a, b) in words_paired("poly_mul_64", RANDOM) {
            call.same((a, b), togasipe_poly_mul_64(a, b), gf64::mul(a, b));
        }
    });
    report.call("poly_square_64", |call| {
        for a in words("poly_square_64", RANDOM) {
            call.same(a, togasipe_poly_square_64(a), gf64::square(a));
        }
    });
    report.call("poly_sqrt_64", |call| {
        for a in words("poly_sqrt_64", RANDOM) {
            call.same(a, togasipe_poly_sqrt_64(a), gf64::sqrt(a));
        }
    });
    report.call("poly_inverse_64", |call| {
        for a in words("poly_inverse_64", FEWER) {
            call.same(a, togasipe_poly_inverse_64(a), gf64::inverse(a));
        }
    });
    report.call("try_inverse_64", |call| {
        for a in words("try_inverse_64", FEWER) {
            let oracle = gf64::try_inverse(a).map_or((NO_INVERSE, BEFORE_64), |inverse| (0, inverse));
            call.same(a, answered(BEFORE_64, |out| togasipe_try_inverse_64(a, out)), oracle);
        }
    });
    report.call("div_64", |call| {
        for (a, b) in words_paired("div_64", FEWER) {
            let oracle = gf64::try_inverse(b).map_or((NO_INVERSE, BEFORE_64), |inverse| (0, gf64::mul(a, inverse)));
            call.same((a, b), answered(BEFORE_64, |out| togasipe_div_64(a, b, out)), oracle);
        }
    });
    report.call("poly_dot_64", |call| {
        let mut source = Source::new("poly_dot_64");
        for n in 0..=300 {
            for m in [n, n, n, n + 1, n / 2, 0] {
                let (a, b) = (source.words(n), source.words(m));
                let oracle = if n == m { (0, gf64::dot(&a, &b)) } else { (LENGTHS_DIFFER, BEFORE_64) };
                call.same((n, m), answered(BEFORE_64, |out| poly_dot_64(&a, &b, out)), oracle);
            }
        }
        for (a, b) in words_paired("poly_dot_64 of one", 0) {
            let ours = answered(BEFORE_64, |out| poly_dot_64(&[a], &[b], out));
            call.same((a, b), ours, (0, gf64::dot(&[a], &[b])));
        }
    });
}
