//! The field of 128 bits against the given Rust.

use oracle::api::gf128;

use crate::inputs::{RANDOM, Source, flattened, limbs, wides, wides_paired};
use crate::library::*;
use crate::report::Report;

/// Refusals: lengths that differ come first.
const LENGTHS_DIFFER: u32 = 2;
const ODD_LIMBS: u32 = 5;

pub fn compare(report: &mut Report) {
    report.call("add_128", |call| {
        for (a, b) in wides_paired("add_128", RANDOM) {
            let ([a0, a1], [b0, b1]) = (limbs(a), limbs(b));
            call.same((a, b), two(|out| togasipe_add_128(a0, a1, b0, b1, out)), limbs(a ^ b));
        }
    });
    report.call("poly_mul_128", |call| {
        for (a, b) in wides_paired("poly_mul_128", RANDOM) {
            let ([a0, a1], [b0, b1]) = (limbs(a), limbs(b));
            let ours = two(|out| togasipe_poly_mul_128(a0, a1, b0, b1, out));
            call.same((a, b), ours, limbs(gf128::mul(a, b)));
        }
    });
    report.call("poly_square_128", |call| {
        for a in wides("poly_square_128", RANDOM) {
            let [a0, a1] = limbs(a);
            let ours = two(|out| togasipe_poly_square_128(a0, a1, out));
            call.same(a, ours, limbs(gf128::square(a)));
        }
    });
    report.call("poly_dot_128", |call| {
        // Every boundary pair as a list of one, then a million random lists of 0 to 12 elements and some longer ones.
        for (a, b) in wides_paired("poly_dot_128 of one", 0) {
            let ours = answered(BEFORE_128, |out| poly_dot_128(&limbs(a), &limbs(b), out));
            call.same((a, b), ours, (0, limbs(gf128::dot(&[a], &[b]))));
        }
        let mut source = Source::new("poly_dot_128");
        for i in 0..RANDOM {
            let length = if i % 1000 == 999 { i / 1000 % 300 } else { i % 13 };
            let (a, b) = (source.wides(length), source.wides(length));
            let ours = answered(BEFORE_128, |out| poly_dot_128(&flattened(&a), &flattened(&b), out));
            call.same((&a, &b), ours, (0, limbs(gf128::dot(&a, &b))));
        }
    });
    report.call("poly_dot_128 refused", |call| {
        let mut source = Source::new("poly_dot_128 refused");
        for n in 0..40 {
            for m in 0..40 {
                let (a, b) = (source.words(n), source.words(m));
                let number = if n != m {
                    LENGTHS_DIFFER
                } else if n % 2 == 1 {
                    ODD_LIMBS
                } else {
                    continue;
                };
                let ours = answered(BEFORE_128, |out| poly_dot_128(&a, &b, out));
                call.same((n, m), ours, (number, BEFORE_128));
            }
        }
    });
}
