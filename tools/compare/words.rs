//! Words: the wrapping product and reversed bits against the standard library, spreading and compaction against the
//! given Rust.

use oracle::api::products;

use crate::inputs::{RANDOM, boundary_words, limbs, words, words_paired};
use crate::library::*;
use crate::report::Report;

pub fn compare(report: &mut Report) {
    report.call("wrapping_mul_64", |call| {
        for (a, b) in words_paired("wrapping_mul_64", RANDOM) {
            call.same((a, b), togasipe_wrapping_mul_64(a, b), a.wrapping_mul(b));
        }
    });
    report.call("reverse_bits_8", |call| {
        for x in 0..=255 {
            call.same(x, togasipe_reverse_bits_8(x), x.reverse_bits());
        }
    });
    report.call("reverse_bits_64", |call| {
        for x in words("reverse_bits_64", RANDOM) {
            call.same(x, togasipe_reverse_bits_64(x), x.reverse_bits());
        }
    });
    report.call("spread_bits_64", |call| {
        for v in words("spread_bits_64", RANDOM) {
            let ours = two(|out| togasipe_spread_bits_64(v, out));
            call.same(v, ours, limbs(products::spread_bits_64(v)));
        }
    });
    report.call("compact_even", |call| {
        for x in words("compact_even", RANDOM) {
            call.same(x, togasipe_compact_even(x), products::compact_even(x));
        }
    });
    report.call("compact_even of spread words", |call| {
        for v in boundary_words() {
            let [low, high] = two(|out| togasipe_spread_bits_64(v, out));
            let back = togasipe_compact_even(low) | (togasipe_compact_even(high) << 32);
            call.same(v, back, v);
        }
    });
}
