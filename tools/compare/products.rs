//! Carryless products of words and their remainders against the given Rust.

use oracle::api::products;

use crate::inputs::{RANDOM, limbs, wides, wides_paired, words_paired};
use crate::library::*;
use crate::report::Report;

pub fn compare(report: &mut Report) {
    report.call("bmul64", |call| {
        for (x, y) in words_paired("bmul64", RANDOM) {
            call.same((x, y), togasipe_bmul64(x, y), products::bmul64(x, y));
        }
    });
    report.call("bmul64_high", |call| {
        for (x, y) in words_paired("bmul64_high", RANDOM) {
            call.same((x, y), togasipe_bmul64_high(x, y), products::clmul_64x64_halves(x, y).1);
        }
    });
    report.call("clmul_64x64", |call| {
        for (a, b) in words_paired("clmul_64x64", RANDOM) {
            let ours = two(|out| togasipe_clmul_64x64(a, b, out));
            call.same((a, b), ours, limbs(products::clmul_64x64(a, b)));
        }
    });
    report.call("reduce_64", |call| {
        for product in wides("reduce_64", RANDOM) {
            let [low, high] = limbs(product);
            call.same(product, togasipe_reduce_64(low, high), products::reduce_64(product));
        }
    });
    report.call("reduce_128", |call| {
        for (low, high) in wides_paired("reduce_128", RANDOM) {
            let ([p0, p1], [p2, p3]) = (limbs(low), limbs(high));
            let ours = two(|out| togasipe_reduce_128(p0, p1, p2, p3, out));
            call.same((low, high), ours, limbs(products::reduce_128(low, high)));
        }
    });
}
