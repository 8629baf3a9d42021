//! The byte field against the given Rust, on every byte and every pair. Where the given code panics, the refusal is
//! document 01's.

use oracle::api::bytes;

use crate::inputs::every_pair;
use crate::library::*;
use crate::report::{Report, panics};

const NO_INVERSE: u32 = 1;
const BAD_INDEX: u32 = 3;

pub fn compare(report: &mut Report) {
    report.call("rijndael_add, rijndael_sub", |call| {
        for (a, b) in every_pair() {
            call.same((a, b), togasipe_rijndael_add(a, b), bytes::add(a, b));
            call.same((a, b), togasipe_rijndael_sub(a, b), bytes::sub(a, b));
        }
    });
    report.call("rijndael_mul", |call| {
        for (a, b) in every_pair() {
            call.same((a, b), togasipe_rijndael_mul(a, b), bytes::mul(a, b));
        }
    });
    report.call("rijndael_square, sqrt, invert_or_zero", |call| {
        for a in 0..=255 {
            call.same(a, togasipe_rijndael_square(a), bytes::square(a));
            call.same(a, togasipe_rijndael_sqrt(a), bytes::sqrt(a));
            call.same(a, togasipe_rijndael_invert_or_zero(a), bytes::invert_or_zero(a));
            call.same(a, togasipe_rijndael_invert_or_zero(a), bytes::invert(a));
        }
    });
    report.call("rijndael_exp_power_of_2", |call| {
        let huge = [255, 256, 1 << 20, usize::MAX / 2, usize::MAX - 7, usize::MAX - 1, usize::MAX];
        for a in 0..=255 {
            for power_log in (0..=16).chain(huge) {
                let ours = togasipe_rijndael_exp_power_of_2(a, power_log);
                call.same((a, power_log), ours, bytes::exp_power_of_2(a, power_log));
            }
        }
    });
    report.call("rijndael_try_inverse", |call| {
        for a in 0..=255 {
            let oracle = bytes::try_inverse(a).map_or((NO_INVERSE, BEFORE_8), |inverse| (0, inverse));
            call.same(a, answered(BEFORE_8, |out| togasipe_rijndael_try_inverse(a, out)), oracle);
        }
    });
    report.call("rijndael_div", |call| {
        for (a, b) in every_pair() {
            let oracle = bytes::try_inverse(b).map_or((NO_INVERSE, BEFORE_8), |inverse| (0, bytes::mul(a, inverse)));
            call.same((a, b), answered(BEFORE_8, |out| togasipe_rijndael_div(a, b, out)), oracle);
        }
    });
    report.call("rijndael_interpolation_node", |call| {
        for i in (0..600).chain([1 << 8, 1 << 16, 1 << 32, usize::MAX - 255, usize::MAX]) {
            let refused = panics(|| bytes::interpolation_node(i));
            let oracle = if refused { (BAD_INDEX, BEFORE_8) } else { (0, bytes::interpolation_node(i)) };
            call.same(i, answered(BEFORE_8, |out| togasipe_rijndael_interpolation_node(i, out)), oracle);
        }
    });
    report.call("rijndael_scaling_matrix, mul_alpha", |call| {
        for a in 0..=255 {
            call.same(a, togasipe_rijndael_scaling_matrix(a), bytes::scaling_matrix(a));
            call.same(a, togasipe_rijndael_mul_alpha(a), bytes::mul_alpha(a));
        }
    });
}
