//! Byte matrices, the Frobenius maps and linearized polynomials against the given Rust. It has no way back from a matrix
//! to coefficients: there the coefficients found are turned forth again by it.

use oracle::api::maps;

use crate::inputs::{Source, boundary_words, every_pair};
use crate::library::*;
use crate::report::Report;

const RANDOM: usize = 100_000;

/// The boundary quadwords, the identity, and random ones.
fn quadwords(name: &str) -> Vec<u64> {
    let mut quadwords = boundary_words();
    quadwords.extend([maps::ZERO, maps::IDENTITY]);
    let mut source = Source::new(name);
    quadwords.extend((0..RANDOM).map(|_| source.uniform()));
    quadwords
}

/// Lists of eight bytes: the same values, as bytes.
fn eights(name: &str) -> Vec<[u8; 8]> {
    quadwords(name).into_iter().map(u64::to_le_bytes).collect()
}

pub fn compare(report: &mut Report) {
    report.call("matrix_apply", |call| {
        for quadword in quadwords("matrix_apply") {
            for byte in 0..=255 {
                call.same((quadword, byte), togasipe_matrix_apply(quadword, byte), maps::apply(quadword, byte));
            }
        }
    });
    report.call("matrix_compose", |call| {
        let firsts = quadwords("matrix_compose");
        for (i, &second) in quadwords("matrix_compose second").iter().enumerate() {
            let first = firsts[(i * 7 + 3) % firsts.len()];
            call.same((second, first), togasipe_matrix_compose(second, first), maps::compose(second, first));
        }
        for second in boundary_words() {
            for first in boundary_words() {
                call.same((second, first), togasipe_matrix_compose(second, first), maps::compose(second, first));
            }
        }
    });
    report.call("matrix_from_images", |call| {
        for images in eights("matrix_from_images") {
            call.same(images, togasipe_matrix_from_images(&images), maps::from_images(images));
        }
    });
    report.call("matrix_images", |call| {
        for quadword in quadwords("matrix_images") {
            call.same(quadword, eight(|out| togasipe_matrix_images(quadword, out)), maps::images(quadword));
        }
    });
    report.call("frobenius_map", |call| {
        for power_log in (0..1000).chain([1 << 32, usize::MAX - 1, usize::MAX]) {
            call.same(power_log, togasipe_frobenius_map(power_log), maps::frobenius_map(power_log));
        }
    });
    report.call("frobenius_orbit", |call| {
        for a in 0..=255 {
            call.same(a, eight(|out| togasipe_frobenius_orbit(a, out)), maps::frobenius_orbit(a));
        }
    });
    report.call("linearized_eval", |call| {
        for c in eights("linearized_eval") {
            for a in 0..=255 {
                call.same((c, a), togasipe_linearized_eval(&c, a), maps::eval(c, a));
            }
        }
    });
    report.call("linearized_to_matrix, to_images", |call| {
        for c in eights("linearized_to_matrix") {
            let oracle = maps::to_matrix(c);
            call.same(c, togasipe_linearized_to_matrix(&c), oracle);
            call.same(c, eight(|out| togasipe_linearized_to_images(&c, out)), maps::images(oracle));
        }
    });
    report.call("linearized_from_matrix, from_images", |call| {
        for quadword in quadwords("linearized_from_matrix") {
            let c = eight(|out| togasipe_linearized_from_matrix(quadword, out));
            call.same(quadword, maps::to_matrix(c), quadword);
            let images = maps::images(quadword);
            call.same(images, eight(|out| togasipe_linearized_from_images(&images, out)), c);
        }
        for c in eights("linearized_from_matrix back") {
            let quadword = maps::to_matrix(c);
            call.same(c, eight(|out| togasipe_linearized_from_matrix(quadword, out)), c);
        }
    });
    report.call("matrix_apply of composed squarings", |call| {
        for (a, power_log) in every_pair() {
            let map = togasipe_frobenius_map(usize::from(power_log));
            let oracle = oracle::api::bytes::exp_power_of_2(a, usize::from(power_log));
            call.same((a, power_log), togasipe_matrix_apply(map, a), oracle);
        }
    });
}
