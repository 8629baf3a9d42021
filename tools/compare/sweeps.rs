//! Sweeps over lent bytes against the given Rust: every byte afterwards is compared. Where it panics, for lengths that
//! differ, the refusal is document 01's and nothing is written.

use oracle::api::{bytes, maps};

use crate::inputs::Source;
use crate::library::*;
use crate::report::{Report, panics};

const LENGTHS_DIFFER: u32 = 2;

/// Every length up to 70, and around 4,096.
fn lengths() -> impl Iterator<Item = usize> {
    (0..=70).chain(4090..=4102)
}

pub fn compare(report: &mut Report) {
    report.call("mul_slice", |call| {
        let mut source = Source::new("mul_slice");
        for n in lengths() {
            for m in [n, n, n + 1, n / 2, n.saturating_sub(1), 0] {
                let (dst, src) = (source.bytes(n), source.bytes(m));
                let mut oracle = dst.clone();
                let refused = panics(|| bytes::mul_slice(&mut oracle, &src));
                let number = if refused { LENGTHS_DIFFER } else { 0 };
                call.same((n, m), answered(dst, |ours| mul_slice(ours, &src)), (number, oracle));
            }
        }
    });
    report.call("invert_slice", |call| {
        let mut source = Source::new("invert_slice");
        for n in lengths() {
            for _ in 0..4 {
                let mut ours = source.bytes(n);
                let mut oracle = ours.clone();
                invert_slice(&mut ours);
                bytes::invert_slice(&mut oracle);
                call.same(n, ours, oracle);
            }
        }
    });
    report.call("apply_slice", |call| {
        let mut source = Source::new("apply_slice");
        for n in lengths() {
            for quadword in [source.uniform(), source.word(), maps::ZERO, maps::IDENTITY] {
                let mut ours = source.bytes(n);
                let mut oracle = ours.clone();
                apply_slice(quadword, &mut ours);
                maps::apply_slice(quadword, &mut oracle);
                call.same((quadword, n), ours, oracle);
            }
        }
    });
}
