//! The tower byte and its change of basis against the given Rust, on every byte and every pair: the product against its
//! tables and against its definition by levels.

use oracle::api::tower;

use crate::inputs::every_pair;
use crate::library::*;
use crate::report::Report;

pub fn compare(report: &mut Report) {
    report.call("tower_add", |call| {
        for (a, b) in every_pair() {
            call.same((a, b), togasipe_tower_add(a, b), tower::add(a, b));
        }
    });
    report.call("tower_mul", |call| {
        for (a, b) in every_pair() {
            call.same((a, b), togasipe_tower_mul(a, b), tower::mul(a, b));
            call.same((a, b), togasipe_tower_mul(a, b), tower::reference_mul(a, b));
        }
    });
    report.call("tower_to_rijndael, tower_from_rijndael", |call| {
        for a in 0..=255 {
            call.same(a, togasipe_tower_to_rijndael(a), tower::to_rijndael(a));
            call.same(a, togasipe_tower_from_rijndael(a), tower::from_rijndael(a));
            let rows = oracle::api::maps::apply(tower::FROM_TOWER, a);
            call.same(a, togasipe_tower_to_rijndael(a), rows);
            let rows = oracle::api::maps::apply(tower::INTO_TOWER, a);
            call.same(a, togasipe_tower_from_rijndael(a), rows);
        }
    });
    report.call("the generator's image", |call| {
        call.same(0x13, togasipe_tower_to_rijndael(0x13), oracle::api::bytes::GENERATOR);
    });
}
