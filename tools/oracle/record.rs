//! Writes a list of the oracle's answers, for the program `replay`: one case a line, a call's name, its arguments, `=` and
//! the answer, all numbers hexadecimal. A list stands with its length before it; eight images or coefficients stand as one
//! number, the first in its lowest byte. A call that may refuse answers document 01's number first, 0 where it accepts;
//! where the given code panics, the number is the paper's.

#[path = "../compare/inputs.rs"]
mod inputs;

use std::fmt::Write;

use inputs::{Source, flattened, limbs, wides, words};
use oracle::api::{bytes, gf64, gf128, maps, products, tower};

const HEADER: &str = "\
# Answers of the given Rust (p3-binary-field 0.8.0), written by tools/oracle/record.rs; tools/compare.sh sees that they are
# what it writes. A line is a call, its arguments, = and the answer, in hexadecimal; a list stands with its length before it.
";

/// How many values beside the boundary ones.
const MORE: usize = 61;

/// The list so far.
struct Record(String);

impl Record {
    fn line(&mut self, name: &str, arguments: &[u64], answer: &[u64]) {
        self.0.push_str(name);
        for argument in arguments {
            write!(self.0, " {argument:x}").unwrap();
        }
        self.0.push_str(" =");
        for number in answer {
            write!(self.0, " {number:x}").unwrap();
        }
        self.0.push('\n');
    }
}

/// Each value with one other: a boundary value mostly meets another boundary value.
fn paired<T: Copy>(values: impl Iterator<Item = T>) -> Vec<(T, T)> {
    let values: Vec<T> = values.collect();
    let n = values.len();
    (0..n).map(|i| (values[i], values[(i * 29 + 1) % n])).collect()
}

/// A list with its length before it.
fn counted(list: &[u64]) -> Vec<u64> {
    [&[list.len() as u64], list].concat()
}

fn widened(bytes: &[u8]) -> Vec<u64> {
    bytes.iter().map(|&byte| u64::from(byte)).collect()
}

/// An answer that may be a refusal.
fn answer(refusal: u64, value: Option<u64>) -> Vec<u64> {
    value.map_or(vec![refusal], |value| vec![0, value])
}

fn record_products(record: &mut Record) {
    for v in words("spread_bits_64", MORE) {
        record.line("spread_bits_64", &[v], &limbs(products::spread_bits_64(v)));
    }
    for x in words("compact_even", MORE) {
        record.line("compact_even", &[x], &[products::compact_even(x)]);
    }
    for (x, y) in paired(words("bmul64", MORE)) {
        record.line("bmul64", &[x, y], &[products::bmul64(x, y)]);
    }
    for (a, b) in paired(words("clmul_64x64", MORE)) {
        record.line("clmul_64x64", &[a, b], &limbs(products::clmul_64x64(a, b)));
    }
    for product in wides("reduce_64", MORE) {
        record.line("reduce_64", &limbs(product), &[products::reduce_64(product)]);
    }
    for (low, high) in paired(wides("reduce_128", MORE)) {
        let product = flattened(&[low, high]);
        record.line("reduce_128", &product, &limbs(products::reduce_128(low, high)));
    }
}

fn record_gf128(record: &mut Record) {
    for (a, b) in paired(wides("poly_mul_128", MORE)) {
        record.line("poly_mul_128", &flattened(&[a, b]), &limbs(gf128::mul(a, b)));
    }
    for a in wides("poly_square_128", MORE) {
        record.line("poly_square_128", &limbs(a), &limbs(gf128::square(a)));
    }
    let mut source = Source::new("poly_dot_128");
    for n in 0..=24 {
        // Lists of n elements, and the two refusals.
        let (a, b) = (source.wides(n), source.wides(n));
        let (mut x, mut y) = (flattened(&a), flattened(&b));
        let [low, high] = limbs(gf128::dot(&a, &b));
        record.line("poly_dot_128", &[counted(&x), counted(&y)].concat(), &[0, low, high]);
        x.push(source.word());
        record.line("poly_dot_128", &[counted(&x), counted(&y)].concat(), &[2]);
        y.push(source.word());
        record.line("poly_dot_128", &[counted(&x), counted(&y)].concat(), &[5]);
    }
}

fn record_gf64(record: &mut Record) {
    for (a, b) in paired(words("poly_mul_64", MORE)) {
        record.line("poly_mul_64", &[a, b], &[gf64::mul(a, b)]);
    }
    for a in words("poly_square_64", MORE) {
        record.line("poly_square_64", &[a], &[gf64::square(a)]);
    }
    for a in words("poly_sqrt_64", MORE) {
        record.line("poly_sqrt_64", &[a], &[gf64::sqrt(a)]);
    }
    for a in words("poly_inverse_64", MORE) {
        record.line("poly_inverse_64", &[a], &[gf64::inverse(a)]);
    }
    for a in words("try_inverse_64", MORE) {
        record.line("try_inverse_64", &[a], &answer(1, gf64::try_inverse(a)));
    }
    for (a, b) in paired(words("div_64", MORE)) {
        let quotient = gf64::try_inverse(b).map(|inverse| gf64::mul(a, inverse));
        record.line("div_64", &[a, b], &answer(1, quotient));
    }
    let mut source = Source::new("poly_dot_64");
    for n in 0..=40 {
        for m in [n, n, n + 1] {
            let (a, b) = (source.words(n), source.words(m));
            let sum = (n == m).then(|| gf64::dot(&a, &b));
            record.line("poly_dot_64", &[counted(&a), counted(&b)].concat(), &answer(2, sum));
        }
    }
}

fn record_bytes(record: &mut Record) {
    let every = || 0..=255u8;
    for a in every() {
        for b in [a, a.rotate_left(3) ^ 0x5a] {
            let (x, y) = (u64::from(a), u64::from(b));
            record.line("rijndael_mul", &[x, y], &[bytes::mul(a, b).into()]);
        }
    }
    for a in every() {
        record.line("rijndael_invert_or_zero", &[a.into()], &[bytes::invert_or_zero(a).into()]);
    }
    for a in every() {
        record.line("rijndael_sqrt", &[a.into()], &[bytes::sqrt(a).into()]);
    }
    for a in every().step_by(5) {
        for power_log in [0, 1, 2, 3, 7, 8, 9, 16, 1000, usize::MAX] {
            let power = bytes::exp_power_of_2(a, power_log);
            record.line("rijndael_exp_power_of_2", &[a.into(), power_log as u64], &[power.into()]);
        }
    }
    for a in every().step_by(3) {
        record.line("rijndael_try_inverse", &[a.into()], &answer(1, bytes::try_inverse(a).map(u64::from)));
    }
    for a in every().step_by(5) {
        for b in [0, 1, a, !a] {
            let quotient = bytes::try_inverse(b).map(|inverse| u64::from(bytes::mul(a, inverse)));
            record.line("rijndael_div", &[a.into(), b.into()], &answer(1, quotient));
        }
    }
    for i in [0, 1, 0x7f, 0x80, 0xfe, 0xff, 0x100, 0x101, 0xffff, usize::MAX] {
        let node = std::panic::catch_unwind(|| u64::from(bytes::interpolation_node(i))).ok();
        record.line("rijndael_interpolation_node", &[i as u64], &answer(3, node));
    }
}

fn record_tower(record: &mut Record) {
    for a in 0..=255u8 {
        for b in [a, a.rotate_left(5) ^ 0x13] {
            record.line("tower_mul", &[a.into(), b.into()], &[tower::mul(a, b).into()]);
        }
    }
    for a in 0..=255u8 {
        record.line("tower_to_rijndael", &[a.into()], &[tower::to_rijndael(a).into()]);
    }
    for a in 0..=255u8 {
        record.line("tower_from_rijndael", &[a.into()], &[tower::from_rijndael(a).into()]);
    }
}

fn record_maps(record: &mut Record) {
    let mut source = Source::new("bytes of maps");
    for quadword in words("matrix_apply", MORE) {
        let byte = source.byte();
        record.line("matrix_apply", &[quadword, byte.into()], &[maps::apply(quadword, byte).into()]);
    }
    for (second, first) in paired(words("matrix_compose", MORE)) {
        record.line("matrix_compose", &[second, first], &[maps::compose(second, first)]);
    }
    for images in words("matrix_from_images", MORE) {
        record.line("matrix_from_images", &[images], &[maps::from_images(images.to_le_bytes())]);
    }
    for quadword in words("matrix_images", MORE) {
        let images = u64::from_le_bytes(maps::images(quadword));
        record.line("matrix_images", &[quadword], &[images]);
    }
    for power_log in (0..20).chain([1000, usize::MAX]) {
        record.line("frobenius_map", &[power_log as u64], &[maps::frobenius_map(power_log)]);
    }
    for c in words("linearized_eval", MORE) {
        let byte = source.byte();
        record.line("linearized_eval", &[c, byte.into()], &[maps::eval(c.to_le_bytes(), byte).into()]);
    }
    for c in words("linearized_to_matrix", MORE) {
        record.line("linearized_to_matrix", &[c], &[maps::to_matrix(c.to_le_bytes())]);
    }
    for c in words("linearized_from_matrix", MORE) {
        record.line("linearized_from_matrix", &[maps::to_matrix(c.to_le_bytes())], &[c]);
    }
}

fn record_sweeps(record: &mut Record) {
    let mut source = Source::new("sweeps");
    for n in (0..=20).chain([63, 64, 65, 70]) {
        let mut dst = source.bytes(n);
        let src = source.bytes(n);
        let arguments = [counted(&widened(&dst)), counted(&widened(&src))].concat();
        bytes::mul_slice(&mut dst, &src);
        record.line("mul_slice", &arguments, &[vec![0], widened(&dst)].concat());
        let src = source.bytes(n + 1);
        let arguments = [counted(&widened(&dst)), counted(&widened(&src))].concat();
        record.line("mul_slice", &arguments, &[vec![2], widened(&dst)].concat());
    }
    for n in (0..=20).chain([63, 64, 65, 70]) {
        let mut dst = source.bytes(n);
        let arguments = counted(&widened(&dst));
        bytes::invert_slice(&mut dst);
        record.line("invert_slice", &arguments, &[vec![0], widened(&dst)].concat());
    }
    for n in (0..=20).chain([63, 64, 65, 70]) {
        let (quadword, mut dst) = (source.uniform(), source.bytes(n));
        let arguments = [vec![quadword], counted(&widened(&dst))].concat();
        maps::apply_slice(quadword, &mut dst);
        record.line("apply_slice", &arguments, &[vec![0], widened(&dst)].concat());
    }
}

fn main() {
    std::panic::set_hook(Box::new(|_| {}));
    let mut record = Record(HEADER.into());
    record_products(&mut record);
    record_gf128(&mut record);
    record_gf64(&mut record);
    record_bytes(&mut record);
    record_tower(&mut record);
    record_maps(&mut record);
    record_sweeps(&mut record);
    print!("{}", record.0);
}
