//! Times every sweep, product, sum, square, root and inverse of the library against the given Rust, on one core.
//!
//! Both are called through pointers that the compiler cannot see through, so that neither is built into the loop that
//! calls it: what is timed is a call and its body, for both alike. A list that is swept or summed up has 64 KiB; calls on
//! single values run over 4,096 of them.

#[path = "../compare/inputs.rs"]
#[allow(dead_code)]
#[rustfmt::skip]
mod inputs;
#[path = "../../wrapper/src/ffi.rs"]
#[allow(dead_code)]
mod library;
mod timing;

use std::hint::black_box;

use oracle::api::{bytes, gf64, gf128, maps, products, tower};

use inputs::{Source, flattened, limbs};
use library::*;
use timing::{calls, header, row};

/// The bytes of a list.
const LIST: usize = 1 << 16;

/// How many values a call on single ones is given, and how many words a fingerprint.
const SINGLES: usize = 4096;

/// The goals, as shares of the Rust's time.
const SWEEP: Option<f64> = Some(1.1);
const DOT_64: Option<f64> = Some(1.05);
const POWER_64: Option<f64> = Some(1.0);

type Unary<T> = (fn(T) -> T, extern "C" fn(T) -> T);
type Binary<T> = (fn(T, T) -> T, extern "C" fn(T, T) -> T);
type Pair = extern "C" fn(u64, u64, u64, u64, &mut [u64; 2]);

fn unary<T: Copy + Default>(name: &str, goal: Option<f64>, inputs: &[T], both: Unary<T>) {
    let (theirs, ours) = black_box(both);
    calls(name, goal, inputs, |x, place| *place = theirs(x), |x, place| *place = ours(x));
}

fn binary<T: Copy + Default>(name: &str, goal: Option<f64>, inputs: &[(T, T)], both: Binary<T>) {
    let (theirs, ours) = black_box(both);
    calls(name, goal, inputs, |(x, y), place| *place = theirs(x, y), |(x, y), place| *place = ours(x, y));
}

/// A call that answers two words: ours writes them through a pointer.
fn wide(name: &str, inputs: &[(u128, u128)], both: (fn(u128, u128) -> u128, Pair)) {
    let (theirs, ours) = black_box(both);
    let ours = |(x, y), place: &mut [u64; 2]| {
        let ([x0, x1], [y0, y1]) = (limbs(x), limbs(y));
        ours(x0, x1, y0, y1, place);
    };
    calls(name, None, inputs, |(x, y), place| *place = theirs(x, y), ours);
}

/// Each value with the one after it.
fn paired<T: Copy>(values: &[T]) -> Vec<(T, T)> {
    (0..values.len()).map(|i| (values[i], values[(i + 1) % values.len()])).collect()
}

/// Keeps an answer that nothing reads.
fn done<T>(answer: T) {
    black_box(answer);
}

/// Sums of 128-bit elements, which the given code has as an operator only.
fn add_128(a: u128, b: u128) -> u128 {
    a ^ b
}

/// The fingerprint as the given product makes it.
fn fingerprint(words: &[u64], point: u64) -> u64 {
    words.iter().fold(0, |sum, &word| gf64::mul(sum ^ word, point))
}

fn time_sweeps(source: &mut Source) {
    let src = source.bytes(LIST);
    let (mut theirs, mut ours) = (source.bytes(LIST), source.bytes(LIST));
    let quadword = source.uniform();

    row(
        "`mul_slice`",
        SWEEP,
        LIST,
        || bytes::mul_slice(black_box(&mut theirs), black_box(&src)),
        || {
            let (dst, src) = (black_box(&mut ours), black_box(&src));
            // SAFETY: two lists of bytes that do not overlap.
            unsafe { togasipe_mul_slice(dst.as_mut_ptr(), dst.len(), src.as_ptr(), src.len()) };
        },
    );
    row(
        "`invert_slice`",
        SWEEP,
        LIST,
        || bytes::invert_slice(black_box(&mut theirs)),
        || {
            let dst = black_box(&mut ours);
            // SAFETY: a list of bytes.
            unsafe { togasipe_invert_slice(dst.as_mut_ptr(), dst.len()) };
        },
    );
    row(
        "`apply_slice`",
        SWEEP,
        LIST,
        || maps::apply_slice(quadword, black_box(&mut theirs)),
        || {
            let dst = black_box(&mut ours);
            // SAFETY: a list of bytes.
            unsafe { togasipe_apply_slice(quadword, dst.as_mut_ptr(), dst.len()) };
        },
    );
}

fn time_bytes(source: &mut Source) {
    let one = source.bytes(SINGLES);
    let two = paired(&one);
    binary("byte, sum", None, &two, (bytes::add, togasipe_rijndael_add));
    binary("byte, product", None, &two, (bytes::mul, togasipe_rijndael_mul));
    unary("byte, square", None, &one, (bytes::square, togasipe_rijndael_square));
    unary("byte, root", None, &one, (bytes::sqrt, togasipe_rijndael_sqrt));
    unary("byte, inverse", None, &one, (bytes::invert_or_zero, togasipe_rijndael_invert_or_zero));
    unary("byte, `mul_alpha`", None, &one, (bytes::mul_alpha, togasipe_rijndael_mul_alpha));
    binary("tower byte, sum", None, &two, (tower::add, togasipe_tower_add));
    binary("tower byte, product (the Rust's by tables)", None, &two, (tower::mul, togasipe_tower_mul));
    binary("tower byte, product (the Rust's level by level)", None, &two, (tower::reference_mul, togasipe_tower_mul));

    let quadwords = paired(&source.words(SINGLES));
    binary("matrix, `compose`", None, &quadwords, (maps::compose, togasipe_matrix_compose));
    let quadword = source.uniform();
    let (theirs, ours) = black_box((maps::apply as fn(_, _) -> _, togasipe_matrix_apply as extern "C" fn(_, _) -> _));
    calls(
        "matrix, `apply`",
        None,
        &one,
        |x, place| *place = theirs(quadword, x),
        |x, place| *place = ours(quadword, x),
    );
}

fn time_words(source: &mut Source) {
    let one = source.words(SINGLES);
    let two = paired(&one);
    binary("`bmul64`", None, &two, (products::bmul64, togasipe_bmul64));
    let (theirs, ours) =
        black_box((products::clmul_64x64 as fn(_, _) -> _, togasipe_clmul_64x64 as extern "C" fn(_, _, &mut [u64; 2])));
    calls("`clmul_64x64`", None, &two, |(x, y), place| *place = theirs(x, y), |(x, y), place| ours(x, y, place));
    binary("64 bits, sum", None, &two, (gf64::add, togasipe_add_64));
    binary("64 bits, product", None, &two, (gf64::mul, togasipe_poly_mul_64));
    unary("64 bits, square", POWER_64, &one, (gf64::square, togasipe_poly_square_64));
    unary("64 bits, root", None, &one, (gf64::sqrt, togasipe_poly_sqrt_64));
    unary("64 bits, inverse", POWER_64, &one, (gf64::inverse, togasipe_poly_inverse_64));

    let (a, b) = (source.words(LIST / 8), source.words(LIST / 8));
    row(
        "64 bits, sum of products",
        DOT_64,
        a.len(),
        || done(gf64::dot(black_box(&a), black_box(&b))),
        || {
            let (a, b, mut sum) = (black_box(&a), black_box(&b), 0);
            // SAFETY: two lists of words.
            unsafe { togasipe_poly_dot_64(a.as_ptr(), a.len(), b.as_ptr(), b.len(), &mut sum) };
            done(sum);
        },
    );

    let point = source.uniform();
    row(
        "fingerprint (the Rust's product in the same loop)",
        None,
        one.len(),
        || done(fingerprint(black_box(&one), point)),
        || {
            let (words, mut print) = (black_box(&one), 0);
            // SAFETY: a list of words.
            unsafe { togasipe_fingerprint(words.as_ptr(), words.len(), point, &mut print) };
            done(print);
        },
    );
}

fn time_wides(source: &mut Source) {
    let one = source.wides(SINGLES);
    let two = paired(&one);
    wide("128 bits, sum", &two, (add_128, togasipe_add_128));
    wide("128 bits, product", &two, (gf128::mul, togasipe_poly_mul_128));
    let (theirs, ours) =
        black_box((gf128::square as fn(_) -> _, togasipe_poly_square_128 as extern "C" fn(_, _, &mut [u64; 2])));
    let ours = |x, place: &mut [u64; 2]| {
        let [x0, x1] = limbs(x);
        ours(x0, x1, place);
    };
    calls("128 bits, square", None, &one, |x, place| *place = theirs(x), ours);

    let (one, other) = (source.wides(LIST / 16), source.wides(LIST / 16));
    let (a, b) = (flattened(&one), flattened(&other));
    row(
        "128 bits, sum of products",
        None,
        one.len(),
        || done(gf128::dot(black_box(&one), black_box(&other))),
        || {
            let (a, b, mut sum) = (black_box(&a), black_box(&b), [0; 2]);
            // SAFETY: two lists of words.
            unsafe { togasipe_poly_dot_128(a.as_ptr(), a.len(), b.as_ptr(), b.len(), &mut sum) };
            done(sum);
        },
    );
}

fn main() {
    let mut source = Source::new("bench");
    header();
    time_sweeps(&mut source);
    time_bytes(&mut source);
    time_words(&mut source);
    time_wides(&mut source);
}
