//! Every answer of this package against the given Rust's.

#[path = "../../../tools/compare/inputs.rs"]
#[allow(dead_code)]
#[rustfmt::skip]
mod inputs;
mod programs;

use std::fmt::Debug;
use std::panic::{AssertUnwindSafe, catch_unwind};

use inputs::{RANDOM, Source, every_pair, wides, wides_paired, words, words_paired};
use oracle::api;
use programs::{ours, theirs};
use togasipe::{LinearizedPoly8b, Poly64, Poly128, Refusal, Rijndael8b, clmul, fingerprint, invert_slice, mul_slice};

/// Compares both at every input.
fn same<I: Copy + Debug, T: PartialEq + Debug>(
    inputs: impl IntoIterator<Item = I>,
    ours: impl Fn(I) -> T,
    theirs: impl Fn(I) -> T,
) {
    for input in inputs {
        let (ours, theirs) = (ours(input), theirs(input));
        assert!(ours == theirs, "at {input:x?}: {ours:x?} here, {theirs:x?} in the given Rust");
    }
}

/// Both panic at every input.
fn both_panic<I: Copy + Debug, T>(inputs: impl IntoIterator<Item = I>, ours: impl Fn(I) -> T, theirs: impl Fn(I) -> T) {
    let panics = |call: &dyn Fn(I) -> T, input| catch_unwind(AssertUnwindSafe(|| call(input))).is_err();
    for input in inputs {
        assert!(panics(&ours, input), "at {input:x?} this package answers");
        assert!(panics(&theirs, input), "at {input:x?} the given Rust answers");
    }
}

fn all_bytes() -> impl Iterator<Item = u8> {
    0..=255
}

/// The zero matrix, the identity, all single-bit quadwords and as many random ones.
fn quadwords(name: &str, count: usize) -> impl Iterator<Item = u64> {
    let mut source = Source::new(name);
    words(name, 0).chain([0x0102_0408_1020_4080]).chain((0..count).map(move |_| source.uniform()))
}

/// Lengths from 0 to 70 and around 4,096.
fn lengths() -> impl Iterator<Item = usize> {
    (0..=70).chain(4090..=4100)
}

#[test]
fn bytes() {
    same([()], |()| ours::byte_constants(), |()| theirs::byte_constants());
    same(every_pair(), ours::byte_sums, theirs::byte_sums);
    same(every_pair(), ours::byte_product, theirs::byte_product);
    same(every_pair(), ours::byte_methods, theirs::byte_methods);
    same(every_pair().filter(|&(_, b)| b != 0), ours::byte_quotient, theirs::byte_quotient);
    same(all_bytes(), ours::byte_powers, theirs::byte_powers);
    same(all_bytes(), ours::byte_inverse, theirs::byte_inverse);
    same(1..=255, ours::byte_inverse_of_any, theirs::byte_inverse_of_any);
    same(all_bytes(), ours::byte_orbit, theirs::byte_orbit);
    same(all_bytes(), ours::byte_bytes, theirs::byte_bytes);
    same(all_bytes(), ours::byte_shown, theirs::byte_shown);
    same(0..256, ours::byte_node, theirs::byte_node);
    same([&[7][..], &[8, 9]], ours::byte_read, theirs::byte_read);
    let huge = [usize::MAX, usize::MAX - 1, 1 << 32, (1 << 40) + 5, 1000];
    for power_log in (0..=16).chain(huge) {
        same(all_bytes().map(|a| (a, power_log)), ours::byte_power, theirs::byte_power);
        same([power_log], ours::frobenius, theirs::frobenius);
    }
}

#[test]
fn maps() {
    same([()], |()| ours::matrix_constants(), |()| theirs::matrix_constants());
    same(all_bytes(), ours::scaling, theirs::scaling);
    same(quadwords("images", 100_000), ours::matrix_images, theirs::matrix_images);
    for quadword in quadwords("apply", 1000) {
        same(all_bytes().map(|byte| (quadword, byte)), ours::matrix_image, theirs::matrix_image);
    }
    same(words_paired("compose", 100_000), ours::matrix_composed, theirs::matrix_composed);
    let mut source = Source::new("polynomial");
    same((0..100_000).map(|_| (source.uniform().to_le_bytes(), source.byte())), ours::polynomial, theirs::polynomial);
}

/// The way back from a matrix, which the given Rust does not have, against the way there, which it has.
#[test]
fn coefficients() {
    for quadword in quadwords("coefficients", 100_000) {
        let map = LinearizedPoly8b::from_matrix(togasipe::ByteMatrix::from_quadword(quadword));
        assert_eq!(api::maps::to_matrix(map.coefficients().map(Rijndael8b::to_byte)), quadword);
        assert_eq!(map.to_images(), api::maps::images(quadword));
        assert_eq!(LinearizedPoly8b::from_images(map.to_images()), map);
    }
}

#[test]
fn sweeps() {
    let mut source = Source::new("sweeps");
    for length in lengths() {
        let (first, second) = (source.bytes(length), source.bytes(length));
        let (mut ours, mut theirs) = (first.clone(), first.clone());
        assert_eq!(mul_slice(&mut ours, &second), Ok(()));
        api::bytes::mul_slice(&mut theirs, &second);
        assert_eq!(ours, theirs);

        invert_slice(&mut ours);
        api::bytes::invert_slice(&mut theirs);
        assert_eq!(ours, theirs);

        let quadword = source.uniform();
        same([(quadword, &first[..])], ours::matrix_swept, theirs::matrix_swept);

        // Of unequal lengths: refused here, and the given Rust panics.
        for other in [length.wrapping_sub(1), length + 1, 2 * length + 3] {
            if other == usize::MAX {
                continue;
            }
            let second = source.bytes(other);
            let mut dst = first.clone();
            assert_eq!(mul_slice(&mut dst, &second), Err(Refusal::LengthsDiffer));
            assert_eq!(dst, first);
            let theirs = |_| api::bytes::mul_slice(&mut first.clone(), &second);
            both_panic([length], |_| mul_slice(&mut first.clone(), &second).unwrap(), theirs);
        }
    }
}

#[test]
fn tower_bytes() {
    same(every_pair(), ours::tower_arithmetic, theirs::tower_arithmetic);
    same(all_bytes(), ours::tower_changes, theirs::tower_changes);
    same([()], |()| ours::tower_constants(), |()| theirs::tower_constants());
    for power_log in (0..=16).chain([usize::MAX, 1000]) {
        same(all_bytes().map(|a| (a, power_log)), ours::tower_powers, theirs::tower_powers);
    }
    same(all_bytes(), ours::tower_inverse, theirs::tower_inverse);
    same(every_pair().filter(|&(_, b)| b != 0), ours::tower_quotient, theirs::tower_quotient);
    same(0..256, ours::tower_node, theirs::tower_node);
}

#[test]
fn words_of_64_bits() {
    same(words_paired("sum", RANDOM), ours::word_sums, theirs::word_sums);
    same(words_paired("product", RANDOM), ours::word_product, theirs::word_product);
    same([()], |()| ours::word_constants(), |()| theirs::word_constants());
    for power_log in [0, 1, 2, 3, 31, 63, 64, 65, 129] {
        same(words("power", 1000).map(|a| (a, power_log)), ours::word_power, theirs::word_power);
    }
    same(words("square", RANDOM), ours::word_square, theirs::word_square);
    same(words("root", RANDOM), ours::word_root, theirs::word_root);
    same(words("inverse", 100_000), ours::word_inverse, theirs::word_inverse);
    let nonzero = words("any", 1000).filter(|&a| a != 0);
    same(nonzero, ours::word_inverse_of_any, theirs::word_inverse_of_any);
    let divisible = words_paired("quotient", 100_000).filter(|&(_, b)| b != 0);
    same(divisible, ours::word_quotient, theirs::word_quotient);
    same(words("bytes", 1000), ours::word_bytes, theirs::word_bytes);
}

#[test]
fn lists_of_words() {
    let mut source = Source::new("lists");
    for length in 0..=300 {
        let (a, b) = (source.words(length), source.words(length));
        let elements = |words: &[u64]| words.iter().copied().map(Poly64::new).collect::<Vec<_>>();
        assert_eq!(Poly64::dot(&elements(&a), &elements(&b)).map(Poly64::to_bits), Ok(api::gf64::dot(&a, &b)));
        assert_eq!(Poly64::dot(&elements(&a[..length / 2]), &elements(&b)).is_err(), length != 0);
        same([&a[..]], ours::word_sum_and_product, theirs::word_sum_and_product);
        let point = source.word();
        let expected = a.iter().fold(0, |sum, &word| api::gf64::mul(sum ^ word, point));
        assert_eq!(fingerprint(&a, point), Ok(expected));
    }
    for length in [4095, 4096, 4097] {
        let (list, point) = (source.words(length), source.word());
        let expected = list.iter().fold(0, |sum, &word| api::gf64::mul(sum ^ word, point));
        let answer = if length > 4096 { Err(Refusal::TooManyWords) } else { Ok(expected) };
        assert_eq!(fingerprint(&list, point), answer);
    }
    let mut four = || [source.word(), source.word(), source.word(), source.word()];
    same((0..10_000).map(|_| (four(), four())), ours::word_dot_4, theirs::word_dot_4);
    for length in 8..=20 {
        let bytes = Source::new("read").bytes(length);
        same([&bytes[..]], ours::word_read, theirs::word_read);
    }
}

#[test]
fn elements_of_128_bits() {
    let product = |(a, b)| (Poly128::new(a) * Poly128::new(b)).to_bits();
    same(wides_paired("wide", RANDOM), product, |(a, b)| api::gf128::mul(a, b));
    same(wides("wide square", RANDOM), |a| Poly128::new(a).square().to_bits(), api::gf128::square);
    let sum = |(a, b)| (Poly128::new(a) + Poly128::new(b)).to_bits();
    same(wides_paired("wide sum", RANDOM), sum, |(a, b)| a ^ b);

    let mut source = Source::new("wide lists");
    for length in 0..=100 {
        let (a, b) = (source.wides(length), source.wides(length));
        let elements = |values: &[u128]| values.iter().copied().map(Poly128::new).collect::<Vec<_>>();
        let dot = Poly128::dot(&elements(&a), &elements(&b)).map(Poly128::to_bits);
        assert_eq!(dot, Ok(api::gf128::dot(&a, &b)));
    }
}

#[test]
fn carryless_products() {
    same(words_paired("clmul", RANDOM), |(a, b)| clmul::clmul_64x64(a, b), |(a, b)| api::products::clmul_64x64(a, b));
    same(words_paired("bmul64", RANDOM), |(a, b)| clmul::bmul64(a, b), |(a, b)| api::products::bmul64(a, b));
    let halves = |(a, b)| (clmul::bmul64(a, b), clmul::bmul64_high(a, b));
    same(words_paired("halves", RANDOM), halves, |(a, b)| api::products::clmul_64x64_halves(a, b));
    same(words("spread", RANDOM), clmul::spread_bits_64, api::products::spread_bits_64);
    same(words("compact", RANDOM), clmul::compact_even, api::products::compact_even);
    let remainder = |(a, b)| (clmul::reduce_64(a), clmul::reduce_128(a, b));
    let theirs = |(a, b)| (api::products::reduce_64(a), api::products::reduce_128(a, b));
    same(wides_paired("reduce", RANDOM), remainder, theirs);
}

#[test]
fn where_the_given_rust_panics() {
    both_panic(all_bytes().map(|a| (a, 0)), ours::byte_quotient, theirs::byte_quotient);
    both_panic([0], ours::byte_inverse_of_any, theirs::byte_inverse_of_any);
    both_panic([256, 257, usize::MAX], ours::byte_node, theirs::byte_node);
    both_panic(all_bytes().map(|a| (a, 0)), ours::tower_quotient, theirs::tower_quotient);
    both_panic([256, 257, usize::MAX], ours::tower_node, theirs::tower_node);
    both_panic([&[][..]], ours::byte_read, theirs::byte_read);
    both_panic([0], ours::word_inverse_of_any, theirs::word_inverse_of_any);
    both_panic([(0, 0), (1, 0)], ours::word_quotient, theirs::word_quotient);
    both_panic((0..8).map(|length| &[1; 8][..length]), ours::word_read, theirs::word_read);
}
