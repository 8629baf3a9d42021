//! The worked cases of docs/SCOPE.md, every refusal with what it leaves in lent buffers, and what the old crate's panics became.

use std::panic::catch_unwind;

use togasipe::{
    BinaryField8, ByteMatrix, LinearizedPoly8b, MOST_WORDS, Poly64, Poly128, Refusal, Rijndael8b, clmul, fingerprint,
    invert_slice, mul_slice, pack_rows, version,
};

fn byte(bits: u8) -> Rijndael8b {
    Rijndael8b::from_byte(bits)
}

/// Whether a call panics; the message is not shown.
fn panics<T>(call: impl FnOnce() -> T + std::panic::UnwindSafe) -> bool {
    catch_unwind(call).is_err()
}

#[test]
fn products_of_bytes() {
    assert_eq!(byte(0x57) * byte(0x83), byte(0xc1));
    assert_eq!(byte(0x57) * byte(0x13), byte(0xfe));
    assert_eq!(byte(0x80) * byte(0x80), byte(0x9a));
}

#[test]
fn inverses_of_bytes() {
    assert_eq!(byte(0x53).try_inverse(), Some(byte(0xca)));
    assert_eq!(byte(0x02).try_inverse(), Some(byte(0x8d)));
    assert_eq!(byte(0x53).invert_or_zero(), byte(0xca));
    assert_eq!(byte(0).invert_or_zero(), byte(0));
    assert_eq!(byte(0).try_inverse(), None);
    assert_eq!(byte(1).try_div(byte(0x53)), Ok(byte(0xca)));
    assert_eq!(byte(1).try_div(byte(0)), Err(Refusal::NoInverse));
    assert_eq!(byte(0).try_div(byte(0)), Err(Refusal::NoInverse));
}

#[test]
fn images() {
    let squaring = Rijndael8b::frobenius_map(1);
    assert_eq!(squaring.images(), [0x01, 0x04, 0x10, 0x40, 0x1b, 0x6c, 0xab, 0x9a]);
    let scaling = byte(2).scaling_matrix();
    assert_eq!(scaling.images(), [0x02, 0x04, 0x08, 0x10, 0x20, 0x40, 0x80, 0x1b]);
    assert_eq!(ByteMatrix::from_images(scaling.images()), scaling);
    assert_eq!(ByteMatrix::IDENTITY.images(), [1, 2, 4, 8, 16, 32, 64, 128]);
    assert_eq!(ByteMatrix::ZERO.images(), [0; 8]);
}

#[test]
fn maps_in_order() {
    // The first four bits alone, and a shift: the order matters.
    let low = ByteMatrix::from_images([1, 2, 4, 8, 0, 0, 0, 0]);
    let double = byte(2).scaling_matrix();
    assert_eq!(double.compose(low).apply(0x88), 0x10);
    assert_eq!(low.compose(double).apply(0x88), 0x0b);
}

#[test]
fn three_spellings() {
    let mut coefficients = [byte(0); 8];
    coefficients[0] = byte(1);
    assert_eq!(LinearizedPoly8b::new(coefficients).to_matrix(), ByteMatrix::IDENTITY);
    assert_eq!(LinearizedPoly8b::from_matrix(ByteMatrix::IDENTITY).coefficients(), coefficients);

    let map = ByteMatrix::from_quadword(0x8040_2010_0804_0201);
    let polynomial = LinearizedPoly8b::from_matrix(map);
    assert_eq!(polynomial.to_matrix(), map);
    assert_eq!(polynomial.to_images(), map.images());
    assert_eq!(LinearizedPoly8b::from_images(map.images()), polynomial);
    for x in 0..=255 {
        assert_eq!(polynomial.eval(byte(x)).to_byte(), x.reverse_bits());
    }
}

#[test]
fn tower_bytes() {
    for (x, square) in [(0x02, 0x03), (0x04, 0x09), (0x10, 0x41)] {
        let x = BinaryField8::from_repr(x);
        assert_eq!((x * x).to_repr(), square);
        assert_eq!(x.square().to_repr(), square);
    }
    assert_eq!(Rijndael8b::from(BinaryField8::from_repr(0x02)), byte(0xbc));
    assert_eq!(Rijndael8b::from(BinaryField8::GENERATOR), Rijndael8b::GENERATOR);
    assert_eq!(byte(0x57).mul_alpha(), byte(0x57) * BinaryField8::from_repr(0x10).into());
}

#[test]
fn words_of_64_bits() {
    let top = Poly64::new(0x8000_0000_0000_0000);
    assert_eq!(top * Poly64::new(2), Poly64::new(0x1b));
    assert_eq!(top.square(), Poly64::new(0xc000_0000_0000_005a));
    assert_eq!(Poly64::new(2).sqrt(), Poly64::new(0xffff_ffff_0000_000a));
    assert_eq!(top / top, Poly64::ONE);
    assert_eq!(Poly64::ZERO.try_inverse(), None);
    assert_eq!(Poly64::ZERO.invert_or_zero(), Poly64::ZERO);
    assert_eq!(top.try_div(Poly64::ZERO), Err(Refusal::NoInverse));
}

#[test]
fn elements_of_128_bits() {
    assert_eq!(Poly128::from_limbs(0, 1).square(), Poly128::from_limbs(0x87, 0));
    let top = Poly128::from_limbs(0, 0x8000_0000_0000_0000);
    assert_eq!(top.square(), Poly128::from_limbs(0x1067, 0xc000_0000_0000_0000));
    assert_eq!(top * top, top.square());
    assert_eq!((top + top, top - top, -top), (Poly128::ZERO, Poly128::ZERO, top));
}

#[test]
fn carryless_products() {
    let ones = u64::MAX;
    assert_eq!(clmul::clmul_64x64(ones, ones), u128::MAX / 3);
    assert_eq!((clmul::bmul64(ones, ones), clmul::bmul64_high(ones, ones)), (ones / 3, ones / 3));
    assert_eq!(clmul::spread_bits_64(ones), u128::MAX / 3);
    assert_eq!(clmul::compact_even(0xffff_ffff_ffff_fffd), 0xffff_ffff);
    assert_eq!(clmul::reduce_64(1 << 64), 0x1b);
    assert_eq!(clmul::reduce_128(0, 1), 0x87);
}

#[test]
fn fingerprints() {
    assert_eq!(fingerprint(&[], 2), Ok(0));
    assert_eq!(fingerprint(&[1], 2), Ok(2));
    assert_eq!(fingerprint(&[1, 0], 2), Ok(4));
    assert_eq!(fingerprint(&[0, 1], 2), Ok(2));
    assert!(fingerprint(&[7; MOST_WORDS], 2).is_ok());
    assert_eq!(fingerprint(&[7; MOST_WORDS + 1], 2), Err(Refusal::TooManyWords));
}

/// The sample map of the program `seats`, turned around.
#[test]
fn fingerprints_of_a_coach() {
    let mut rows = [0xf0, 0x0f, 0x81, 0x66, 0x00, 0xff, 0x3c, 0xaa, 0x01, 0xc3, 0x18, 0x7e, 0x24, 0, 0, 0];
    let print = |rows: &[u8]| {
        let words: Vec<u64> = rows.chunks(8).map(|word| Poly64::read(word).unwrap().to_bits()).collect();
        fingerprint(&words, 0x2a)
    };
    assert_eq!(print(&rows), Ok(0xd430_3866_f197_c66a));
    ByteMatrix::from_quadword(0x8040_2010_0804_0201).apply_slice(&mut rows);
    assert_eq!(print(&rows), Ok(0xe830_3866_f254_093c));
}

/// The same map without the rows that fill its last word, which packing adds.
#[test]
fn fingerprints_of_packed_rows() {
    let mut rows = [0xf0, 0x0f, 0x81, 0x66, 0x00, 0xff, 0x3c, 0xaa, 0x01, 0xc3, 0x18, 0x7e, 0x24];
    let print = |rows: &[u8]| {
        let mut words = [0; 2];
        assert_eq!(pack_rows(rows, &mut words), Ok(2));
        fingerprint(&words, 0x2a)
    };
    assert_eq!(print(&rows), Ok(0xd430_3866_f197_c66a));
    ByteMatrix::from_quadword(0x8040_2010_0804_0201).apply_slice(&mut rows);
    assert_eq!(print(&rows), Ok(0xe830_3866_f254_093c));
}

#[test]
fn rows_as_words() {
    let rows: Vec<u8> = (1..=100).collect();
    for length in 0..=rows.len() {
        let rows = &rows[..length];
        for room in 0..=20 {
            let mut words = vec![0xa5; room];
            let answer = pack_rows(rows, &mut words);
            let needed = length.div_ceil(8);
            let mut expected = vec![0xa5; room];
            if needed <= room {
                assert_eq!(answer, Ok(needed));
                for (word, chunk) in expected.iter_mut().zip(rows.chunks(8)) {
                    *word = chunk.iter().rev().fold(0, |word, &row| word << 8 | u64::from(row));
                }
            } else {
                assert_eq!(answer, Err(Refusal::Short));
            }
            assert_eq!(words, expected);
        }
    }
}

#[test]
fn the_linked_version_is_the_packages() {
    let number = version();
    assert_eq!(format!("{}.{}.{}", number >> 16, number >> 8 & 0xff, number & 0xff), env!("CARGO_PKG_VERSION"));
}

/// What the tower byte's inverses are is in the tower: its own product and squares are held against them.
#[test]
fn tower_inverses() {
    for bits in 0..=255 {
        let a = BinaryField8::from_repr(bits);
        match a.try_inverse() {
            Some(inverse) => assert_eq!((a * inverse, a.invert_or_zero()), (BinaryField8::ONE, inverse)),
            None => assert_eq!((bits, a.invert_or_zero()), (0, a)),
        }
        assert_eq!(a.sqrt().square(), a);
        assert_eq!(a.exp_power_of_2(11), a.square().square().square());
        assert_eq!(a.mul_alpha(), a * BinaryField8::from_repr(0x10));
        for divisor in (1..=255).map(BinaryField8::from_repr) {
            assert_eq!(a / divisor * divisor, a);
        }
        assert_eq!(a.try_div(BinaryField8::ZERO), Err(Refusal::NoInverse));
    }
    assert!(panics(|| BinaryField8::ONE / BinaryField8::ZERO));
    assert!(panics(|| BinaryField8::ZERO.inverse()));
    assert!(panics(|| BinaryField8::interpolation_node(256)));
}

/// What the old crate gives every element, over one element and another of each type.
macro_rules! methods {
    ($name:ident, $type:ty, $a:expr, $b:expr) => {
        #[test]
        #[allow(clippy::op_ref)]
        fn $name() {
            type F = $type;
            let (a, b): (F, F) = ($a, $b);
            assert_eq!((F::TWO, F::NEG_ONE, 8 * F::NUM_BYTES), (F::ZERO, F::ONE, F::bits()));
            assert_eq!(1 << F::LOG_BITS, F::bits());
            assert_eq!((F::from_bool(true), F::from_bool(false)), (F::ONE, F::ZERO));
            assert!(F::ZERO.is_zero() && F::ONE.is_one() && !a.is_zero() && !a.is_one());
            assert_eq!((a.double(), a.xor(&b), a.bool_check()), (a + a, a + b, a * (a - F::ONE)));
            assert_eq!((a.mul_2exp_u64(0), a.mul_2exp_u64(1), a.mul_2exp_u64(u64::MAX)), (a, F::ZERO, F::ZERO));

            let powers: Vec<F> = a.powers().take(70).collect();
            let mut power = F::ONE;
            for (k, &listed) in powers.iter().enumerate() {
                assert_eq!((listed, a.exp_u64(k as u64)), (power, power));
                power *= a;
            }
            assert_eq!(F::ZERO.exp_u64(0), F::ONE);
            assert_eq!(a.exp_u64(u64::MAX) * a, (0..64).fold(a, |power, _| power.square()));

            assert_eq!((&a + &b, &a + b), (a + b, a + b));
            assert_eq!((&a - &b, &a - b), (a - b, a - b));
            assert_eq!((&a * &b, &a * b), (a * b, a * b));
            let mut x = a;
            x += b;
            x *= b;
            x -= a;
            assert_eq!(x, (a + b) * b - a);
            assert_eq!([a, b, a].iter().sum::<F>(), b);
            assert_eq!([a, b, a].iter().product::<F>(), a * b * a);
        }
    };
}

methods!(methods_of_bytes, Rijndael8b, byte(0x57), byte(0x83));
methods!(methods_of_tower_bytes, BinaryField8, BinaryField8::from_repr(0x57), BinaryField8::from_repr(0x83));
methods!(methods_of_words, Poly64, Poly64::new(0x0123_4567_89ab_cdef), Poly64::new(0xfedc_ba98_7654_3210));
methods!(methods_of_wides, Poly128, Poly128::new(u128::MAX / 7), Poly128::new(u128::MAX / 11));

#[test]
#[allow(clippy::op_ref)]
fn division_over_references() {
    let (a, b) = (byte(0x57), byte(0x83));
    let mut x = a;
    x /= b;
    assert_eq!((&a / &b, &a / b, x), (a / b, a / b, a / b));
}

/// Its powers are all nonzero words: none of the largest proper divisors of 2^64 - 1 brings it to one.
#[test]
fn generator_of_64_bits() {
    let primes = [3, 5, 17, 257, 641, 65537, 6_700_417];
    assert_eq!(primes.iter().product::<u64>(), u64::MAX);
    assert!(Poly64::GENERATOR.exp_u64(u64::MAX).is_one());
    assert!(primes.iter().all(|prime| !Poly64::GENERATOR.exp_u64(u64::MAX / prime).is_one()));
    assert_eq!(Poly64::GENERATOR.exp_power_of_2(70), Poly64::GENERATOR.exp_u64(64));
    assert_eq!(Poly64::GENERATOR.exp_power_of_2(64), Poly64::GENERATOR);
}

#[test]
fn sums_of_products_of_bytes() {
    let (a, b) = ([byte(0x57), byte(0x57)], [byte(0x83), byte(0x13)]);
    assert_eq!(Rijndael8b::dot_product(&a, &b), byte(0xc1 ^ 0xfe));
}

#[test]
fn interpolation_nodes() {
    assert_eq!(Rijndael8b::try_interpolation_node(0xff), Ok(byte(0xff)));
    assert_eq!(Rijndael8b::try_interpolation_node(0x100), Err(Refusal::BadIndex));
    assert_eq!(Rijndael8b::try_interpolation_node(usize::MAX), Err(Refusal::BadIndex));
    assert_eq!(Rijndael8b::interpolation_node(7), byte(7));
    assert_eq!(Poly64::interpolation_node(0x100), Poly64::new(0x100));
}

#[test]
fn sweeps_of_unequal_lists() {
    let mut dst = [1, 2, 3];
    assert_eq!(mul_slice(&mut dst, &[1, 2]), Err(Refusal::LengthsDiffer));
    assert_eq!(mul_slice(&mut dst, &[]), Err(Refusal::LengthsDiffer));
    assert_eq!(dst, [1, 2, 3]);
    assert_eq!(mul_slice(&mut [], &[]), Ok(()));
    invert_slice(&mut []);
    ByteMatrix::ZERO.apply_slice(&mut []);
}

#[test]
fn sums_of_products_of_unequal_lists() {
    assert_eq!(Poly64::dot(&[], &[]), Ok(Poly64::ZERO));
    assert_eq!(Poly64::dot(&[Poly64::ONE], &[]), Err(Refusal::LengthsDiffer));
    assert_eq!(Poly128::dot(&[], &[]), Ok(Poly128::ZERO));
    assert_eq!(Poly128::dot(&[Poly128::ONE], &[]), Err(Refusal::LengthsDiffer));
    assert_eq!(Poly128::dot_limbs(&[1, 0, 1], &[1, 0, 1]), Err(Refusal::OddLimbs));
    assert_eq!(Poly128::dot_limbs(&[1, 0, 1], &[1, 0]), Err(Refusal::LengthsDiffer));
    assert_eq!(Poly128::dot_limbs(&[2, 0], &[0, 1]), Ok(Poly128::from_limbs(0, 2)));
}

/// A reader takes the first bytes, a writer changes these alone, and both refuse where there are fewer.
macro_rules! reader_and_writer {
    ($name:ident, $type:ty) => {
        #[test]
        fn $name() {
            for length in 0..20 {
                let bytes: Vec<u8> = (0..length as u8).map(|i| 0xf1 ^ i * 7).collect();
                let mut buffer = vec![0xaa; length];
                let read = <$type>::read(&bytes);
                let wrote = <$type>::ONE.write(&mut buffer);
                if length < <$type>::NUM_BYTES {
                    assert_eq!((read, wrote), (Err(Refusal::Short), Err(Refusal::Short)));
                    assert!(buffer.iter().all(|&b| b == 0xaa));
                } else {
                    let element = read.unwrap();
                    assert_eq!(element.into_bytes(), bytes[..<$type>::NUM_BYTES]);
                    assert_eq!(<$type>::from_le_byte_iter(bytes.iter().copied()), element);
                    assert_eq!(wrote, Ok(()));
                    let mut expected = vec![0xaa; length];
                    expected[..<$type>::NUM_BYTES].fill(0);
                    expected[0] = 1;
                    assert_eq!(buffer, expected);
                }
            }
        }
    };
}

reader_and_writer!(bytes_in_buffers, Rijndael8b);
reader_and_writer!(tower_bytes_in_buffers, BinaryField8);
reader_and_writer!(words_in_buffers, Poly64);
reader_and_writer!(wides_in_buffers, Poly128);

#[test]
fn what_panicked_still_does() {
    assert!(panics(|| byte(1) / byte(0)));
    assert!(panics(|| byte(0).inverse()));
    assert!(panics(|| Poly64::ONE / Poly64::ZERO));
    assert!(panics(|| Poly64::ZERO.inverse()));
    assert!(panics(|| Rijndael8b::interpolation_node(256)));
    assert!(panics(|| Rijndael8b::from_le_byte_iter([].into_iter())));
    assert!(panics(|| Poly64::from_le_byte_iter([0; 7].into_iter())));
}

#[test]
fn operators_agree() {
    let (a, b) = (Poly64::new(0x0123_4567_89ab_cdef), Poly64::new(0xfedc_ba98_7654_3210));
    let mut x = a;
    x += b;
    x *= b;
    x -= a;
    x /= b;
    assert_eq!(x, ((a + b) * b - a) / b);
    assert_eq!([a, b].into_iter().sum::<Poly64>(), a + b);
    assert_eq!([a, b, a].into_iter().product::<Poly64>(), a * b * a);
    assert_eq!(Poly64::dot_product(&[a, b], &[b, b]), a * b + b.square());
    assert_eq!(Poly64::from_le_bytes(a.into_bytes()), a);
    assert_eq!((format!("{}", byte(0x57)), format!("{:?}", byte(0x57))), ("87".into(), "87".into()));
}

#[test]
fn a_stream_is_read_element_by_element() {
    let mut stream = 0..24u8;
    let first = Poly64::from_le_byte_iter(stream.by_ref());
    let second = Poly64::from_le_byte_iter(stream.by_ref());
    assert_eq!(first.to_bits(), 0x0706_0504_0302_0100);
    assert_eq!(second.to_bits(), 0x0f0e_0d0c_0b0a_0908);
    assert_eq!(stream.next(), Some(16));
}

#[test]
fn refusals_by_number() {
    let numbered = [
        (1, Refusal::NoInverse),
        (2, Refusal::LengthsDiffer),
        (3, Refusal::BadIndex),
        (4, Refusal::Short),
        (5, Refusal::OddLimbs),
        (6, Refusal::TooManyWords),
    ];
    for (number, refusal) in numbered {
        assert_eq!(refusal.number(), number);
        assert_eq!(Refusal::from_number(number), Some(refusal));
        assert!(refusal.to_string().ends_with(&format!("(refusal {number})")));
    }
    assert_eq!(Refusal::from_number(0), None);
    assert_eq!(Refusal::from_number(7), None);
}
