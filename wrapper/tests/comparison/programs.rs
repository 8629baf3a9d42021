//! One program, as a user of the old crate writes it, compiled over this package and over the given Rust. Only the imports
//! differ, and that is what a user edits.

macro_rules! program {
    ($name:ident: $($import:item)*) => {
        pub mod $name {
            $($import)*

            fn byte(bits: u8) -> Rijndael8b {
                Rijndael8b::from_byte(bits)
            }

            pub fn byte_constants() -> [u8; 5] {
                type F = Rijndael8b;
                [F::ZERO, F::ONE, F::TWO, F::NEG_ONE, F::GENERATOR].map(F::to_byte)
            }

            pub fn byte_sums((a, b): (u8, u8)) -> [u8; 4] {
                let (a, b) = (byte(a), byte(b));
                let (mut sum, mut difference) = (a, a);
                sum += b;
                difference -= b;
                [a + b, a - b, sum, difference].map(Rijndael8b::to_byte)
            }

            pub fn byte_product((a, b): (u8, u8)) -> [u8; 2] {
                let mut product = byte(a);
                product *= byte(b);
                [(byte(a) * byte(b)).to_byte(), product.to_byte()]
            }

            pub fn byte_methods((a, b): (u8, u8)) -> [u8; 7] {
                type F = Rijndael8b;
                let (a, b) = (byte(a), byte(b));
                let products = F::dot_product(&[a, b, a], &[b, b, a]);
                [F::from_bool(a == b), a.double(), a.xor(&b), a.mul_2exp_u64(0), a.mul_2exp_u64(3), a.bool_check(), products]
                    .map(F::to_byte)
            }

            pub fn byte_quotient((a, b): (u8, u8)) -> u8 {
                (byte(a) / byte(b)).to_byte()
            }

            pub fn byte_powers(a: u8) -> [u8; 5] {
                let a = byte(a);
                let root = a.try_sqrt().unwrap();
                [a.square(), root, a.invert_or_zero(), a.mul_alpha(), -a].map(Rijndael8b::to_byte)
            }

            pub fn byte_inverse(a: u8) -> Option<u8> {
                byte(a).try_inverse().map(Rijndael8b::to_byte)
            }

            pub fn byte_inverse_of_any(a: u8) -> u8 {
                byte(a).inverse().to_byte()
            }

            pub fn byte_power((a, power_log): (u8, usize)) -> u8 {
                byte(a).exp_power_of_2(power_log).to_byte()
            }

            pub fn byte_orbit(a: u8) -> [u8; 8] {
                byte(a).frobenius_orbit().map(Rijndael8b::to_byte)
            }

            pub fn byte_node(i: usize) -> u8 {
                Rijndael8b::interpolation_node(i).to_byte()
            }

            pub fn byte_read(bytes: &[u8]) -> u8 {
                Rijndael8b::from_le_byte_iter(bytes.iter().copied()).to_byte()
            }

            pub fn byte_bytes(a: u8) -> Vec<u8> {
                byte(a).into_bytes().into_iter().collect()
            }

            pub fn byte_shown(a: u8) -> String {
                format!("{} {:?}", byte(a), byte(a))
            }

            pub fn scaling(a: u8) -> u64 {
                byte(a).scaling_matrix().to_quadword()
            }

            pub fn frobenius(power_log: usize) -> u64 {
                Rijndael8b::frobenius_map(power_log).to_quadword()
            }

            pub fn matrix_constants() -> [u64; 3] {
                [ByteMatrix::ZERO, ByteMatrix::IDENTITY, ByteMatrix::default()].map(ByteMatrix::to_quadword)
            }

            pub fn matrix_images(quadword: u64) -> ([u8; 8], u64) {
                let images = ByteMatrix::from_quadword(quadword).images();
                (images, ByteMatrix::from_images(images).to_quadword())
            }

            pub fn matrix_image((quadword, byte): (u64, u8)) -> u8 {
                ByteMatrix::from_quadword(quadword).apply(byte)
            }

            pub fn matrix_composed((second, first): (u64, u64)) -> u64 {
                ByteMatrix::from_quadword(second).compose(ByteMatrix::from_quadword(first)).to_quadword()
            }

            pub fn matrix_swept((quadword, bytes): (u64, &[u8])) -> Vec<u8> {
                let mut bytes = bytes.to_vec();
                ByteMatrix::from_quadword(quadword).apply_slice(&mut bytes);
                bytes
            }

            pub fn polynomial((coefficients, x): ([u8; 8], u8)) -> (u8, u64, [u8; 8]) {
                let map = LinearizedPoly8b::new(coefficients.map(byte));
                (map.eval(byte(x)).to_byte(), map.to_matrix().to_quadword(), map.coefficients().map(Rijndael8b::to_byte))
            }

            pub fn tower_arithmetic((a, b): (u8, u8)) -> [u8; 4] {
                let (a, b) = (BinaryField8::from_repr(a), BinaryField8::from_repr(b));
                [a + b, a - b, a * b, a.square()].map(BinaryField8::to_repr)
            }

            pub fn tower_powers((a, power_log): (u8, usize)) -> [u8; 4] {
                let a = BinaryField8::from_repr(a);
                [a.exp_power_of_2(power_log), a.try_sqrt().unwrap(), a.mul_alpha(), a.bool_check()].map(BinaryField8::to_repr)
            }

            pub fn tower_inverse(a: u8) -> Option<u8> {
                BinaryField8::from_repr(a).try_inverse().map(BinaryField8::to_repr)
            }

            pub fn tower_quotient((a, b): (u8, u8)) -> u8 {
                (BinaryField8::from_repr(a) / BinaryField8::from_repr(b)).to_repr()
            }

            pub fn tower_node(i: usize) -> u8 {
                BinaryField8::interpolation_node(i).to_repr()
            }

            pub fn tower_constants() -> [u8; 5] {
                type F = BinaryField8;
                [F::ZERO, F::ONE, F::TWO, F::NEG_ONE, F::GENERATOR].map(F::to_repr)
            }

            pub fn tower_changes(a: u8) -> [u8; 2] {
                [
                    Rijndael8b::from(BinaryField8::from_repr(a)).to_byte(),
                    BinaryField8::from(byte(a)).to_repr(),
                ]
            }

            pub fn word_sums((a, b): (u64, u64)) -> [u64; 4] {
                let (a, b) = (Poly64::new(a), Poly64::new(b));
                let (mut sum, mut difference) = (a, a);
                sum += b;
                difference -= b;
                [a + b, a - b, sum, difference].map(Poly64::to_bits)
            }

            pub fn word_product((a, b): (u64, u64)) -> u64 {
                (Poly64::new(a) * Poly64::new(b)).to_bits()
            }

            pub fn word_constants() -> [u64; 5] {
                type F = Poly64;
                [F::ZERO, F::ONE, F::TWO, F::NEG_ONE, F::GENERATOR].map(F::to_bits)
            }

            pub fn word_power((a, power_log): (u64, usize)) -> u64 {
                Poly64::new(a).exp_power_of_2(power_log).to_bits()
            }

            pub fn word_square(a: u64) -> u64 {
                Poly64::new(a).square().to_bits()
            }

            pub fn word_root(a: u64) -> u64 {
                Poly64::new(a).try_sqrt().unwrap().to_bits()
            }

            pub fn word_inverse(a: u64) -> (u64, Option<u64>) {
                let a = Poly64::new(a);
                (a.invert_or_zero().to_bits(), a.try_inverse().map(Poly64::to_bits))
            }

            pub fn word_inverse_of_any(a: u64) -> u64 {
                Poly64::new(a).inverse().to_bits()
            }

            pub fn word_quotient((a, b): (u64, u64)) -> u64 {
                (Poly64::new(a) / Poly64::new(b)).to_bits()
            }

            pub fn word_dot_4((a, b): ([u64; 4], [u64; 4])) -> u64 {
                Poly64::dot_product(&a.map(Poly64::new), &b.map(Poly64::new)).to_bits()
            }

            pub fn word_sum_and_product(words: &[u64]) -> [u64; 2] {
                let elements = || words.iter().copied().map(Poly64::new);
                [elements().sum::<Poly64>().to_bits(), elements().product::<Poly64>().to_bits()]
            }

            pub fn word_read(bytes: &[u8]) -> u64 {
                Poly64::from_le_byte_iter(bytes.iter().copied()).to_bits()
            }

            pub fn word_bytes(a: u64) -> Vec<u8> {
                Poly64::from_le_bytes(a.to_le_bytes()).into_bytes().into_iter().collect()
            }
        }
    };
}

program!(ours:
    use togasipe::{BinaryField8, ByteMatrix, LinearizedPoly8b, Poly64, Rijndael8b};
);

program!(theirs:
    use oracle::{BinaryField8, ByteMatrix, LinearizedPoly8b, Poly64, Rijndael8b, TowerLevel};
    use p3_field::{Field, PrimeCharacteristicRing, RawDataSerializable};
);
