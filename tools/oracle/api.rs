//! What the comparison calls: the given functions under plain names, over plain numbers. A field element is its bits,
//! a 128-bit one a `u128`, a byte map its quadword. Nothing here computes anything of its own; where the given code
//! panics, so does the call.

/// Carryless products of words, and what they are made of.
pub mod products {
    use crate::clmul::poly_dot_powers_128 as given;

    pub fn bmul64(x: u64, y: u64) -> u64 {
        given::bmul64(x, y)
    }

    pub fn clmul_64x64_halves(a: u64, b: u64) -> (u64, u64) {
        given::probe::clmul_64x64_halves(a, b)
    }

    pub fn clmul_64x64(a: u64, b: u64) -> u128 {
        given::clmul_64x64(a, b)
    }

    pub fn spread_bits_64(v: u64) -> u128 {
        given::probe::spread_bits_64(v)
    }

    pub fn compact_even(x: u64) -> u64 {
        given::compact_even(x)
    }

    pub fn reduce_64(product: u128) -> u64 {
        given::reduce_64(product)
    }

    pub fn reduce_128(low: u128, high: u128) -> u128 {
        given::reduce_128(low, high)
    }
}

/// The field of 128 bits.
pub mod gf128 {
    use crate::clmul;

    pub fn mul(a: u128, b: u128) -> u128 {
        clmul::poly_mul_128(a, b)
    }

    pub fn square(a: u128) -> u128 {
        clmul::poly_square_128(a)
    }

    /// The sum of products of two lists of one length.
    pub fn dot(a: &[u128], b: &[u128]) -> u128 {
        clmul::poly_dot_128(a.iter().copied().zip(b.iter().copied()))
    }
}

/// The field of 64 bits.
pub mod gf64 {
    use p3_field::{Field, RawDataSerializable};

    use crate::tower::TowerLevel;
    use crate::{Poly64, clmul};

    pub fn add(a: u64, b: u64) -> u64 {
        (Poly64::new(a) + Poly64::new(b)).to_bits()
    }

    pub fn mul(a: u64, b: u64) -> u64 {
        clmul::poly_mul_64(a, b)
    }

    pub fn square(a: u64) -> u64 {
        clmul::poly_square_64(a)
    }

    pub fn sqrt(a: u64) -> u64 {
        clmul::poly_sqrt_64(a)
    }

    pub fn inverse(a: u64) -> u64 {
        clmul::poly_inverse_64(a)
    }

    pub fn try_inverse(a: u64) -> Option<u64> {
        Poly64::new(a).try_inverse().map(Poly64::to_bits)
    }

    /// The sum of products of two lists of one length.
    pub fn dot(a: &[u64], b: &[u64]) -> u64 {
        clmul::poly_dot_64(a.iter().copied().zip(b.iter().copied()))
    }

    /// The element at the start of the bytes; panics where they end before it does.
    pub fn read(bytes: &[u8]) -> u64 {
        Poly64::from_le_byte_iter(bytes.iter().copied()).to_bits()
    }

    /// The bytes of an element.
    pub fn bytes(a: u64) -> Vec<u8> {
        Poly64::new(a).into_bytes().into_iter().collect()
    }
}

/// The byte field.
pub mod bytes {
    use p3_field::{Field, PrimeCharacteristicRing, RawDataSerializable};

    use crate::Rijndael8b;
    use crate::aes::PackedRijndael8b;
    use crate::tower::TowerLevel;

    type Given = PackedRijndael8b<0>;

    pub const ZERO: u8 = Rijndael8b::ZERO.to_byte();
    pub const ONE: u8 = Rijndael8b::ONE.to_byte();
    pub const GENERATOR: u8 = Rijndael8b::GENERATOR.to_byte();

    fn element(byte: u8) -> Rijndael8b {
        Rijndael8b::from_byte(byte)
    }

    pub fn add(a: u8, b: u8) -> u8 {
        (element(a) + element(b)).to_byte()
    }

    pub fn sub(a: u8, b: u8) -> u8 {
        (element(a) - element(b)).to_byte()
    }

    pub fn carryless(a: u8, b: u8) -> u16 {
        Given::carryless(a, b)
    }

    pub fn mul(a: u8, b: u8) -> u8 {
        Given::mul_bytes(a, b)
    }

    pub fn square(a: u8) -> u8 {
        element(a).square().to_byte()
    }

    pub fn exp_power_of_2(a: u8, power_log: usize) -> u8 {
        element(a).exp_power_of_2(power_log).to_byte()
    }

    pub fn sqrt(a: u8) -> u8 {
        element(a).try_sqrt().expect("every byte has a root").to_byte()
    }

    pub fn invert(a: u8) -> u8 {
        Given::invert_byte(a)
    }

    pub fn invert_or_zero(a: u8) -> u8 {
        element(a).invert_or_zero().to_byte()
    }

    pub fn try_inverse(a: u8) -> Option<u8> {
        element(a).try_inverse().map(Rijndael8b::to_byte)
    }

    pub fn interpolation_node(i: usize) -> u8 {
        Rijndael8b::interpolation_node(i).to_byte()
    }

    pub fn scaling_matrix(a: u8) -> u64 {
        element(a).scaling_matrix().to_quadword()
    }

    pub fn mul_alpha(a: u8) -> u8 {
        element(a).mul_alpha().to_byte()
    }

    /// The element at the start of the bytes; panics where there is none.
    pub fn read(bytes: &[u8]) -> u8 {
        Rijndael8b::from_le_byte_iter(bytes.iter().copied()).to_byte()
    }

    /// The bytes of an element.
    pub fn bytes(a: u8) -> Vec<u8> {
        element(a).into_bytes().into_iter().collect()
    }

    pub fn mul_slice(dst: &mut [u8], src: &[u8]) {
        Given::mul_slice(dst, src)
    }

    pub fn invert_slice(bytes: &mut [u8]) {
        Given::invert_slice(bytes)
    }
}

/// Byte maps as quadwords, the Frobenius maps, and linearized polynomials.
pub mod maps {
    use crate::{ByteMatrix, LinearizedPoly8b, Rijndael8b};

    pub const ZERO: u64 = ByteMatrix::ZERO.to_quadword();
    pub const IDENTITY: u64 = ByteMatrix::IDENTITY.to_quadword();

    fn matrix(quadword: u64) -> ByteMatrix {
        ByteMatrix::from_quadword(quadword)
    }

    fn polynomial(coefficients: [u8; 8]) -> LinearizedPoly8b {
        LinearizedPoly8b::new(coefficients.map(Rijndael8b::from_byte))
    }

    pub fn from_images(images: [u8; 8]) -> u64 {
        ByteMatrix::from_images(images).to_quadword()
    }

    pub fn images(quadword: u64) -> [u8; 8] {
        matrix(quadword).images()
    }

    pub fn apply(quadword: u64, byte: u8) -> u8 {
        matrix(quadword).apply(byte)
    }

    pub fn compose(second: u64, first: u64) -> u64 {
        matrix(second).compose(matrix(first)).to_quadword()
    }

    pub fn apply_slice(quadword: u64, bytes: &mut [u8]) {
        matrix(quadword).apply_slice(bytes)
    }

    pub fn frobenius_map(power_log: usize) -> u64 {
        Rijndael8b::frobenius_map(power_log).to_quadword()
    }

    pub fn frobenius_orbit(a: u8) -> [u8; 8] {
        Rijndael8b::from_byte(a).frobenius_orbit().map(Rijndael8b::to_byte)
    }

    pub fn eval(coefficients: [u8; 8], x: u8) -> u8 {
        polynomial(coefficients).eval(Rijndael8b::from_byte(x)).to_byte()
    }

    pub fn to_matrix(coefficients: [u8; 8]) -> u64 {
        polynomial(coefficients).to_matrix().to_quadword()
    }
}

/// The tower byte and its change of basis.
pub mod tower {
    use crate::aes::PackedRijndael8b;
    use crate::tower::TowerLevel;
    use crate::{BinaryField8, Rijndael8b};

    pub const FROM_TOWER: u64 = PackedRijndael8b::<0>::FROM_TOWER.to_quadword();
    pub const INTO_TOWER: u64 = PackedRijndael8b::<0>::INTO_TOWER.to_quadword();
    pub const XI: [u8; 3] = PackedRijndael8b::<0>::XI;

    fn element(byte: u8) -> BinaryField8 {
        BinaryField8::from_repr(byte)
    }

    pub fn add(a: u8, b: u8) -> u8 {
        (element(a) + element(b)).to_repr()
    }

    /// The product as the field computes it, by tables.
    pub fn mul(a: u8, b: u8) -> u8 {
        (element(a) * element(b)).to_repr()
    }

    /// The product as the tower defines it, level by level.
    pub fn reference_mul(a: u8, b: u8) -> u8 {
        element(a).reference_mul(element(b)).to_repr()
    }

    pub fn images() -> [u8; 8] {
        PackedRijndael8b::<0>::tower_images()
    }

    pub fn to_rijndael(a: u8) -> u8 {
        Rijndael8b::from(element(a)).to_byte()
    }

    pub fn from_rijndael(a: u8) -> u8 {
        BinaryField8::from(Rijndael8b::from_byte(a)).to_repr()
    }
}
