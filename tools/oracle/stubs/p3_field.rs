//! Stub of p3-field: the traits and macros that the given files implement or call. The bodies here, those of division,
//! sums, products, assignments and `inverse`, are our reading and not the crate's.

use core::ops::{Add, Mul, Neg, Sub};

use num_bigint::BigUint;

pub trait Packable {}

pub trait Algebra<F> {}

pub trait PrimeCharacteristicRing:
    Sized + Clone + Add<Output = Self> + Sub<Output = Self> + Mul<Output = Self> + Neg<Output = Self>
{
    type PrimeSubfield;

    const ZERO: Self;
    const ONE: Self;
    const TWO: Self;
    const NEG_ONE: Self;

    fn from_prime_subfield(f: Self::PrimeSubfield) -> Self;
    fn from_bool(b: bool) -> Self;
    fn double(&self) -> Self;
    fn halve(&self) -> Self;
    fn xor(&self, y: &Self) -> Self;
    fn mul_2exp_u64(&self, exp: u64) -> Self;
    fn div_2exp_u64(&self, exp: u64) -> Self;
    fn square(&self) -> Self;

    fn exp_power_of_2(&self, power_log: usize) -> Self {
        (0..power_log).fold(self.clone(), |power, _| power.square())
    }

    fn dot_product<const N: usize>(u: &[Self; N], v: &[Self; N]) -> Self {
        (0..N).fold(Self::ZERO, |sum, i| sum + u[i].clone() * v[i].clone())
    }

    fn zero_vec(len: usize) -> Vec<Self> {
        vec![Self::ZERO; len]
    }

    fn bool_check(&self) -> Self {
        self.square() + self.clone()
    }
}

pub trait Field: PrimeCharacteristicRing + Copy + PartialEq {
    type Packing;

    const GENERATOR: Self;

    fn is_one(&self) -> bool {
        *self == Self::ONE
    }

    fn is_zero(&self) -> bool {
        *self == Self::ZERO
    }

    fn try_inverse(&self) -> Option<Self>;

    fn inverse(&self) -> Self {
        self.try_inverse().expect("Tried to invert zero")
    }

    fn try_sqrt(&self) -> Option<Self>;
    fn order() -> BigUint;
    fn bits() -> usize;
    fn interpolation_node(i: usize) -> Self;
}

pub trait PrimeField: Field {
    fn as_canonical_biguint(&self) -> BigUint;
}

pub trait PrimeField64: PrimeField {
    const ORDER_U64: u64;
    fn as_canonical_u64(&self) -> u64;
}

pub trait PrimeField32: PrimeField64 {
    const ORDER_U32: u32;
    fn as_canonical_u32(&self) -> u32;
}

pub mod integers {
    pub trait QuotientMap<I>: Sized {
        fn from_int(i: I) -> Self;
        fn from_canonical_checked(i: I) -> Option<Self>;
        unsafe fn from_canonical_unchecked(i: I) -> Self;
    }
}

pub trait RawDataSerializable: Sized {
    const NUM_BYTES: usize;

    fn into_bytes(self) -> impl IntoIterator<Item = u8>;

    fn into_parallel_byte_streams<const N: usize>(
        _: impl IntoIterator<Item = [Self; N]>,
    ) -> impl IntoIterator<Item = [u8; N]> {
        Vec::new()
    }

    fn into_u64_stream(_: impl IntoIterator<Item = Self>) -> impl IntoIterator<Item = u64> {
        Vec::new()
    }

    fn into_parallel_u64_streams<const N: usize>(
        _: impl IntoIterator<Item = [Self; N]>,
    ) -> impl IntoIterator<Item = [u64; N]> {
        Vec::new()
    }
}

#[macro_export]
macro_rules! impl_add_assign {
    ($t:ty) => {
        impl AddAssign for $t {
            fn add_assign(&mut self, r: Self) {
                *self = *self + r
            }
        }
    };
}

#[macro_export]
macro_rules! impl_sub_assign {
    ($t:ty) => {
        impl SubAssign for $t {
            fn sub_assign(&mut self, r: Self) {
                *self = *self - r
            }
        }
    };
}

#[macro_export]
macro_rules! impl_mul_methods {
    ($t:ty) => {
        impl MulAssign for $t {
            fn mul_assign(&mut self, r: Self) {
                *self = *self * r
            }
        }

        impl Product for $t {
            fn product<I: Iterator<Item = Self>>(i: I) -> Self {
                i.fold(Self::ONE, |a, b| a * b)
            }
        }
    };
}

#[macro_export]
macro_rules! impl_div_methods {
    ($t:ty, $u:ty) => {
        impl Div<$u> for $t {
            type Output = Self;

            fn div(self, r: $u) -> Self {
                self * r.inverse()
            }
        }

        impl DivAssign<$u> for $t {
            fn div_assign(&mut self, r: $u) {
                *self = *self / r
            }
        }
    };
}

#[macro_export]
macro_rules! ring_sum {
    ($t:ty) => {
        impl Sum for $t {
            fn sum<I: Iterator<Item = Self>>(i: I) -> Self {
                i.fold(Self::ZERO, |a, b| a + b)
            }
        }
    };
}

/// The macros whose output nothing here calls.
#[macro_export]
macro_rules! nothing {
    ($($t:tt)*) => {};
}

pub use nothing as quotient_map_large_uint;
pub use nothing as quotient_map_large_iint;

pub mod op_assign_macros {
    pub use crate::{impl_add_assign, impl_div_methods, impl_mul_methods, impl_sub_assign, ring_sum};
    pub use crate::{
        nothing as impl_add_base_field, nothing as impl_mul_base_field, nothing as impl_sub_base_field,
    };
}
