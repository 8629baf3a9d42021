//! What follows from an element's sum, product, square and refusing quotient: the other operators, and the methods that the
//! old crate gives every element.
//!
//! An operator takes a reference where the left side is one too. With a value on the left the right side is a value, so that
//! `a * b.into()` says which type is meant.

/// The sum and the product of elements that are one number, each by its call.
macro_rules! sum_and_product {
    ($type:ty, $sum:ident, $product:ident) => {
        impl core::ops::Add for $type {
            type Output = Self;

            #[inline]
            fn add(self, rhs: Self) -> Self {
                Self($sum(self.0, rhs.0))
            }
        }

        impl core::ops::Mul for $type {
            type Output = Self;

            #[inline]
            fn mul(self, rhs: Self) -> Self {
                Self($product(self.0, rhs.0))
            }
        }
    };
}

/// An operator with a reference on the left and its assigning form, from the operator over values.
macro_rules! operator {
    ($type:ty, $operator:ident, $method:ident, $assign:ident, $assigning:ident) => {
        impl core::ops::$operator<$type> for &$type {
            type Output = $type;

            #[inline]
            fn $method(self, rhs: $type) -> $type {
                core::ops::$operator::$method(*self, rhs)
            }
        }

        impl core::ops::$operator<&$type> for &$type {
            type Output = $type;

            #[inline]
            fn $method(self, rhs: &$type) -> $type {
                core::ops::$operator::$method(*self, *rhs)
            }
        }

        impl core::ops::$assign for $type {
            #[inline]
            fn $assigning(&mut self, rhs: Self) {
                *self = core::ops::$operator::$method(*self, rhs);
            }
        }
    };
}

/// The difference, the negative, references, assignments, and sums and products of iterators, from sum and product.
macro_rules! ring_operators {
    ($type:ty) => {
        impl core::ops::Sub for $type {
            type Output = Self;

            /// Over two elements the difference is the sum.
            #[inline]
            #[allow(clippy::suspicious_arithmetic_impl)]
            fn sub(self, rhs: Self) -> Self {
                self + rhs
            }
        }

        impl core::ops::Neg for $type {
            type Output = Self;

            /// Over two elements every element is its own negative.
            #[inline]
            fn neg(self) -> Self {
                self
            }
        }

        $crate::operators::operator!($type, Add, add, AddAssign, add_assign);
        $crate::operators::operator!($type, Sub, sub, SubAssign, sub_assign);
        $crate::operators::operator!($type, Mul, mul, MulAssign, mul_assign);

        impl core::iter::Sum for $type {
            fn sum<I: Iterator<Item = Self>>(elements: I) -> Self {
                elements.fold(Self::ZERO, |sum, element| sum + element)
            }
        }

        impl core::iter::Product for $type {
            fn product<I: Iterator<Item = Self>>(elements: I) -> Self {
                elements.fold(Self::ONE, |product, element| product * element)
            }
        }

        impl<'a> core::iter::Sum<&'a $type> for $type {
            fn sum<I: Iterator<Item = &'a $type>>(elements: I) -> Self {
                elements.copied().sum()
            }
        }

        impl<'a> core::iter::Product<&'a $type> for $type {
            fn product<I: Iterator<Item = &'a $type>>(elements: I) -> Self {
                elements.copied().product()
            }
        }
    };
}

/// Division over values, references and assigning, from `try_div`; and `inverse` from `try_inverse`.
macro_rules! division {
    ($type:ty) => {
        impl $type {
            /// The inverse.
            ///
            /// # Panics
            ///
            /// Panics for zero, as the old crate does; `try_inverse` answers `None`.
            #[inline]
            pub fn inverse(&self) -> Self {
                self.try_inverse().expect("Tried to invert zero")
            }
        }

        impl core::ops::Div for $type {
            type Output = Self;

            /// The dividend times the divisor's inverse.
            ///
            /// # Panics
            ///
            /// Panics if the divisor is zero, as the old crate's operator does. `try_div` answers with a [`Refusal`]
            /// instead.
            ///
            /// [`Refusal`]: crate::Refusal
            #[inline]
            fn div(self, rhs: Self) -> Self {
                self.try_div(rhs).expect("Tried to divide by zero")
            }
        }

        $crate::operators::operator!($type, Div, div, DivAssign, div_assign);
    };
}

/// What the old crate gives every element, of 2^`log_bits` bits: constants, or built of sums, products and squares.
macro_rules! ring_methods {
    ($type:ty, $log_bits:literal) => {
        impl $type {
            /// One and one, which is zero.
            pub const TWO: Self = Self::ZERO;
            /// The negative of one, which is one.
            pub const NEG_ONE: Self = Self::ONE;
            /// The k for which an element has 2^k bits.
            pub const LOG_BITS: usize = $log_bits;

            /// How many bits an element has.
            #[must_use]
            #[inline]
            pub const fn bits() -> usize {
                1 << $log_bits
            }

            /// One for true, and zero for false.
            #[inline]
            pub const fn from_bool(b: bool) -> Self {
                if b { Self::ONE } else { Self::ZERO }
            }

            /// Whether this is zero.
            #[must_use]
            #[inline]
            pub fn is_zero(&self) -> bool {
                *self == Self::ZERO
            }

            /// Whether this is one.
            #[must_use]
            #[inline]
            pub fn is_one(&self) -> bool {
                *self == Self::ONE
            }

            /// The element and itself, which is zero.
            #[inline]
            pub const fn double(&self) -> Self {
                Self::ZERO
            }

            /// The sum.
            #[inline]
            pub fn xor(&self, y: &Self) -> Self {
                *self + *y
            }

            /// The product with 2^exp: the element itself for 0, and zero above.
            #[inline]
            pub const fn mul_2exp_u64(&self, exp: u64) -> Self {
                if exp == 0 { *self } else { Self::ZERO }
            }

            /// The square plus the element, which is zero exactly for zero and one.
            #[inline]
            pub fn bool_check(&self) -> Self {
                self.square() + *self
            }

            /// The power, by squares and products. Any element to the power 0 is one.
            pub fn exp_u64(&self, power: u64) -> Self {
                let bits = u64::BITS - power.leading_zeros();
                (0..bits).rev().fold(Self::ONE, |sofar, i| {
                    let square = sofar.square();
                    if power >> i & 1 == 1 { square * *self } else { square }
                })
            }

            /// The powers one after the other, from the power 0 on, without end.
            pub fn powers(&self) -> impl Iterator<Item = Self> + Clone + use<> {
                let base = *self;
                core::iter::successors(Some(Self::ONE), move |&power| Some(power * base))
            }
        }
    };
}

/// `Display` and `Debug` of an element are those of its bits.
macro_rules! shown_as_bits {
    ($type:ty, $bits:ident) => {
        impl core::fmt::Display for $type {
            fn fmt(&self, f: &mut core::fmt::Formatter<'_>) -> core::fmt::Result {
                core::fmt::Display::fmt(&self.$bits(), f)
            }
        }

        impl core::fmt::Debug for $type {
            fn fmt(&self, f: &mut core::fmt::Formatter<'_>) -> core::fmt::Result {
                core::fmt::Debug::fmt(&self.$bits(), f)
            }
        }
    };
}

/// An element's bits as bytes, low byte first, from `read` and `write`.
macro_rules! byte_streams {
    ($type:ty, $bytes:literal) => {
        impl $type {
            /// How many bytes an element takes.
            pub const NUM_BYTES: usize = $bytes;

            /// The element of the next bytes of a stream, low byte first.
            ///
            /// # Panics
            ///
            /// Panics if the stream ends before a whole element, as the old crate does; `read` answers with a
            /// [`Refusal`](crate::Refusal) instead.
            pub fn from_le_byte_iter(bytes: impl Iterator<Item = u8>) -> Self {
                let mut buffer = [0; $bytes];
                let mut filled = 0;
                for (place, byte) in buffer.iter_mut().zip(bytes) {
                    *place = byte;
                    filled += 1;
                }
                Self::read(&buffer[..filled]).expect("byte stream ended before a whole element was read")
            }

            /// The element's bytes, low byte first.
            #[must_use]
            pub fn into_bytes(self) -> [u8; $bytes] {
                let mut bytes = [0; $bytes];
                self.write(&mut bytes).expect("there is room for one element");
                bytes
            }
        }
    };
}

/// What the two byte types share: an element is a byte, its sum and product are a call each, and the rest follows.
macro_rules! byte_element {
    ($type:ty, $sum:ident, $product:ident) => {
        impl $type {
            /// The element with these bits. Every byte is one.
            #[inline]
            pub const fn from_repr(byte: u8) -> Self {
                Self(byte)
            }

            /// The element's bits.
            #[must_use]
            #[inline]
            pub const fn to_repr(self) -> u8 {
                self.0
            }

            /// The square root, always `Some`: the old crate's form of `sqrt`.
            #[inline]
            pub fn try_sqrt(&self) -> Option<Self> {
                Some(self.sqrt())
            }

            /// Interpolation node i, which is the byte i.
            ///
            /// # Panics
            ///
            /// Panics from 256 up, as the old crate does; `try_interpolation_node` refuses.
            #[inline]
            pub fn interpolation_node(i: usize) -> Self {
                Self::try_interpolation_node(i).expect("interpolation node index out of range")
            }

            /// Interpolation node i, which is the byte i, or refusal 3 from 256 up.
            #[inline]
            pub fn try_interpolation_node(i: usize) -> Result<Self, Refusal> {
                value(|out| togasipe_rijndael_interpolation_node(i, out)).map(Self)
            }

            /// The sum of the products of two lists of one length.
            pub fn dot_product<const N: usize>(u: &[Self; N], v: &[Self; N]) -> Self {
                u.iter().zip(v).map(|(a, b)| a * b).sum()
            }

            /// The element at the start of the bytes, or refusal 4 where there are none. What follows is ignored.
            pub fn read(bytes: &[u8]) -> Result<Self, Refusal> {
                // SAFETY: pointer and length are those of the list.
                value(|out| unsafe { togasipe_rijndael_read(bytes.as_ptr(), bytes.len(), out) }).map(Self)
            }

            /// Writes the element over the first byte and leaves the others alone; refusal 4 where there are none.
            pub fn write(self, bytes: &mut [u8]) -> Result<(), Refusal> {
                // SAFETY: pointer and length are those of the list.
                answered(unsafe { togasipe_rijndael_write(self.0, bytes.as_mut_ptr(), bytes.len()) })
            }
        }

        $crate::operators::sum_and_product!($type, $sum, $product);
        $crate::operators::ring_operators!($type);
        $crate::operators::ring_methods!($type, 3);
        $crate::operators::division!($type);
        $crate::operators::shown_as_bits!($type, to_repr);
        $crate::operators::byte_streams!($type, 1);
    };
}

pub(crate) use {
    byte_element, byte_streams, division, operator, ring_methods, ring_operators, shown_as_bits, sum_and_product,
};
