//! Stub of num-bigint: what `Field::order` needs.

#[derive(Clone, Debug, PartialEq, Eq)]
pub struct BigUint(pub u128);

impl From<u8> for BigUint {
    fn from(x: u8) -> Self {
        Self(x.into())
    }
}

impl From<u16> for BigUint {
    fn from(x: u16) -> Self {
        Self(x.into())
    }
}

impl core::ops::Shl<usize> for BigUint {
    type Output = Self;

    fn shl(self, n: usize) -> Self {
        Self(self.0 << n)
    }
}
