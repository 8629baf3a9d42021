//! Stub of serde: the names that the given files import, and no behaviour.

pub use serde_derive::{Deserialize, Serialize};

pub trait Serialize {}

pub trait Deserializer<'de> {
    type Error: de::Error;
}

pub trait Deserialize<'de>: Sized {
    fn deserialize<D: Deserializer<'de>>(deserializer: D) -> Result<Self, D::Error>;
}

pub mod de {
    pub trait Error {
        fn custom(message: &str) -> Self;
    }
}

macro_rules! integers {
    ($($integer:ty)*) => {
        $(impl<'de> Deserialize<'de> for $integer {
            fn deserialize<D: Deserializer<'de>>(_: D) -> Result<Self, D::Error> {
                unimplemented!()
            }
        })*
    };
}

integers!(u8 u16 u32 u64 u128);
