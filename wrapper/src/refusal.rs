//! The refusals, by their numbers.

use core::error::Error;
use core::fmt::{self, Display, Formatter};

/// Why a call gave no value. A call that refuses leaves every lent buffer as it was.
#[derive(Copy, Clone, Debug, PartialEq, Eq, Hash)]
#[repr(u32)]
pub enum Refusal {
    /// Zero has no inverse, and nothing is divided by it.
    NoInverse = 1,
    /// Two lists used element by element have unequal lengths.
    LengthsDiffer = 2,
    /// There are 256 interpolation nodes, numbered from 0.
    BadIndex = 3,
    /// The bytes end before one whole element does, or the words before all rows are packed.
    Short = 4,
    /// A list of 128-bit elements has an odd number of 64-bit limbs.
    OddLimbs = 5,
    /// A fingerprint was asked of more than 4,096 words.
    TooManyWords = 6,
}

impl Refusal {
    /// The refusal's number, as the library and its C header have it.
    #[must_use]
    pub const fn number(self) -> u32 {
        self as u32
    }

    /// The refusal with this number; 0 is no refusal.
    #[must_use]
    pub const fn from_number(number: u32) -> Option<Self> {
        match number {
            1 => Some(Self::NoInverse),
            2 => Some(Self::LengthsDiffer),
            3 => Some(Self::BadIndex),
            4 => Some(Self::Short),
            5 => Some(Self::OddLimbs),
            6 => Some(Self::TooManyWords),
            _ => None,
        }
    }
}

impl Display for Refusal {
    fn fmt(&self, f: &mut Formatter<'_>) -> fmt::Result {
        let sentence = match self {
            Self::NoInverse => "zero has no inverse",
            Self::LengthsDiffer => "the lists' lengths differ",
            Self::BadIndex => "interpolation node index out of range",
            Self::Short => "the bytes ended before a whole element, or the words before all rows",
            Self::OddLimbs => "a list of 128-bit elements has an odd number of limbs",
            Self::TooManyWords => "a fingerprint takes at most 4096 words",
        };
        write!(f, "{sentence} (refusal {})", self.number())
    }
}

impl Error for Refusal {}

/// What a call's number says: 0 is an answer, and every other one a refusal.
pub(crate) fn answered(number: u32) -> Result<(), Refusal> {
    match number {
        0 => Ok(()),
        _ => Err(Refusal::from_number(number).expect("every answer's number is known")),
    }
}

/// The value that a call writes where it answers 0.
pub(crate) fn value<T: Default>(call: impl FnOnce(&mut T) -> u32) -> Result<T, Refusal> {
    let mut out = T::default();
    answered(call(&mut out)).map(|()| out)
}

/// The value that a call writes always.
pub(crate) fn written<T: Default>(call: impl FnOnce(&mut T)) -> T {
    let mut out = T::default();
    call(&mut out);
    out
}
