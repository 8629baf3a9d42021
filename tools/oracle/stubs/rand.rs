//! Stub of rand: the names that the given files import.

pub trait Rng {
    fn fill_bytes(&mut self, bytes: &mut [u8]);
    fn next_u32(&mut self) -> u32;
}

pub mod distr {
    use super::Rng;

    pub struct StandardUniform;

    pub trait Distribution<T> {
        fn sample<R: Rng + ?Sized>(&self, rng: &mut R) -> T;
    }
}
