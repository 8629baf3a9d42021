//! The inputs of the comparison and of the recorded list: boundary values, and values from a fixed seed.

/// How many random inputs a call gets beside the boundary ones.
pub const RANDOM: usize = 1_000_000;

/// A source of values that is the same in every run.
pub struct Source(u64);

impl Source {
    /// The source that a name starts.
    pub fn new(name: &str) -> Self {
        Self(name.bytes().fold(0x9e37_79b9_7f4a_7c15, |seed, byte| {
            (seed ^ u64::from(byte)).wrapping_mul(0x0000_0100_0000_01b3)
        }))
    }

    /// The next word, all bits equally likely (splitmix64).
    pub fn uniform(&mut self) -> u64 {
        self.0 = self.0.wrapping_add(0x9e37_79b9_7f4a_7c15);
        let mut z = self.0;
        z = (z ^ (z >> 30)).wrapping_mul(0xbf58_476d_1ce4_e5b9);
        z = (z ^ (z >> 27)).wrapping_mul(0x94d0_49bb_1331_11eb);
        z ^ (z >> 31)
    }

    /// The next word: half of them uniform, the others of few bits, of many bits, short, or with a short run of bits.
    pub fn word(&mut self) -> u64 {
        let word = self.uniform();
        let other = self.uniform();
        match other & 7 {
            0 => word & other & self.uniform(),
            1 => word | other | self.uniform(),
            2 => word >> (other >> 58),
            3 => (word & 0xffff) << (other >> 58),
            _ => word,
        }
    }

    pub fn byte(&mut self) -> u8 {
        self.uniform() as u8
    }

    pub fn wide(&mut self) -> u128 {
        u128::from(self.word()) | (u128::from(self.word()) << 64)
    }

    pub fn words(&mut self, count: usize) -> Vec<u64> {
        (0..count).map(|_| self.word()).collect()
    }

    pub fn wides(&mut self, count: usize) -> Vec<u128> {
        (0..count).map(|_| self.wide()).collect()
    }

    pub fn bytes(&mut self, count: usize) -> Vec<u8> {
        (0..count).map(|_| self.byte()).collect()
    }
}

/// 0, every single bit (1 among them), all ones, and the two alternating words.
pub fn boundary_words() -> Vec<u64> {
    let alternating = 0x5555_5555_5555_5555;
    let mut words = vec![0, u64::MAX, alternating, !alternating];
    words.extend((0..64).map(|bit| 1 << bit));
    words
}

/// The same at 128 bits, and the two values that have all ones in one limb alone.
pub fn boundary_wides() -> Vec<u128> {
    let alternating = 0x5555_5555_5555_5555_5555_5555_5555_5555;
    let low = u128::from(u64::MAX);
    let mut wides = vec![0, u128::MAX, alternating, !alternating, low, !low];
    wides.extend((0..128).map(|bit| 1 << bit));
    wides
}

/// Every pair of the given values.
fn pairs<T: Copy>(values: &[T]) -> impl Iterator<Item = (T, T)> {
    values.iter().flat_map(|&a| values.iter().map(move |&b| (a, b)))
}

/// The boundary words, and as many more from the source of that name.
pub fn words(name: &str, count: usize) -> impl Iterator<Item = u64> {
    let mut source = Source::new(name);
    boundary_words().into_iter().chain((0..count).map(move |_| source.word()))
}

/// Every pair of boundary words, and as many more from the source of that name.
pub fn words_paired(name: &str, count: usize) -> impl Iterator<Item = (u64, u64)> {
    let mut source = Source::new(name);
    let boundary: Vec<_> = pairs(&boundary_words()).collect();
    boundary.into_iter().chain((0..count).map(move |_| (source.word(), source.word())))
}

/// The same at 128 bits.
pub fn wides(name: &str, count: usize) -> impl Iterator<Item = u128> {
    let mut source = Source::new(name);
    boundary_wides().into_iter().chain((0..count).map(move |_| source.wide()))
}

pub fn wides_paired(name: &str, count: usize) -> impl Iterator<Item = (u128, u128)> {
    let mut source = Source::new(name);
    let boundary: Vec<_> = pairs(&boundary_wides()).collect();
    boundary.into_iter().chain((0..count).map(move |_| (source.wide(), source.wide())))
}

/// Every pair of bytes.
pub fn every_pair() -> impl Iterator<Item = (u8, u8)> {
    (0..=255).flat_map(|a| (0..=255).map(move |b| (a, b)))
}

/// The two limbs of a 128-bit value, the low one first.
pub fn limbs(value: u128) -> [u64; 2] {
    [value as u64, (value >> 64) as u64]
}

/// A list of 128-bit values as the list of their limbs.
pub fn flattened(values: &[u128]) -> Vec<u64> {
    values.iter().flat_map(|&value| limbs(value)).collect()
}
