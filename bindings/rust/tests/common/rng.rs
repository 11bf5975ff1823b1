//! A small generator of random numbers, so that every case follows from the seed alone.

// Not every test uses all of it.
#![allow(dead_code)]

/// The generator splitmix64.
#[derive(Clone, Debug)]
pub struct Rng(u64);

impl Rng {
    /// A generator that follows from a seed.
    pub fn new(seed: u64) -> Rng {
        Rng(seed)
    }

    /// The generator of a numbered round of a theme, so that a round can be run again alone.
    pub fn of_round(seed: u64, theme: &str, round: u64) -> Rng {
        let theme = theme
            .bytes()
            .fold(seed, |mixed, byte| Rng(mixed ^ u64::from(byte)).next());
        Rng(Rng(theme ^ round).next())
    }

    /// Any number.
    pub fn next(&mut self) -> u64 {
        self.0 = self.0.wrapping_add(0x9E37_79B9_7F4A_7C15);
        let mut mixed = self.0;
        mixed = (mixed ^ (mixed >> 30)).wrapping_mul(0xBF58_476D_1CE4_E5B9);
        mixed = (mixed ^ (mixed >> 27)).wrapping_mul(0x94D0_49BB_1331_11EB);
        mixed ^ (mixed >> 31)
    }

    /// A number below a bound that is not 0.
    pub fn below(&mut self, bound: usize) -> usize {
        ((u128::from(self.next()) * bound as u128) >> 64) as usize
    }

    /// A number from the first to the last, both included.
    pub fn between(&mut self, first: usize, last: usize) -> usize {
        first + self.below(last - first + 1)
    }

    /// True once in so many times.
    pub fn one_in(&mut self, times: usize) -> bool {
        self.below(times) == 0
    }

    /// True so many times in a hundred.
    pub fn percent(&mut self, times: usize) -> bool {
        self.below(100) < times
    }

    /// One of the choices.
    pub fn of<T: Copy>(&mut self, choices: &[T]) -> T {
        choices[self.below(choices.len())]
    }

    /// Any byte.
    pub fn byte(&mut self) -> u8 {
        self.next() as u8
    }

    /// Any 16-bit number.
    pub fn short(&mut self) -> u16 {
        self.next() as u16
    }

    /// Any 32-bit number.
    pub fn word(&mut self) -> u32 {
        self.next() as u32
    }

    /// So many bytes of any value.
    pub fn bytes(&mut self, count: usize) -> Vec<u8> {
        let mut bytes = Vec::with_capacity(count + 7);
        while bytes.len() < count {
            bytes.extend_from_slice(&self.next().to_le_bytes());
        }
        bytes.truncate(count);
        bytes
    }

    /// A length: mostly a few, at times some hundreds, seldom thousands.
    pub fn length(&mut self) -> usize {
        match self.below(200) {
            0 => self.below(9000),
            1..=8 => self.below(400),
            9..=40 => self.below(40),
            _ => self.below(9),
        }
    }
}
