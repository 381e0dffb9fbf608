//! The numbers behind every input. They are the same in every run, unless a program asks
//! for another number to start from, or the environment variable SEED holds one.

use std::env;
use std::sync::OnceLock;

const USUAL_SEED: u64 = 1;

static SEED: OnceLock<u64> = OnceLock::new();

/// Fixes the seed, before the first input is made; a seed that is fixed already stays.
pub fn start_from(seed: u64) {
    SEED.get_or_init(|| seed);
}

pub fn seed() -> u64 {
    *SEED.get_or_init(|| match env::var("SEED") {
        Ok(text) => text.parse().expect("SEED is a decimal number of 64 bits"),
        Err(_) => USUAL_SEED,
    })
}

/// A splitmix64 generator.
pub struct Random(u64);

impl Random {
    /// The purpose keeps the inputs of one test apart from those of the others.
    pub fn new(purpose: &str) -> Self {
        let mut random = Random(seed());
        for byte in purpose.bytes() {
            random.0 = random.bits() ^ u64::from(byte);
        }
        random
    }

    pub fn bits(&mut self) -> u64 {
        self.0 = self.0.wrapping_add(0x9E37_79B9_7F4A_7C15);
        let mut mixed = self.0;
        mixed = (mixed ^ (mixed >> 30)).wrapping_mul(0xBF58_476D_1CE4_E5B9);
        mixed = (mixed ^ (mixed >> 27)).wrapping_mul(0x94D0_49BB_1331_11EB);
        mixed ^ (mixed >> 31)
    }

    pub fn below(&mut self, end: usize) -> usize {
        ((self.bits() >> 32) as usize) % end
    }

    pub fn one_in(&mut self, cases: usize) -> bool {
        self.below(cases) == 0
    }

    pub fn pick<T: Copy>(&mut self, list: &[T]) -> T {
        list[self.below(list.len())]
    }

    pub fn shuffle<T>(&mut self, list: &mut [T]) {
        for place in (1..list.len()).rev() {
            list.swap(place, self.below(place + 1));
        }
    }

    pub fn byte(&mut self) -> u8 {
        self.bits() as u8
    }

    pub fn bytes(&mut self, length: usize) -> Vec<u8> {
        (0..length).map(|_| self.byte()).collect()
    }

    /// At least one byte.
    pub fn some_bytes(&mut self, most: usize) -> Vec<u8> {
        let length = 1 + self.below(most);
        self.bytes(length)
    }

    /// A number below `end`; one time in ten a number from there up, at times one whose low
    /// 8 or 32 bits are a number below `end`.
    pub fn number(&mut self, end: usize) -> usize {
        if !self.one_in(10) {
            return self.below(end);
        }
        match self.below(6) {
            0 => end,
            1 => end + self.below(4),
            2 => (end.div_ceil(256) << 8) + self.below(end),
            3 => (1 << 32) + self.below(end),
            4 => usize::MAX - self.below(4),
            _ => (self.bits() as usize).max(end),
        }
    }

    /// The right length of a list; one time in twenty another.
    pub fn length(&mut self, right: usize) -> usize {
        if !self.one_in(20) {
            return right;
        }
        match self.below(5) {
            0 => 0,
            1 => right - 1,
            2 => right + 1,
            3 => self.below(right),
            _ => right + 1 + self.below(right),
        }
    }
}
