//! A small deterministic generator of numbers (SplitMix64).

/// The golden ratio's odd 64-bit fraction, the generator's stride.
const STRIDE: u64 = 0x9E37_79B9_7F4A_7C15;

pub struct Random {
    state: u64,
}

impl Random {
    pub const fn new(seed: u64) -> Self {
        Random { state: seed }
    }

    /// A stream for one case that depends on nothing but the seed and the
    /// case's number, so that the case can be repeated alone.
    pub const fn of_case(seed: u64, case: u64) -> Self {
        Random::new(mix(seed ^ mix(case.wrapping_add(STRIDE))))
    }

    pub fn word(&mut self) -> u64 {
        self.state = self.state.wrapping_add(STRIDE);
        mix(self.state)
    }

    pub fn number(&mut self) -> u32 {
        (self.word() >> 32) as u32
    }

    /// A number below `bound`, which is not 0.
    pub fn below(&mut self, bound: u32) -> u32 {
        ((u64::from(self.number()) * u64::from(bound)) >> 32) as u32
    }

    /// A number from `low` to `high`, both included.
    pub fn between(&mut self, low: u32, high: u32) -> u32 {
        let width = u64::from(high - low) + 1;
        low + ((u64::from(self.number()) * width) >> 32) as u32
    }

    /// A place in something `length` long, which is not 0.
    pub fn place(&mut self, length: usize) -> usize {
        ((self.word() >> 32) as usize * length) >> 32
    }

    /// True in `share` of a thousand calls.
    pub fn chance(&mut self, share: u32) -> bool {
        self.below(1000) < share
    }

    pub fn pick<T: Copy>(&mut self, choices: &[T]) -> T {
        choices[self.place(choices.len())]
    }
}

const fn mix(mut word: u64) -> u64 {
    word = (word ^ (word >> 30)).wrapping_mul(0xBF58_476D_1CE4_E5B9);
    word = (word ^ (word >> 27)).wrapping_mul(0x94D0_49BB_1331_11EB);
    word ^ (word >> 31)
}
