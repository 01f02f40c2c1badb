//! What the tests share: schedules from lists of entries, a small generator of
//! random ones, and machines as rows of numbers.
#![allow(dead_code)] // every test file uses its own part of this

pub mod row;

use reference::{Refusal, Sizes};

pub const SIZES: Sizes = Sizes {
    slots: 4,
    buffer: 1,
    spacing: 0,
    margin: 1,
    thieves: 1,
    start: 0,
};

pub const SHORT: Refusal = refusal(2, 0);

pub const fn refusal(number: u32, place: u32) -> Refusal {
    Refusal { number, place }
}

/// A schedule file of kind/operand pairs, put together without the writer.
pub fn file(sizes: Sizes, entries: &[(u8, u32)]) -> Vec<u8> {
    let count = entries.len() as u32;
    let mut file = Vec::new();
    for size in [
        sizes.slots,
        sizes.buffer,
        sizes.spacing,
        sizes.margin,
        sizes.thieves,
        sizes.start,
        count,
    ] {
        file.extend(size.to_le_bytes());
    }
    file.extend(entries.iter().map(|&(kind, _)| kind));
    for &(_, operand) in entries {
        file.extend(operand.to_le_bytes());
    }
    file
}

/// Xorshift: no more than a way to meet many different schedules.
pub struct Dice(u64);

impl Dice {
    pub fn new(seed: u64) -> Dice {
        Dice(seed.wrapping_mul(0x9e37_79b9_7f4a_7c15) | 1)
    }

    pub fn roll(&mut self) -> u64 {
        self.0 ^= self.0 << 13;
        self.0 ^= self.0 >> 7;
        self.0 ^= self.0 << 17;
        self.0.wrapping_mul(0x2545_f491_4f6c_dd1d) >> 32
    }

    pub fn below(&mut self, limit: u32) -> u32 {
        (self.roll() % u64::from(limit)) as u32
    }

    pub fn pick<T: Copy>(&mut self, choices: &[T]) -> T {
        choices[self.below(choices.len() as u32) as usize]
    }

    /// Mostly tight sizes, where parties meet; the margin is left at 0.
    pub fn sizes(&mut self) -> Sizes {
        Sizes {
            slots: self.pick(&[2, 2, 3, 4, 5, 8, 256]),
            buffer: self.pick(&[1, 2, 3, 4, 5, 7, 64]),
            spacing: self.pick(&[0, 0, 0, 1, 1, 2, 3, 63]),
            margin: 0,
            thieves: self.pick(&[1, 2, 3, 8]),
            start: self.pick(&[0, 0, 1, 1000, 0x7fff_fff8, 0x7fff_fffe, 0x7fff_ffff]),
        }
    }

    /// Entries with a taste: each list has its own weights of the kinds.
    pub fn entries(&mut self, sizes: &Sizes, count: usize) -> Vec<(u8, u32)> {
        let weights: [u32; 7] = std::array::from_fn(|_| 1 + self.below(8));
        let kinds: Vec<u8> = (0..7u8)
            .zip([1, 1, 1, 1, 4, 1, 4])
            .flat_map(|(kind, base)| vec![kind; (base * weights[kind as usize]) as usize])
            .collect();
        let mut entries = Vec::with_capacity(count);
        for _ in 0..count {
            let kind = self.pick(&kinds);
            let operand = match kind {
                2 => self.below(5),
                5 | 6 => self.below(sizes.thieves),
                _ => 0,
            };
            entries.push((kind, operand));
        }
        entries
    }
}
