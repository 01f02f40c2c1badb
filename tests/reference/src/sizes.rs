//! The sizes of a schedule: their ranges, and the margin a thief needs.

use std::ops::RangeInclusive;

use crate::refusal::Refusal;

/// The largest number of entries a schedule may have.
const MOST_ENTRIES: usize = 4096;
/// The place of the number of entries, which is not a field of [`Sizes`].
const ENTRIES_PLACE: u32 = 6;

/// In file order, which is also the order in which faults are reported.
const RANGES: [RangeInclusive<u32>; 6] = [2..=256, 1..=64, 0..=63, 0..=64, 1..=8, 0..=0x7fff_ffff];

/// The first six sizes as the file has them; a margin of 0 stays 0 here.
#[derive(Debug, Clone, Copy, PartialEq, Eq)]
pub struct Sizes {
    pub slots: u32,
    pub buffer: u32,
    pub spacing: u32,
    pub margin: u32,
    pub thieves: u32,
    pub start: u32,
}

impl Sizes {
    pub(crate) fn from_file_order(words: [u32; 6]) -> Sizes {
        let [slots, buffer, spacing, margin, thieves, start] = words;
        Sizes {
            slots,
            buffer,
            spacing,
            margin,
            thieves,
            start,
        }
    }

    pub(crate) fn in_file_order(&self) -> [u32; 6] {
        [
            self.slots,
            self.buffer,
            self.spacing,
            self.margin,
            self.thieves,
            self.start,
        ]
    }

    /// Reports the lowest place whose size is out of range, entries being last.
    pub(crate) fn check(&self, entries: usize) -> Result<(), Refusal> {
        for (place, (range, size)) in (0..).zip(RANGES.iter().zip(self.in_file_order())) {
            if !range.contains(&size) {
                return Err(Refusal::size(place));
            }
        }
        if entries > MOST_ENTRIES {
            return Err(Refusal::size(ENTRIES_PLACE));
        }
        Ok(())
    }

    /// The margin the thieves work with: a written 0 stands for the buffer.
    pub(crate) fn margin_in_use(&self) -> u32 {
        match self.margin {
            0 => self.buffer,
            margin => margin,
        }
    }

    /// Whether the margin in use keeps thieves clear of a late tail.
    pub(crate) fn has_enough_margin(&self) -> bool {
        self.margin_in_use() >= needed_margin(self.buffer, self.spacing)
    }
}

/// The most tail stores of takes that the store buffer can hold at once.
///
/// Between two of them lie `spacing` other stores at least, the client's or a
/// put's, so the answer is buffer / (spacing + 1), rounded up. It is the exact
/// quotient for every pair of numbers, also for those no schedule may have:
/// 64-bit arithmetic keeps spacing + 1 from wrapping around.
pub fn needed_margin(buffer: u32, spacing: u32) -> u32 {
    let quotient = u64::from(buffer).div_ceil(u64::from(spacing) + 1);
    u32::try_from(quotient).expect("a quotient is no larger than its dividend")
}
