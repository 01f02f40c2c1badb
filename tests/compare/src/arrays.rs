//! Two arrays of any lengths, kinds and operands, the sizes that they are judged
//! by, and a place in both, in one or in none of them.

use reference::Sizes;

use crate::random::Random;
use crate::sides::from_file_order;

/// The kinds' lengths are below this one.
const KINDS: usize = 300;

pub struct Arrays {
    pub kinds: Vec<u8>,
    /// Four bytes for each operand, and perhaps some more.
    pub operands: Vec<u8>,
    /// Those that no entry is judged by are any numbers.
    pub sizes: Sizes,
    pub place: u32,
}

impl Arrays {
    /// Cases in a row have every kind at their place, as far as it is there.
    pub fn of_case(number: u64, random: &mut Random) -> Self {
        let (kinds, operands) = lengths(random);
        let some = random.below(10);
        let wide = random.number();
        let mut arrays = Arrays {
            kinds: (0..kinds).map(|_| random.below(9) as u8).collect(),
            operands: (0..operands).map(|_| random.below(256) as u8).collect(),
            sizes: sizes(random.pick(&[some, some, some, wide, u32::MAX]), random),
            place: place(kinds, operands, random),
        };
        let place = arrays.place as usize;
        if let Some(kind) = arrays.kinds.get_mut(place) {
            *kind = number as u8;
        }
        let thieves = arrays.sizes.thieves;
        let near = [thieves.wrapping_sub(1), thieves];
        let operand = random.pick(&[0, 0, 1, 7, 8, near[0], near[1], u32::MAX, wide]);
        if let Some(bytes) = arrays.operands.as_chunks_mut().0.get_mut(place) {
            *bytes = operand.to_le_bytes();
        }
        arrays
    }

    /// All entries are allowed but at most two, and the operands may be a few bytes off.
    pub fn nearly_allowed(random: &mut Random) -> Self {
        let thieves = random.between(1, 9);
        let count = random.place(KINDS);
        let mut entries: Vec<_> = (0..count).map(|_| allowed(thieves, random)).collect();
        for _ in 0..random.place(3) {
            let place = random.place(count + 1);
            if let Some(entry) = entries.get_mut(place) {
                let operand = random.pick(&[1, thieves, 256, u32::MAX]);
                *entry = (random.pick(&[0, 3, 4, 5, 6, 7, 255]), operand);
            }
        }
        let operands = entries.iter().flat_map(|entry| entry.1.to_le_bytes());
        let mut operands: Vec<u8> = operands.collect();
        let length = random.pick(&[0, 0, 0, 0, 0, 1, 4, 5]);
        match random.place(2) {
            0 => operands.resize(operands.len() + length, 0),
            _ => operands.truncate(operands.len().saturating_sub(length)),
        }
        Arrays {
            kinds: entries.iter().map(|entry| entry.0).collect(),
            operands,
            sizes: sizes(thieves, random),
            place: 0,
        }
    }
}

fn sizes(thieves: u32, random: &mut Random) -> Sizes {
    let others = from_file_order(&std::array::from_fn(|_| random.below(300)));
    Sizes { thieves, ..others }
}

/// An entry that is allowed, its kind and its operand.
fn allowed(thieves: u32, random: &mut Random) -> (u8, u32) {
    match random.below(7) as u8 {
        2 => (2, random.number()),
        kind @ (5 | 6) => (kind, random.below(thieves)),
        kind => (kind, 0),
    }
}

/// How many kinds, and how many bytes of operands: as many as belong to the
/// kinds, a few bytes off, or any number.
fn lengths(random: &mut Random) -> (usize, usize) {
    let few = random.place(5);
    let any = random.place(KINDS);
    let kinds = random.pick(&[few, any]);
    let off = (4 * kinds + random.place(10)).saturating_sub(5);
    let any = random.place(4 * KINDS);
    (kinds, random.pick(&[4 * kinds, off, any]))
}

/// Anywhere, around both ends, or where four times the place is around the
/// largest number of 32 bits.
fn place(kinds: usize, operands: usize, random: &mut Random) -> u32 {
    let around = |end: usize, random: &mut Random| (end + random.place(3)).saturating_sub(1) as u32;
    let inside = random.place(kinds.max(1)) as u32;
    let kinds_end = around(kinds, random);
    let operands_end = around(operands / 4, random);
    let wraps = (1 << 30) * random.between(1, 3) + random.below(3);
    random.pick(&[inside, inside, kinds_end, operands_end, wraps, u32::MAX])
}
