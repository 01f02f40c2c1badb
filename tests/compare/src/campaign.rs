//! The random cases: each depends on the seed and its own number alone.

use crate::checks::{Case, Verdict};
use crate::damage::damaged;
use crate::queue::Queue;
use crate::random::Random;
use crate::schedule::MOST_ENTRIES;
use crate::tally::{Count, Tally};
use crate::{designs, generate, likeness, plain, writer};

/// One random case. Every other one has the next length, until all lengths have
/// come up once; the rest are short to medium, so that a run of few cases has
/// some of everything too.
pub fn case(seed: u64, number: u64, tally: &mut Tally) -> Verdict {
    let mut random = Random::of_case(seed, number);
    if number.is_multiple_of(2) && number / 2 <= MOST_ENTRIES as u64 {
        return sound((number / 2) as usize, &mut random, tally);
    }
    let length = length(&mut random);
    match random.below(100) {
        0..=61 => sound(length, &mut random, tally),
        62..=67 => designs::examine(length, &mut random, tally),
        68..=91 => damage(length, &mut random, tally),
        _ => writer::random_call(length, &mut random, tally),
    }
}

/// A file from elsewhere, accepted or not, through what needs no chance.
pub fn file(file: &[u8], tally: &mut Tally) -> Verdict {
    let pattern = file.iter().copied().map(u64::from).sum();
    match Case::new(file, pattern).examine(tally)? {
        Ok(runs) => plain::examine(file, &runs, tally),
        Err(_) => Ok(()),
    }
}

/// Lengths with a mean of about 125, a few of them the largest.
fn length(random: &mut Random) -> usize {
    let (low, high) = match random.below(1000) {
        0..=499 => (0, 40),
        500..=849 => (40, 200),
        850..=978 => (200, 600),
        979..=998 => (600, 1500),
        _ => (4090, MOST_ENTRIES as u32),
    };
    random.between(low, high) as usize
}

/// A sound schedule through all comparisons.
fn sound(length: usize, random: &mut Random, tally: &mut Tally) -> Verdict {
    tally.count(Count::SoundFiles);
    let file = generate::schedule(length, random).bytes();
    let runs = Case::new(&file, random.word()).accepted(tally)?;
    plain::examine(&file, &runs, tally)?;
    // Every pair costs four runs, all of the queue with a lock, so only a share of
    // the files has one.
    if random.chance(if length > 1500 { 100 } else { 300 }) {
        likeness::examine(&file, &runs[Queue::Locking], random, tally)?;
    }
    Ok(())
}

/// A damaged file, which may still be accepted.
fn damage(length: usize, random: &mut Random, tally: &mut Tally) -> Verdict {
    tally.count(Count::DamagedFiles);
    let whole = generate::schedule(length, random).bytes();
    file(&damaged(&whole, random), tally)?;
    if random.chance(200) {
        likeness::with_damage(&whole, random, tally)?;
    }
    Ok(())
}
