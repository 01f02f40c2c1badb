//! The share sheet of a design: which party was given which block, and by
//! which entry. Request 2 of the change requests.

use std::collections::BTreeSet;

use crate::bench::Bench;
use crate::calls::Locking;
use crate::entry::Entry;
use crate::format::decode;
use crate::outcome::Outcome;
use crate::refusal::Refusal;
use crate::sizes::Sizes;

/// The place of the block count, next after the sizes of a file.
const COUNT_PLACE: u32 = 7;
/// Bytes of one block: its party, and its entry in the other array.
const PER_BLOCK: usize = 5;

/// What the sheet says about one block.
#[derive(Debug, Clone, Copy, PartialEq, Eq)]
struct Share {
    /// 0 for the worker, 1 + its number for a thief.
    party: u8,
    /// The entry that answered TASK.
    entry: u32,
}

const NOT_GIVEN: Share = Share {
    party: 255,
    entry: 0,
};

/// Obeys the schedule, writes at the start of `sheet` what became of the
/// blocks 1 to `count`, and gives the sheet's length.
///
/// Nothing is written before everything has been checked, so a refusal leaves
/// `sheet` as it was; bytes behind the last block's are never touched.
pub fn share_sheet(file: &[u8], count: u32, sheet: &mut [u8]) -> Result<usize, Refusal> {
    let (sizes, entries) = decode(file)?;
    let count = check_count(count)?;
    if !sizes.has_enough_margin() {
        return Err(Refusal::MARGIN);
    }
    check_blocks(&entries, count)?;
    let blocks = usize::from(count);
    let length = 1 + PER_BLOCK * blocks;
    let sheet = sheet.get_mut(..length).ok_or(Refusal::ROOM)?;

    let shares = shares(&sizes, &entries, blocks);
    let (header, arrays) = sheet.split_at_mut(1);
    let (parties, places) = arrays.split_at_mut(blocks);
    let (places, _) = places.as_chunks_mut::<4>();
    header[0] = count;
    for ((share, party), place) in shares.into_iter().zip(parties).zip(places) {
        *party = share.party;
        *place = share.entry.to_le_bytes();
    }
    Ok(length)
}

/// The count as the one byte it has in the sheet.
fn check_count(count: u32) -> Result<u8, Refusal> {
    match u8::try_from(count) {
        Ok(count @ 1..) => Ok(count),
        _ => Err(Refusal::size(COUNT_PLACE)),
    }
}

/// Every begin put must name a block of its own. What it comes to in the run
/// is of no account, so a block is used up even where nothing is stored.
fn check_blocks(entries: &[Entry<u32>], count: u8) -> Result<(), Refusal> {
    let mut unused: BTreeSet<u32> = (1..=u32::from(count)).collect();
    for (place, &entry) in (0..).zip(entries) {
        if let Entry::BeginPut(block) = entry {
            if !unused.remove(&block) {
                return Err(Refusal::block(place));
            }
        }
    }
    Ok(())
}

/// The shares in block order. With enough margin a TASK gives what a put has
/// stored, and gives it once; anything else would be a fault of the bench.
fn shares(sizes: &Sizes, entries: &[Entry<u32>], blocks: usize) -> Vec<Share> {
    let mut shares = vec![NOT_GIVEN; blocks];
    let mut bench = Bench::<Locking, u32>::new(sizes);
    for (place, &entry) in (0..).zip(entries) {
        if let Outcome::Task(block) = bench.obey(entry) {
            let share = &mut shares[block as usize - 1];
            assert_eq!(*share, NOT_GIVEN, "block {block} is given twice");
            *share = Share {
                party: u8::try_from(entry.party()).expect("there are 8 thieves at most"),
                entry: place,
            };
        }
    }
    shares
}
