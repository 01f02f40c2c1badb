//! Whether a machine is in range. Nothing is asked of one that is not.

use std::ops::RangeInclusive;

use super::calls::{steal, worker_call, WorkerCall};
use super::{
    Cells, Image, CLIENT, HEAD, MOST_THIEVES, PENDING, SLOT_STORE, SPACING_COUNT, STORES, TAIL,
    TAIL_STORE, THIEVES, WORKER,
};
use crate::calls::locking::{Steal, Take};
use crate::entry::Entry;
use crate::sizes::Sizes;

/// A take on an empty queue lowers the tail to one below the first index, and
/// a steal may lift the head to one beyond the last tail.
const INDEX: RangeInclusive<i64> = -1..=0x8000_0000;
/// An index that a slot is looked for by.
const SLOT_INDEX: RangeInclusive<i64> = 0..=0x8000_0000;
const SPACING_COUNTS: RangeInclusive<i64> = 0..=4096;

/// Whether the entry's party is one of those that the sizes say there are.
pub(super) fn is_there(entry: Entry<u32>, sizes: &Sizes) -> bool {
    match entry {
        Entry::BeginSteal(thief) | Entry::ThiefStep(thief) => thief < sizes.thieves,
        _ => true,
    }
}

impl Image {
    /// The sizes of a machine that is in range all over. The number of pending
    /// stores comes before the stores, since it says which of them count.
    pub(super) fn sizes_in_range(&self) -> Option<Sizes> {
        let sizes = self.sizes()?;
        sizes.check(0).ok()?;
        let in_range = (0..=i64::from(sizes.buffer)).contains(&self.0[PENDING])
            && SPACING_COUNTS.contains(&self.0[SPACING_COUNT])
            && INDEX.contains(&self.0[HEAD])
            && INDEX.contains(&self.0[TAIL])
            && self.stores_are_in_range()
            && self.calls_are_in_range();
        in_range.then_some(sizes)
    }

    /// The first six numbers, if they have the width of sizes.
    fn sizes(&self) -> Option<Sizes> {
        let mut words = [0; 6];
        for (word, &number) in words.iter_mut().zip(&self.0) {
            *word = u32::try_from(number).ok()?;
        }
        Some(Sizes::from_file_order(words))
    }

    fn stores_are_in_range(&self) -> bool {
        let pending = 0..self.0[PENDING] as usize;
        pending
            .map(|which| self.cells(STORES, which))
            .all(store_is_in_range)
    }

    /// The calls of thieves that are not there are looked at as well.
    fn calls_are_in_range(&self) -> bool {
        let worker = worker_call(self.cells(WORKER, 0));
        let mut thieves = (0..MOST_THIEVES).filter_map(|which| steal(self.cells(THIEVES, which)));
        worker.is_none_or(worker_is_in_range) && thieves.all(steal_is_in_range)
    }
}

fn store_is_in_range([kind, index, _]: Cells) -> bool {
    match kind {
        CLIENT => true,
        TAIL_STORE => INDEX.contains(&index),
        SLOT_STORE => SLOT_INDEX.contains(&index),
        _ => panic!("there is no store of kind {kind}"),
    }
}

/// A put asks for the tail at each step and has no index in hand.
fn worker_is_in_range(call: WorkerCall) -> bool {
    match call {
        WorkerCall::Put(_) => true,
        WorkerCall::Take(take) => take_is_in_range(take),
    }
}

fn take_is_in_range(take: Take) -> bool {
    match take {
        Take::StoreTail | Take::UnlockForEmpty => true,
        Take::LoadHead { t }
        | Take::Lock { t }
        | Take::LoadHeadAgain { t }
        | Take::RestoreTail { t } => INDEX.contains(&t),
        // From here on the index only leads to a slot.
        Take::LoadSlot { t } | Take::UnlockForTask { t } | Take::LoadSlotUnlocked { t } => {
            SLOT_INDEX.contains(&t)
        }
    }
}

fn steal_is_in_range(steal: Steal<u32>) -> bool {
    match steal {
        Steal::Lock | Steal::LoadHead | Steal::UnlockWithTask { .. } | Steal::UnlockForAbort => {
            true
        }
        Steal::LiftHead { h } | Steal::LoadTail { h } | Steal::LowerHead { h } => {
            INDEX.contains(&h)
        }
        Steal::LoadSlot { h } => SLOT_INDEX.contains(&h),
    }
}
