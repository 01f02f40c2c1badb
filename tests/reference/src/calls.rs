//! The calls of the bench's queues, one step at a time.
//!
//! A call in progress is named after the step it will make next and carries
//! what its earlier steps have loaded. Both queues have the same put; how a
//! take and a steal go is for each of them to say.

pub(crate) mod locking;
pub(crate) mod swapping;

pub(crate) use locking::Locking;
pub(crate) use swapping::Swapping;

use crate::machine::{Machine, Wait};
use crate::outcome::Outcome;

/// A tail here has no index left for another put.
pub(crate) const LAST_TAIL: i64 = 0x7fff_ffff;

/// What a step that could be made leads to.
pub(crate) enum Progress<C, T> {
    Next(C),
    Answer(Outcome<T>),
}

pub(crate) type Step<C, T> = Result<Progress<C, T>, Wait>;

/// A queue of the bench, by all that tells it from another one. The default
/// of a take or a steal is one that has just begun.
pub(crate) trait Queue {
    type Take: Copy + Default;
    type Steal<T: Copy>: Copy + Default;

    /// How many slots are left without a task when a put is FULL.
    const KEPT_FREE: i64;

    fn step_take<T: Copy + Default>(
        take: Self::Take,
        machine: &mut Machine<T>,
    ) -> Step<Self::Take, T>;

    fn step_steal<T: Copy + Default>(
        steal: Self::Steal<T>,
        machine: &mut Machine<T>,
        margin: i64,
    ) -> Step<Self::Steal<T>, T>;
}

/// The first step of every take: lowers the worker's tail by one, and gives
/// the index that it is then.
fn lower_tail<T: Copy + Default>(machine: &mut Machine<T>) -> Result<i64, Wait> {
    let tail = machine.worker_tail();
    let t = tail - 1;
    machine.worker_store_tail(tail, t)?;
    Ok(t)
}

#[derive(Debug, Clone, Copy, PartialEq, Eq)]
pub(crate) enum Put<T> {
    LoadHead { task: T },
    StoreSlot { task: T },
    StoreTail { task: T },
}

impl<T: Copy + Default> Put<T> {
    pub(crate) fn step<Q: Queue>(self, machine: &mut Machine<T>) -> Step<Put<T>, T> {
        // Nobody but the worker stores the tail, so all three steps find the
        // same one.
        let tail = machine.worker_tail();
        let progress = match self {
            Put::LoadHead { .. } if tail == LAST_TAIL => Progress::Answer(Outcome::End),
            Put::LoadHead { .. }
                if tail - machine.head() >= machine.slot_count() - Q::KEPT_FREE =>
            {
                Progress::Answer(Outcome::Full)
            }
            Put::LoadHead { task } => Progress::Next(Put::StoreSlot { task }),
            Put::StoreSlot { task } => {
                machine.worker_store(tail, task)?;
                Progress::Next(Put::StoreTail { task })
            }
            Put::StoreTail { .. } => {
                machine.worker_store_tail(tail, tail + 1)?;
                Progress::Answer(Outcome::Stored)
            }
        };
        Ok(progress)
    }
}
