//! The queue with a lock: the take of the THE queue without its fence, and the
//! steal that keeps a margin to the tail.

use super::{lower_tail, Progress, Queue, Step};
use crate::machine::Machine;
use crate::outcome::Outcome;

/// The queue FF-THE of the paper.
pub(crate) enum Locking {}

/// The slot is loaded by the last step of three, or, unlocked, by that of six.
#[derive(Debug, Clone, Copy, PartialEq, Eq, Default)]
pub(crate) enum Take {
    #[default]
    StoreTail,
    LoadHead {
        t: i64,
    },
    LoadSlot {
        t: i64,
    },
    Lock {
        t: i64,
    },
    LoadHeadAgain {
        t: i64,
    },
    RestoreTail {
        t: i64,
    },
    UnlockForEmpty,
    UnlockForTask {
        t: i64,
    },
    LoadSlotUnlocked {
        t: i64,
    },
}

#[derive(Debug, Clone, Copy, PartialEq, Eq, Default)]
pub(crate) enum Steal<T> {
    #[default]
    Lock,
    LoadHead,
    LiftHead {
        h: i64,
    },
    LoadTail {
        h: i64,
    },
    LoadSlot {
        h: i64,
    },
    LowerHead {
        h: i64,
    },
    UnlockWithTask {
        task: T,
    },
    UnlockForAbort,
}

impl Queue for Locking {
    type Take = Take;
    type Steal<T: Copy> = Steal<T>;

    /// One: a thief that has lifted the head may still be about to load the
    /// slot it lifted it from.
    const KEPT_FREE: i64 = 1;

    fn step_take<T: Copy + Default>(take: Take, machine: &mut Machine<T>) -> Step<Take, T> {
        let next = match take {
            Take::StoreTail => Take::LoadHead {
                t: lower_tail(machine)?,
            },
            Take::LoadHead { t } if t >= machine.head() => Take::LoadSlot { t },
            Take::LoadHead { t } => Take::Lock { t },
            Take::Lock { t } => {
                machine.worker_lock()?;
                Take::LoadHeadAgain { t }
            }
            // With the lock held no thief has the head lifted, so what is
            // loaded now is final.
            Take::LoadHeadAgain { t } if machine.head() > t => Take::RestoreTail { t },
            Take::LoadHeadAgain { t } => Take::UnlockForTask { t },
            Take::RestoreTail { t } => {
                // A machine that was handed over may have another tail than t.
                machine.worker_store_tail(machine.worker_tail(), t + 1)?;
                Take::UnlockForEmpty
            }
            Take::UnlockForEmpty => {
                machine.worker_unlock()?;
                return Ok(Progress::Answer(Outcome::Empty));
            }
            Take::UnlockForTask { t } => {
                machine.worker_unlock()?;
                Take::LoadSlotUnlocked { t }
            }
            Take::LoadSlot { t } | Take::LoadSlotUnlocked { t } => {
                return Ok(Progress::Answer(Outcome::Task(machine.worker_load(t))));
            }
        };
        Ok(Progress::Next(next))
    }

    fn step_steal<T: Copy + Default>(
        steal: Steal<T>,
        machine: &mut Machine<T>,
        margin: i64,
    ) -> Step<Steal<T>, T> {
        let next = match steal {
            Steal::Lock => {
                machine.lock()?;
                Steal::LoadHead
            }
            Steal::LoadHead => Steal::LiftHead { h: machine.head() },
            Steal::LiftHead { h } => {
                machine.set_head(h + 1);
                Steal::LoadTail { h }
            }
            // The worker's own tail may be up to `margin` below the one in
            // memory; index h is safe only beyond that.
            Steal::LoadTail { h } if machine.memory_tail() - margin > h => Steal::LoadSlot { h },
            Steal::LoadTail { h } => Steal::LowerHead { h },
            Steal::LoadSlot { h } => Steal::UnlockWithTask {
                task: machine.memory_load(h),
            },
            Steal::LowerHead { h } => {
                machine.set_head(h);
                Steal::UnlockForAbort
            }
            Steal::UnlockWithTask { task } => {
                machine.unlock();
                return Ok(Progress::Answer(Outcome::Task(task)));
            }
            Steal::UnlockForAbort => {
                machine.unlock();
                return Ok(Progress::Answer(Outcome::Abort));
            }
        };
        Ok(Progress::Next(next))
    }
}
