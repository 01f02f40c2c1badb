//! The queue with compare-and-swap: take and steal of the Chase-Lev queue
//! without the fence, the steal with a margin to the tail. Request 5 of the
//! change requests.
//!
//! There is no lock. Where worker and thieves are after one task, it goes to
//! whoever moves the head on from it. The head never comes back.

use std::cmp::Ordering;

use super::{lower_tail, Progress, Queue, Step};
use crate::machine::Machine;
use crate::outcome::Outcome;

/// The queue FF-CL of the paper.
pub(crate) enum Swapping {}

/// The slot is loaded by the last step of three, or, after a swap that is won,
/// by that of five.
#[derive(Debug, Clone, Copy, PartialEq, Eq, Default)]
pub(crate) enum Take {
    #[default]
    StoreTail,
    LoadHead {
        t: i64,
    },
    /// There is no task at t, the head being beyond it.
    RaiseTail {
        t: i64,
        h: i64,
    },
    /// The task at t is the last one, and a thief may be after it as well.
    RestoreTail {
        t: i64,
    },
    SwapHead {
        t: i64,
    },
    LoadSlot {
        t: i64,
    },
}

/// The slot is loaded before anybody knows whose task it is.
#[derive(Debug, Clone, Copy, PartialEq, Eq, Default)]
pub(crate) enum Steal<T> {
    #[default]
    LoadHead,
    LoadTail {
        h: i64,
    },
    LoadSlot {
        h: i64,
    },
    SwapHead {
        h: i64,
        task: T,
    },
}

impl Queue for Swapping {
    type Take = Take;
    type Steal<T: Copy> = Steal<T>;

    /// None: a slot is stored to again only when the head has moved on from
    /// it, and then the swap of a thief that has loaded it fails.
    const KEPT_FREE: i64 = 0;

    fn step_take<T: Copy + Default>(take: Take, machine: &mut Machine<T>) -> Step<Take, T> {
        let next = match take {
            Take::StoreTail => Take::LoadHead {
                t: lower_tail(machine)?,
            },
            Take::LoadHead { t } => after_head(t, machine.head()),
            // Nobody but the worker stores the tail, so it still is t here and
            // at the next step.
            Take::RaiseTail { t, h } => {
                machine.worker_store_tail(t, h)?;
                return Ok(Progress::Answer(Outcome::Empty));
            }
            Take::RestoreTail { t } => {
                machine.worker_store_tail(t, t + 1)?;
                Take::SwapHead { t }
            }
            Take::SwapHead { t } => {
                if !machine.worker_swap_head(t)? {
                    return Ok(Progress::Answer(Outcome::Empty));
                }
                Take::LoadSlot { t }
            }
            Take::LoadSlot { t } => {
                return Ok(Progress::Answer(Outcome::Task(machine.worker_load(t))));
            }
        };
        Ok(Progress::Next(next))
    }

    fn step_steal<T: Copy + Default>(
        steal: Steal<T>,
        machine: &mut Machine<T>,
        margin: i64,
    ) -> Step<Steal<T>, T> {
        let next = match steal {
            Steal::LoadHead => Steal::LoadTail { h: machine.head() },
            Steal::LoadTail { h } if h >= machine.memory_tail() => {
                return Ok(Progress::Answer(Outcome::Empty));
            }
            // The worker's own tail may be up to `margin` below the one in
            // memory. The task at an index below even that is one that the
            // worker has not taken, and could not take without a swap.
            Steal::LoadTail { h } if machine.memory_tail() - margin <= h => {
                return Ok(Progress::Answer(Outcome::Abort));
            }
            Steal::LoadTail { h } => Steal::LoadSlot { h },
            Steal::LoadSlot { h } => Steal::SwapHead {
                h,
                task: machine.memory_load(h),
            },
            Steal::SwapHead { h, task } => {
                if machine.swap_head(h) {
                    return Ok(Progress::Answer(Outcome::Task(task)));
                }
                Steal::LoadHead
            }
        };
        Ok(Progress::Next(next))
    }
}

/// Where a take goes on that has lowered the tail to t and found the head at h.
fn after_head(t: i64, h: i64) -> Take {
    match t.cmp(&h) {
        Ordering::Greater => Take::LoadSlot { t },
        Ordering::Less => Take::RaiseTail { t, h },
        Ordering::Equal => Take::RestoreTail { t },
    }
}
