//! Where the takes and steals of each queue take effect.
//!
//! They are watched from outside: the call before and after a step, and its
//! outcome, show what the step has come to.

use super::{Stamped, Told};
use crate::calls::{locking, swapping, Locking, Queue, Swapping};
use crate::outcome::Outcome;

/// A queue that has a plain queue beside it. There is no call after a step
/// that has answered.
pub(crate) trait Watched: Queue {
    /// What is wrong with a FULL that comes with fewer tasks standing than it
    /// may, which is [`Watched::full_from`].
    const FULL_TOO_SOON: &'static str;

    /// With how many tasks standing a put may be FULL. This is said here once
    /// more, and not asked of the queue that is judged by it.
    fn full_from(slots: usize) -> usize;

    /// The take, if it took effect with this step.
    fn told_by_take(before: Self::Take, after: Option<Self::Take>) -> Option<Told>;

    /// The steal, if it took effect with this step; and what the thief has
    /// loaded, if this is the first step where that must be the task the steal
    /// is given.
    fn shown_by_steal(
        before: Self::Steal<Stamped>,
        after: Option<Self::Steal<Stamped>>,
        outcome: Outcome<Stamped>,
    ) -> (Option<Told>, Option<Stamped>);
}

const TAKE: Option<Told> = Some(Told::Take { by_swap: false });
const TAKE_BY_SWAP: Option<Told> = Some(Told::Take { by_swap: true });
const STEAL: Option<Told> = Some(Told::Steal { abort: false });
const ABORT: Option<Told> = Some(Told::Steal { abort: true });

/// A take takes effect where it first knows whether it has a task: after a low
/// head at once, after a high one only under the lock.
impl Watched for Locking {
    const FULL_TOO_SOON: &'static str = "FULL with fewer than slots - 1 tasks standing";

    fn full_from(slots: usize) -> usize {
        slots - 1
    }

    fn told_by_take(before: locking::Take, after: Option<locking::Take>) -> Option<Told> {
        use locking::Take::{LoadHead, LoadHeadAgain, LoadSlot, RestoreTail, UnlockForTask};
        match (before, after) {
            (LoadHead { .. }, Some(LoadSlot { .. })) => TAKE,
            (LoadHeadAgain { .. }, Some(RestoreTail { .. } | UnlockForTask { .. })) => TAKE,
            _ => None,
        }
    }

    fn shown_by_steal(
        before: locking::Steal<Stamped>,
        after: Option<locking::Steal<Stamped>>,
        _: Outcome<Stamped>,
    ) -> (Option<Told>, Option<Stamped>) {
        use locking::Steal::{LoadSlot, LoadTail, LowerHead, UnlockWithTask};
        match (before, after) {
            (LoadTail { .. }, Some(LoadSlot { .. })) => (STEAL, None),
            (LoadTail { .. }, Some(LowerHead { .. })) => (ABORT, None),
            (LoadSlot { .. }, Some(UnlockWithTask { task })) => (None, Some(task)),
            _ => (None, None),
        }
    }
}

/// A take knows by the head at once, unless a swap has to decide. A thief has
/// loaded the slot before the swap that makes the task its own.
impl Watched for Swapping {
    const FULL_TOO_SOON: &'static str = "FULL with fewer than slots tasks standing";

    fn full_from(slots: usize) -> usize {
        slots
    }

    fn told_by_take(before: swapping::Take, after: Option<swapping::Take>) -> Option<Told> {
        use swapping::Take::{LoadHead, LoadSlot, RaiseTail, SwapHead};
        match (before, after) {
            (LoadHead { .. }, Some(LoadSlot { .. } | RaiseTail { .. })) => TAKE,
            // Won, or lost and answered; after a wait the swap is yet to come.
            (SwapHead { .. }, Some(LoadSlot { .. }) | None) => TAKE_BY_SWAP,
            _ => None,
        }
    }

    fn shown_by_steal(
        before: swapping::Steal<Stamped>,
        _: Option<swapping::Steal<Stamped>>,
        outcome: Outcome<Stamped>,
    ) -> (Option<Told>, Option<Stamped>) {
        use swapping::Steal::{LoadTail, SwapHead};
        match (before, outcome) {
            (LoadTail { .. }, Outcome::Abort) => (ABORT, None),
            (SwapHead { task, .. }, Outcome::Task(_)) => (STEAL, Some(task)),
            _ => (None, None),
        }
    }
}
