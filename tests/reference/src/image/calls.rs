//! The calls in progress as numbers: the step they make next, the index and
//! the task they have in hand.

use super::{task_number, Cells};
use crate::bench;
use crate::calls::locking::{Steal, Take};
use crate::calls::Put;

pub(super) type WorkerCall = bench::WorkerCall<Take, u32>;

pub(super) fn worker_call([step, t, task]: Cells) -> Option<WorkerCall> {
    let take = match step {
        0 => return None,
        1..=3 => return Some(WorkerCall::Put(put(step, task))),
        4 => Take::StoreTail,
        5 => Take::LoadHead { t },
        6 => Take::LoadSlot { t },
        7 => Take::Lock { t },
        8 => Take::LoadHeadAgain { t },
        9 => Take::RestoreTail { t },
        10 => Take::UnlockForEmpty,
        11 => Take::UnlockForTask { t },
        12 => Take::LoadSlotUnlocked { t },
        _ => panic!("the worker has no step {step}"),
    };
    Some(WorkerCall::Take(take))
}

fn put(step: i64, task: i64) -> Put<u32> {
    match step {
        1 => Put::LoadHead {
            task: task_number(task),
        },
        2 => Put::StoreSlot {
            task: task_number(task),
        },
        // The task is on its way, and the row no longer says which it is.
        _ => Put::StoreTail { task: 0 },
    }
}

pub(super) fn worker_cells(call: Option<WorkerCall>) -> Cells {
    match call {
        None => [0, 0, 0],
        Some(WorkerCall::Put(Put::LoadHead { task })) => [1, 0, i64::from(task)],
        Some(WorkerCall::Put(Put::StoreSlot { task })) => [2, 0, i64::from(task)],
        Some(WorkerCall::Put(Put::StoreTail { .. })) => [3, 0, 0],
        Some(WorkerCall::Take(take)) => take_cells(take),
    }
}

fn take_cells(take: Take) -> Cells {
    match take {
        Take::StoreTail => [4, 0, 0],
        Take::LoadHead { t } => [5, t, 0],
        Take::LoadSlot { t } => [6, t, 0],
        Take::Lock { t } => [7, t, 0],
        Take::LoadHeadAgain { t } => [8, t, 0],
        Take::RestoreTail { t } => [9, t, 0],
        Take::UnlockForEmpty => [10, 0, 0],
        Take::UnlockForTask { t } => [11, t, 0],
        Take::LoadSlotUnlocked { t } => [12, t, 0],
    }
}

pub(super) fn steal([step, h, task]: Cells) -> Option<Steal<u32>> {
    let steal = match step {
        0 => return None,
        1 => Steal::Lock,
        2 => Steal::LoadHead,
        3 => Steal::LiftHead { h },
        4 => Steal::LoadTail { h },
        5 => Steal::LoadSlot { h },
        6 => Steal::UnlockWithTask {
            task: task_number(task),
        },
        7 => Steal::LowerHead { h },
        8 => Steal::UnlockForAbort,
        _ => panic!("a thief has no step {step}"),
    };
    Some(steal)
}

pub(super) fn steal_cells(steal: Option<Steal<u32>>) -> Cells {
    match steal {
        None => [0, 0, 0],
        Some(Steal::Lock) => [1, 0, 0],
        Some(Steal::LoadHead) => [2, 0, 0],
        Some(Steal::LiftHead { h }) => [3, h, 0],
        Some(Steal::LoadTail { h }) => [4, h, 0],
        Some(Steal::LoadSlot { h }) => [5, h, 0],
        Some(Steal::UnlockWithTask { task }) => [6, 0, i64::from(task)],
        Some(Steal::LowerHead { h }) => [7, h, 0],
        Some(Steal::UnlockForAbort) => [8, 0, 0],
    }
}
