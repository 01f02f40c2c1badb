//! What the calls of the queue with compare-and-swap go through. Told from the
//! entries of a schedule and their outcomes alone, so no side is asked.

use crate::schedule::{
    Draft, Entry, ABORT, BEGIN_PUT, BEGIN_STEAL, BEGIN_TAKE, EMPTY, END, MOVED, STORED, TASK,
    THIEF_STEP, THIEVES, WAIT, WORKER_STEP,
};
use crate::tally::{Seen, Shown};

/// Counts what is met in a run.
pub fn count(draft: &Draft, outcomes: &[u8], seen: &mut Seen) {
    let mut watch = Watch {
        worker: None,
        thieves: vec![None; draft.sizes[THIEVES] as usize],
        not_given: 0,
        swapped: false,
        last_swap: Party::Worker,
        seen,
    };
    for (&entry, &outcome) in draft.entries.iter().zip(outcomes) {
        watch.see(entry, outcome);
    }
}

/// The worker's call.
#[derive(Clone, Copy)]
enum Call {
    Put,
    Take(TakeStep),
}

/// The step that comes next. After the head is loaded, the outcome of that step
/// shows what it was.
#[derive(Clone, Copy)]
enum TakeStep {
    StoreTail,
    LoadHead,
    AfterHead,
    Swap,
    LoadSlot,
}

#[derive(Clone, Copy)]
struct Steal {
    step: StealStep,
    /// Swaps that have failed.
    failed: u32,
}

#[derive(Clone, Copy)]
enum StealStep {
    LoadHead,
    LoadTail,
    LoadSlot,
    Swap,
}

#[derive(Clone, Copy, PartialEq)]
enum Party {
    Worker,
    Thief,
}

struct Watch<'a> {
    worker: Option<Call>,
    thieves: Vec<Option<Steal>>,
    /// Tasks stored and not given, where none is given twice.
    not_given: i64,
    /// Whether a take has won a swap.
    swapped: bool,
    /// Who moved the head last.
    last_swap: Party,
    seen: &'a mut Seen,
}

impl Watch<'_> {
    fn see(&mut self, (kind, operand): Entry, outcome: u8) {
        match kind {
            BEGIN_PUT if outcome == MOVED => self.worker = Some(Call::Put),
            BEGIN_TAKE if outcome == MOVED => self.worker = Some(Call::Take(TakeStep::StoreTail)),
            BEGIN_STEAL if outcome == MOVED => {
                let step = StealStep::LoadHead;
                self.thieves[operand as usize] = Some(Steal { step, failed: 0 });
            }
            WORKER_STEP => self.worker_step(outcome),
            THIEF_STEP => self.thief_step(operand as usize, outcome),
            _ => {}
        }
        match outcome {
            STORED => self.not_given += 1,
            TASK => self.not_given -= 1,
            _ => {}
        }
    }

    fn worker_step(&mut self, outcome: u8) {
        match self.worker {
            Some(Call::Take(step)) => self.take_step(step, outcome),
            Some(Call::Put) if outcome == END && self.swapped => {
                self.seen.count(Shown::EndAfterSwap);
            }
            _ => {}
        }
        if is_answer(outcome) {
            self.worker = None;
        }
    }

    fn take_step(&mut self, step: TakeStep, outcome: u8) {
        let next = match (step, outcome) {
            (TakeStep::StoreTail, MOVED) => TakeStep::LoadHead,
            (TakeStep::LoadHead, MOVED) => TakeStep::AfterHead,
            (TakeStep::AfterHead, TASK) => return self.seen.count(Shown::TakeAboveHead),
            (TakeStep::AfterHead, EMPTY) => return self.seen.count(Shown::TakeBelowHead),
            (TakeStep::AfterHead, WAIT) => return self.seen.count(Shown::TakeWaitsToPutBack),
            (TakeStep::AfterHead, MOVED) => {
                self.seen.count(Shown::TakeAtHead);
                TakeStep::Swap
            }
            (TakeStep::Swap, WAIT) => return self.seen.count(Shown::SwapWaits),
            (TakeStep::Swap, EMPTY) => return self.seen.count(Shown::SwapLost),
            (TakeStep::Swap, MOVED) => {
                self.swapped = true;
                self.last_swap = Party::Worker;
                TakeStep::LoadSlot
            }
            (TakeStep::LoadSlot, TASK) => return self.seen.count(Shown::SwapWon),
            _ => return,
        };
        self.worker = Some(Call::Take(next));
    }

    fn thief_step(&mut self, thief: usize, outcome: u8) {
        let Some(steal) = self.thieves[thief] else {
            return;
        };
        let after = self.steal_step(steal, outcome);
        self.thieves[thief] = (!is_answer(outcome)).then_some(after);
    }

    fn steal_step(&mut self, mut steal: Steal, outcome: u8) -> Steal {
        let again = steal.failed > 0;
        steal.step = match (steal.step, outcome) {
            (StealStep::LoadHead, MOVED) => StealStep::LoadTail,
            (StealStep::LoadTail, MOVED) => StealStep::LoadSlot,
            (StealStep::LoadSlot, MOVED) => StealStep::Swap,
            (StealStep::Swap, MOVED) => {
                self.count_failed(again);
                steal.failed += 1;
                StealStep::LoadHead
            }
            (step, _) => step,
        };
        let empty = outcome == EMPTY;
        self.seen.count_seen([
            (Shown::StealEmpty, empty),
            (Shown::StealEmptyWithTask, empty && self.not_given > 0),
            (Shown::StealAbort, outcome == ABORT),
            (Shown::StealSwapWon, outcome == TASK),
            (Shown::AgainTask, again && outcome == TASK),
            (Shown::AgainAbort, again && outcome == ABORT),
            (Shown::AgainEmpty, again && empty),
        ]);
        if outcome == TASK {
            self.last_swap = Party::Thief;
        }
        steal
    }

    /// The head was moved since this thief loaded it, last by whoever swapped last.
    fn count_failed(&mut self, again: bool) {
        let by_worker = self.last_swap == Party::Worker;
        self.seen.count_seen([
            (Shown::StealSwapFailed, true),
            (Shown::FailedByWorker, by_worker),
            (Shown::FailedByThief, !by_worker),
            (Shown::FailedBefore, again),
        ]);
    }
}

fn is_answer(outcome: u8) -> bool {
    outcome >= STORED
}
