//! A schedule beside the trace that it must give.

use crate::checks::{Case, Verdict};
use crate::queue::Queue;
use crate::schedule::{
    Draft, BEGIN_PUT, BEGIN_STEAL, BEGIN_TAKE, CLIENT_STORE, DRAIN, EMPTY, MOVED, STORED, TASK,
    THIEF_STEP, WAIT, WORKER_STEP,
};
use crate::sides::Answer;
use crate::tally::Tally;

#[derive(Clone)]
pub struct Script {
    pub draft: Draft,
    /// The one that gives the trace.
    pub queue: Queue,
    /// Outcome and value of each entry.
    expected: Vec<(u8, u32)>,
    /// The most takes that are hidden after an entry, if it is told.
    hidden: Option<u32>,
    /// How the whole file is refused, if it is.
    refusal: Option<Answer>,
}

impl Script {
    /// For the queue with a lock.
    pub fn new(sizes: [u32; 6]) -> Self {
        Script::on(Queue::Locking, sizes)
    }

    pub fn on(queue: Queue, sizes: [u32; 6]) -> Self {
        Script {
            draft: Draft::new(sizes),
            queue,
            expected: Vec::new(),
            hidden: None,
            refusal: None,
        }
    }

    /// One entry and what it must get.
    pub fn gets(mut self, kind: u8, operand: u32, outcome: u8, value: u32) -> Self {
        self.draft.entries.push((kind, operand));
        self.expected.push((outcome, value));
        self
    }

    /// One entry that moves.
    pub fn moves(self, kind: u8, operand: u32) -> Self {
        self.gets(kind, operand, MOVED, 0)
    }

    /// Entries that all move.
    fn all_move(mut self, times: u32, kind: u8, operand: u32) -> Self {
        for _ in 0..times {
            self = self.moves(kind, operand);
        }
        self
    }

    pub fn drains(self, times: u32) -> Self {
        self.all_move(times, DRAIN, 0)
    }

    pub fn client_stores(self, times: u32) -> Self {
        self.all_move(times, CLIENT_STORE, 0)
    }

    pub fn works(self, times: u32) -> Self {
        self.all_move(times, WORKER_STEP, 0)
    }

    pub fn robs(self, thief: u32, times: u32) -> Self {
        self.all_move(times, THIEF_STEP, thief)
    }

    /// The worker's next step, which answers.
    pub fn answers(self, outcome: u8, value: u32) -> Self {
        self.gets(WORKER_STEP, 0, outcome, value)
    }

    /// A put that is stored, nothing drained in between.
    pub fn put(self, task: u32) -> Self {
        self.moves(BEGIN_PUT, task).works(2).answers(STORED, 0)
    }

    /// A put that is stored with both stores drained, for a list of one place.
    pub fn put_drained(self, task: u32) -> Self {
        let stored = self.moves(BEGIN_PUT, task).works(2).drains(1);
        stored.answers(STORED, 0).drains(1)
    }

    /// A put that ends with its first step.
    pub fn put_ends(self, task: u32, outcome: u8) -> Self {
        self.moves(BEGIN_PUT, task).answers(outcome, 0)
    }

    /// A take by the short way, nothing drained in between.
    pub fn take(self, task: u32) -> Self {
        self.moves(BEGIN_TAKE, 0).works(2).answers(TASK, task)
    }

    /// A take by the long way of a queue with a lock that is empty, with nothing
    /// pending before it and a drain just where it would wait.
    pub fn take_empty(self) -> Self {
        let begun = self.moves(BEGIN_TAKE, 0).works(2).answers(WAIT, 0);
        let locked = begun.drains(1).works(3);
        locked.answers(WAIT, 0).drains(1).answers(EMPTY, 0)
    }

    /// A whole steal.
    pub fn steal(self, thief: u32, outcome: u8, value: u32) -> Self {
        let moved = match (self.queue, outcome) {
            (Queue::Locking, _) => 5,
            (Queue::Swapping, TASK) => 3,
            (Queue::Swapping, _) => 1,
        };
        let begun = self.moves(BEGIN_STEAL, thief).robs(thief, moved);
        begun.gets(THIEF_STEP, thief, outcome, value)
    }

    /// So many takes must be hidden after some entry, and never more.
    pub fn hiding(mut self, takes: u32) -> Self {
        self.hidden = Some(takes);
        self
    }

    /// A last entry for which the whole file is refused.
    pub fn refused(mut self, kind: u8, operand: u32, number: u32) -> Self {
        let place = self.draft.entries.len() as u32;
        self.draft.entries.push((kind, operand));
        self.refusal = Some(Answer::refused(number, place));
        self
    }

    /// Takes the schedule through both sides and holds it to its trace.
    pub fn follow(&self, tally: &mut Tally) -> Verdict {
        let file = self.draft.bytes();
        let case = Case::new(&file, file.len() as u64);
        let given = case.examine(tally)?;
        case.hold("refusal", self.refusal, given.as_ref().err().copied())?;
        let Ok(runs) = given else { return Ok(()) };
        let ran = &runs[self.queue];
        if let Some(hidden) = self.hidden {
            case.hold("takes hidden", hidden, ran.hidden())?;
        }
        let given = ran.outcomes.iter().copied().zip(ran.values.iter().copied());
        for (entry, (expected, given)) in self.expected.iter().zip(given).enumerate() {
            case.hold(&format!("outcome of entry {entry}"), *expected, given)?;
        }
        Ok(())
    }
}
