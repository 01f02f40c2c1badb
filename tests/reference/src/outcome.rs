//! What an entry comes to: its number and value in the trace, and the tally;
//! and what a whole run comes to.

/// The outcome of one entry, with the task of a TASK as a `T`.
#[derive(Debug, Clone, Copy, PartialEq, Eq)]
pub(crate) enum Outcome<T> {
    Moved,
    Place,
    Early,
    Wait,
    Stored,
    Task(T),
    Empty,
    Abort,
    Full,
    End,
}

impl<T> Outcome<T> {
    pub(crate) fn number(&self) -> u8 {
        match self {
            Outcome::Moved => 0,
            Outcome::Place => 5,
            Outcome::Early => 6,
            Outcome::Wait => 7,
            Outcome::Stored => 16,
            Outcome::Task(_) => 17,
            Outcome::Empty => 18,
            Outcome::Abort => 19,
            Outcome::Full => 20,
            Outcome::End => 21,
        }
    }

    /// Whether the entry finished a call, rather than moving or refusing it.
    pub(crate) fn is_answer(&self) -> bool {
        self.number() >= 16
    }

    /// Whether the entry left the machine exactly as it was.
    pub(crate) fn is_refused(&self) -> bool {
        matches!(self, Outcome::Place | Outcome::Early | Outcome::Wait)
    }
}

impl<T: Copy + Into<u32>> Outcome<T> {
    pub(crate) fn value(&self) -> u32 {
        match *self {
            Outcome::Task(task) => task.into(),
            _ => 0,
        }
    }
}

/// How often a schedule gave a task, aborted a steal and had to wait.
#[derive(Debug, Clone, Copy, PartialEq, Eq, Default)]
pub struct Totals {
    pub given: u32,
    pub aborts: u32,
    pub waits: u32,
}

impl Totals {
    pub(crate) fn from_printed_order([given, aborts, waits]: [u32; 3]) -> Totals {
        Totals {
            given,
            aborts,
            waits,
        }
    }

    pub(crate) fn in_printed_order(&self) -> [u32; 3] {
        [self.given, self.aborts, self.waits]
    }

    pub(crate) fn count<T>(&mut self, outcome: &Outcome<T>) {
        let total = match outcome {
            Outcome::Task(_) => &mut self.given,
            Outcome::Abort => &mut self.aborts,
            Outcome::Wait => &mut self.waits,
            _ => return,
        };
        *total = total.saturating_add(1);
    }
}

/// What obeying a whole schedule comes to.
#[derive(Debug, Clone, Copy, PartialEq, Eq, Default)]
pub struct Summary {
    pub totals: Totals,
    /// The most stores of take step 1 that were pending after any entry.
    pub hidden: u32,
}

impl Summary {
    /// Takes in one entry: its outcome, and the number of such stores in the
    /// machine it handed back, which is the old one where it was refused.
    pub(crate) fn count<T>(&mut self, outcome: &Outcome<T>, hidden: u32) {
        self.totals.count(outcome);
        self.hidden = self.hidden.max(hidden);
    }
}
