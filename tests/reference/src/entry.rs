//! One entry of a schedule: what its kind byte and its operand mean.

use crate::refusal::Refusal;

/// An order to one party, with the task of a put as a `T`.
#[derive(Debug, Clone, Copy, PartialEq, Eq)]
pub(crate) enum Entry<T> {
    Drain,
    ClientStore,
    BeginPut(T),
    BeginTake,
    WorkerStep,
    BeginSteal(u32),
    ThiefStep(u32),
}

impl Entry<u32> {
    /// What a kind byte orders, whoever the operand names; nothing above 6.
    pub(crate) fn of_kind(kind: u8, operand: u32) -> Option<Self> {
        match kind {
            0 => Some(Entry::Drain),
            1 => Some(Entry::ClientStore),
            2 => Some(Entry::BeginPut(operand)),
            3 => Some(Entry::BeginTake),
            4 => Some(Entry::WorkerStep),
            5 => Some(Entry::BeginSteal(operand)),
            6 => Some(Entry::ThiefStep(operand)),
            7..=255 => None,
        }
    }

    /// Judges the entry that stands at `place`. A kind that orders nothing is
    /// refused before anybody asks whose operand it would be.
    pub(crate) fn check(place: u32, kind: u8, operand: u32, thieves: u32) -> Result<(), Refusal> {
        let entry = Entry::of_kind(kind, operand).ok_or(Refusal::kind(place))?;
        let allowed = match entry {
            Entry::BeginPut(_) => true,
            Entry::BeginSteal(thief) | Entry::ThiefStep(thief) => thief < thieves,
            Entry::Drain | Entry::ClientStore | Entry::BeginTake | Entry::WorkerStep => {
                operand == 0
            }
        };
        if allowed {
            Ok(())
        } else {
            Err(Refusal::who(place))
        }
    }
}

impl<T> Entry<T> {
    /// Whose answer an answer to this entry is: 0 for the worker, 1 + its
    /// number for a thief. Only steps answer, so only a thief's step can
    /// answer to a thief.
    pub(crate) fn party(&self) -> usize {
        match *self {
            Entry::ThiefStep(thief) => 1 + thief as usize,
            _ => 0,
        }
    }

    /// The same order with the put's task written in another way.
    pub(crate) fn map_task<U>(self, f: impl FnOnce(T) -> U) -> Entry<U> {
        match self {
            Entry::Drain => Entry::Drain,
            Entry::ClientStore => Entry::ClientStore,
            Entry::BeginPut(task) => Entry::BeginPut(f(task)),
            Entry::BeginTake => Entry::BeginTake,
            Entry::WorkerStep => Entry::WorkerStep,
            Entry::BeginSteal(thief) => Entry::BeginSteal(thief),
            Entry::ThiefStep(thief) => Entry::ThiefStep(thief),
        }
    }
}
