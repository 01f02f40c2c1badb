//! The bench: the parties around one machine, and who may do what when.
//!
//! Here stand the rules for beginning a call, the spacing rule, and the order
//! in which an entry's obstacles are looked at. They are the same for every
//! queue `Q`.

use std::convert::identity;

use crate::calls::{Progress, Put, Queue, Step};
use crate::entry::Entry;
use crate::machine::{Machine, Wait};
use crate::outcome::Outcome;
use crate::sizes::Sizes;

/// A call of the worker, `K` being what its queue has for a take.
#[derive(Debug, Clone, Copy, PartialEq, Eq)]
pub(crate) enum WorkerCall<K, T> {
    Put(Put<T>),
    Take(K),
}

/// What the spacing rule has to know about the latest take.
#[derive(Debug, Clone, Copy, PartialEq, Eq, Default)]
pub(crate) struct SinceTake {
    /// Whether there has been a take at all.
    pub(crate) begun: bool,
    /// The stores since it began that keep the next take apart from it.
    pub(crate) stores: u32,
}

impl SinceTake {
    /// Until the first take the count is 0, whatever it was handed over as.
    fn count_store(&mut self) {
        self.stores = if self.begun { self.stores + 1 } else { 0 };
    }

    fn is_early(&self, spacing: u32) -> bool {
        self.begun && self.stores < spacing
    }
}

pub(crate) struct Bench<Q: Queue, T: Copy> {
    machine: Machine<T>,
    worker: Option<WorkerCall<Q::Take, T>>,
    thieves: Vec<Option<Q::Steal<T>>>,
    margin: i64,
    spacing: u32,
    since_take: SinceTake,
}

impl<Q: Queue, T: Copy + Default> Bench<Q, T> {
    pub(crate) fn new(sizes: &Sizes) -> Self {
        let thieves = vec![None; sizes.thieves as usize];
        let since_take = SinceTake::default();
        Bench::resumed(sizes, Machine::new(sizes), None, thieves, since_take)
    }

    /// A bench that is taken up in the middle of things, with one place in
    /// `thieves` for each thief.
    pub(crate) fn resumed(
        sizes: &Sizes,
        machine: Machine<T>,
        worker: Option<WorkerCall<Q::Take, T>>,
        thieves: Vec<Option<Q::Steal<T>>>,
        since_take: SinceTake,
    ) -> Self {
        Bench {
            machine,
            worker,
            thieves,
            margin: i64::from(sizes.margin_in_use()),
            spacing: sizes.spacing,
            since_take,
        }
    }

    /// Obeys one entry; a thief it names must be one of the bench's.
    pub(crate) fn obey(&mut self, entry: Entry<T>) -> Outcome<T> {
        let keeps_takes_apart = self.keeps_takes_apart(entry);
        let outcome = match entry {
            Entry::Drain => moved_or_wait(self.machine.drain()),
            Entry::ClientStore => self.client_store(),
            Entry::BeginPut(task) => {
                begin(&mut self.worker, WorkerCall::Put(Put::LoadHead { task }))
            }
            Entry::BeginTake => self.begin_take(),
            Entry::WorkerStep => self.worker_step(),
            Entry::BeginSteal(thief) => {
                begin(&mut self.thieves[thief as usize], Q::Steal::default())
            }
            Entry::ThiefStep(thief) => self.thief_step(thief as usize),
        };
        if keeps_takes_apart && !outcome.is_refused() {
            self.since_take.count_store();
        }
        outcome
    }

    /// Whether the entry, once obeyed, has made a store that lies between two
    /// takes: the client's or a put's. What a take stores is its own affair.
    fn keeps_takes_apart(&self, entry: Entry<T>) -> bool {
        match entry {
            Entry::ClientStore => true,
            Entry::WorkerStep => matches!(
                self.worker,
                Some(WorkerCall::Put(
                    Put::StoreSlot { .. } | Put::StoreTail { .. }
                ))
            ),
            _ => false,
        }
    }

    fn client_store(&mut self) -> Outcome<T> {
        if self.worker.is_some() {
            return Outcome::Place;
        }
        moved_or_wait(self.machine.client_store())
    }

    fn begin_take(&mut self) -> Outcome<T> {
        if self.worker.is_some() {
            return Outcome::Place;
        }
        if self.since_take.is_early(self.spacing) {
            return Outcome::Early;
        }
        self.since_take = SinceTake {
            begun: true,
            stores: 0,
        };
        begin(&mut self.worker, WorkerCall::Take(Q::Take::default()))
    }

    fn worker_step(&mut self) -> Outcome<T> {
        match self.worker {
            None => Outcome::Place,
            Some(WorkerCall::Put(put)) => {
                let step = put.step::<Q>(&mut self.machine);
                advance(&mut self.worker, WorkerCall::Put, step)
            }
            Some(WorkerCall::Take(take)) => {
                let step = Q::step_take(take, &mut self.machine);
                advance(&mut self.worker, WorkerCall::Take, step)
            }
        }
    }

    fn thief_step(&mut self, thief: usize) -> Outcome<T> {
        let Some(steal) = self.thieves[thief] else {
            return Outcome::Place;
        };
        let step = Q::step_steal(steal, &mut self.machine, self.margin);
        advance(&mut self.thieves[thief], identity, step)
    }
}

/// What an onlooker may see; none of it moves anything.
impl<Q: Queue, T: Copy + Default> Bench<Q, T> {
    pub(crate) fn machine(&self) -> &Machine<T> {
        &self.machine
    }

    pub(crate) fn worker_call(&self) -> Option<WorkerCall<Q::Take, T>> {
        self.worker
    }

    pub(crate) fn thief_call(&self, thief: u32) -> Option<Q::Steal<T>> {
        self.thieves[thief as usize]
    }

    pub(crate) fn since_take(&self) -> SinceTake {
        self.since_take
    }

    pub(crate) fn no_call_runs(&self) -> bool {
        self.worker.is_none() && self.thieves.iter().all(Option::is_none)
    }

    /// What the worker would load from the head up to just below its tail.
    pub(crate) fn worker_view(&self) -> impl Iterator<Item = T> + '_ {
        let indices = self.machine.head()..self.machine.worker_tail();
        indices.map(|index| self.machine.worker_load(index))
    }
}

fn moved_or_wait<T>(done: Result<(), Wait>) -> Outcome<T> {
    match done {
        Ok(()) => Outcome::Moved,
        Err(Wait) => Outcome::Wait,
    }
}

fn begin<C, T>(running: &mut Option<C>, call: C) -> Outcome<T> {
    if running.is_some() {
        return Outcome::Place;
    }
    *running = Some(call);
    Outcome::Moved
}

/// Brings a party's call up to date with the step it has made, if it has.
fn advance<C, S, T>(
    running: &mut Option<C>,
    as_call: impl FnOnce(S) -> C,
    step: Step<S, T>,
) -> Outcome<T> {
    match step {
        Err(Wait) => Outcome::Wait,
        Ok(Progress::Next(next)) => {
            *running = Some(as_call(next));
            Outcome::Moved
        }
        Ok(Progress::Answer(answer)) => {
            *running = None;
            answer
        }
    }
}
