//! A plain two-ended queue beside the machine, and a verdict on the two.
//!
//! The plain queue has no late stores and no steps. It is told each call at
//! the step where the call takes effect, and what it answers is held against
//! what the machine answers later. Tasks are told apart by the put that
//! brought them: a stamp travels with the task number through store buffer and
//! slots, and the machine, for which slot contents are opaque, cannot act on it.

mod effects;

pub(crate) use effects::Watched;

use std::collections::VecDeque;

use crate::bench::{Bench, WorkerCall};
use crate::calls::{Locking, Put, Swapping, LAST_TAIL};
use crate::entry::Entry;
use crate::format::decode;
use crate::outcome::Outcome;
use crate::refusal::Refusal;
use crate::sizes::Sizes;

/// What watching a whole schedule comes to.
#[derive(Debug, Clone, Copy, PartialEq, Eq)]
pub struct Verdict {
    /// Tasks that were the value of more than one TASK.
    pub given_twice: usize,
    /// Tasks that nobody finds any more, counted at the last moment of the
    /// schedule where no call runs: their put answered STORED, no TASK gave
    /// them, and the worker finds them nowhere from head up to its tail - 1.
    ///
    /// Moments inside calls are left out on purpose. A running call may hold a
    /// task that it has not answered yet, which is neither given nor standing.
    /// Where a call still runs at the end, the last such moment lies earlier;
    /// the fresh machine is one, so there always is one.
    pub lost: usize,
    /// The first entry at which machine and plain queue part; nothing is
    /// compared after it, because the two no longer hold the same tasks.
    pub first_difference: Option<Difference>,
}

#[derive(Debug, Clone, Copy, PartialEq, Eq)]
pub struct Difference {
    pub entry: usize,
    pub why: &'static str,
}

const STORED_TOO_LATE: &str = "STORED with every slot already standing for a task";
const STOLEN_FROM_NOTHING: &str = "a steal without ABORT where no task stands";
const OTHER_ANSWER: &str = "the answer is not the plain queue's";
const OTHER_TASK: &str = "the loaded task is not the one that left the list";
const OTHER_VIEW: &str = "the worker would load other tasks than those that stand";

/// Runs the schedule with the plain queue beside it; any margin will do.
pub fn judge(file: &[u8]) -> Result<Verdict, Refusal> {
    judge_on::<Locking>(file)
}

/// Like [`judge`], with the compare-and-swap queue.
pub fn judge_cas(file: &[u8]) -> Result<Verdict, Refusal> {
    judge_on::<Swapping>(file)
}

pub(crate) fn judge_on<Q: Watched>(file: &[u8]) -> Result<Verdict, Refusal> {
    let (sizes, entries) = decode(file)?;
    let mut watch = Watch::<Q>::new(&sizes, entries.len());
    for (place, entry) in entries.into_iter().enumerate() {
        let put = Some(place);
        watch.obey(place, entry.map_task(|number| Stamped { number, put }));
    }
    Ok(Verdict {
        given_twice: watch.ledger.given_twice(),
        lost: watch.lost,
        first_difference: watch.first_difference,
    })
}

/// A task number with the entry at which its put began. A slot that no put
/// has reached has no stamp.
#[derive(Debug, Clone, Copy, PartialEq, Eq, Default)]
pub(crate) struct Stamped {
    number: u32,
    put: Option<usize>,
}

impl From<Stamped> for u32 {
    fn from(task: Stamped) -> u32 {
        task.number
    }
}

/// A call that takes effect, with what only its step could decide.
#[derive(Debug, Clone, Copy)]
pub(crate) enum Told {
    Put {
        task: Stamped,
        full: bool,
    },
    Take {
        /// Whether a swap has decided if the take has a task.
        by_swap: bool,
    },
    Steal {
        abort: bool,
    },
}

struct PlainQueue {
    /// Oldest first.
    standing: VecDeque<Stamped>,
    /// Where the worker's tail would be: start + stored - taken, takes by a
    /// swap left out.
    sum: i64,
    slots: usize,
    /// FULL comes only with so many tasks standing; with fewer it is the fault
    /// named next.
    full_from: usize,
    full_too_soon: &'static str,
}

impl PlainQueue {
    fn new<Q: Watched>(sizes: &Sizes) -> PlainQueue {
        let slots = sizes.slots as usize;
        PlainQueue {
            standing: VecDeque::new(),
            sum: i64::from(sizes.start),
            slots,
            full_from: Q::full_from(slots),
            full_too_soon: Q::FULL_TOO_SOON,
        }
    }

    /// Answers the call, or names the limit that the telling itself breaks.
    #[inline] // which a function that is called for two queues needs
    fn tell(&mut self, told: Told) -> Result<Outcome<Stamped>, &'static str> {
        match told {
            Told::Put { .. } if self.sum == LAST_TAIL => Ok(Outcome::End),
            Told::Put { full: true, .. } if self.standing.len() < self.full_from => {
                Err(self.full_too_soon)
            }
            Told::Put { full: true, .. } => Ok(Outcome::Full),
            Told::Put { .. } if self.standing.len() >= self.slots => Err(STORED_TOO_LATE),
            Told::Put { task, .. } => {
                self.standing.push_back(task);
                self.sum += 1;
                Ok(Outcome::Stored)
            }
            Told::Take { by_swap } => Ok(self.take(by_swap)),
            Told::Steal { abort: true } => Ok(Outcome::Abort),
            Told::Steal { abort: false } => {
                let oldest = self.standing.pop_front().ok_or(STOLEN_FROM_NOTHING)?;
                Ok(Outcome::Task(oldest))
            }
        }
    }

    /// A swap that is won lifts the head to the tail instead of lowering the
    /// tail, so the sum stays.
    fn take(&mut self, by_swap: bool) -> Outcome<Stamped> {
        match self.standing.pop_back() {
            None => Outcome::Empty,
            Some(newest) => {
                self.sum -= i64::from(!by_swap);
                Outcome::Task(newest)
            }
        }
    }
}

/// What one step of a party shows to somebody who watches its call.
struct Sight {
    told: Option<Told>,
    loaded: Option<Stamped>,
    outcome: Outcome<Stamped>,
}

/// The worker, as a row of [`Watch::owed`]; thieves follow it.
const WORKER: usize = 0;

struct Watch<Q: Watched> {
    bench: Bench<Q, Stamped>,
    plain: PlainQueue,
    /// By party, the plain queue's answer to a call that has taken effect.
    owed: Vec<Option<Outcome<Stamped>>>,
    ledger: Ledger,
    lost: usize,
    first_difference: Option<Difference>,
}

impl<Q: Watched> Watch<Q> {
    fn new(sizes: &Sizes, entries: usize) -> Self {
        Watch {
            bench: Bench::new(sizes),
            plain: PlainQueue::new::<Q>(sizes),
            owed: vec![None; 1 + sizes.thieves as usize],
            ledger: Ledger::new(entries),
            lost: 0,
            first_difference: None,
        }
    }

    fn obey(&mut self, place: usize, entry: Entry<Stamped>) {
        let (party, sight) = match entry {
            Entry::WorkerStep => (WORKER, self.see_worker_step()),
            Entry::ThiefStep(thief) => (1 + thief as usize, self.see_thief_step(thief)),
            _ => (WORKER, self.see_nothing(entry)),
        };
        if sight.outcome.is_refused() {
            return;
        }
        self.ledger.record(&sight);
        if self.first_difference.is_none() {
            let difference = self.compare(party, &sight).err();
            self.first_difference = difference.map(|why| Difference { entry: place, why });
        }
        if self.bench.no_call_runs() {
            self.lost = self.ledger.lost(self.bench.worker_view());
        }
    }

    fn see_worker_step(&mut self) -> Sight {
        let before = self.bench.worker_call();
        let outcome = self.bench.obey(Entry::WorkerStep);
        let told = match before {
            None => None,
            Some(WorkerCall::Put(put)) => told_by_put(put, outcome),
            Some(WorkerCall::Take(take)) => Q::told_by_take(take, self.running_take()),
        };
        let loaded = match outcome {
            Outcome::Task(task) => Some(task),
            _ => None,
        };
        Sight {
            told,
            loaded,
            outcome,
        }
    }

    fn running_take(&self) -> Option<Q::Take> {
        match self.bench.worker_call() {
            Some(WorkerCall::Take(take)) => Some(take),
            _ => None,
        }
    }

    fn see_thief_step(&mut self, thief: u32) -> Sight {
        let before = self.bench.thief_call(thief);
        let outcome = self.bench.obey(Entry::ThiefStep(thief));
        let after = self.bench.thief_call(thief);
        let (told, loaded) = match before {
            Some(before) => Q::shown_by_steal(before, after, outcome),
            None => (None, None),
        };
        Sight {
            told,
            loaded,
            outcome,
        }
    }

    /// Entries other than steps have no effect on what stands.
    fn see_nothing(&mut self, entry: Entry<Stamped>) -> Sight {
        Sight {
            told: None,
            loaded: None,
            outcome: self.bench.obey(entry),
        }
    }

    fn compare(&mut self, party: usize, sight: &Sight) -> Result<(), &'static str> {
        if let Some(told) = sight.told {
            self.owed[party] = Some(self.plain.tell(told)?);
        }
        let owed = self.owed[party];
        if sight.outcome.is_answer() {
            self.owed[party] = None;
            if !is_due(sight.outcome, party, owed) {
                return Err(OTHER_ANSWER);
            }
        }
        let is_owed = |task| owed == Some(Outcome::Task(task));
        if !sight.loaded.is_none_or(is_owed) {
            return Err(OTHER_TASK);
        }
        if self.bench.no_call_runs() && !self.views_agree() {
            return Err(OTHER_VIEW);
        }
        Ok(())
    }

    /// By stamp as well as by number, so a mix-up of equal numbers shows.
    fn views_agree(&self) -> bool {
        let standing = self.plain.standing.iter().copied();
        self.bench.worker_view().eq(standing)
    }
}

/// Whether a party may answer so, by what the plain queue owes it. A steal that
/// finds the queue empty is owed nothing: a put may lag, so that steal has no
/// effect, and the plain queue is not told of it.
fn is_due(answer: Outcome<Stamped>, party: usize, owed: Option<Outcome<Stamped>>) -> bool {
    match owed {
        Some(owed) => in_trace(answer) == in_trace(owed),
        None => party != WORKER && answer == Outcome::Empty,
    }
}

/// An answer as its reader sees it, without the stamp.
fn in_trace(answer: Outcome<Stamped>) -> (u8, u32) {
    (answer.number(), answer.value())
}

/// The put, if it took effect with this step, which is the same for all queues.
fn told_by_put(before: Put<Stamped>, outcome: Outcome<Stamped>) -> Option<Told> {
    match (before, outcome) {
        (Put::LoadHead { task }, Outcome::Full) => Some(Told::Put { task, full: true }),
        (Put::LoadHead { task }, Outcome::End) | (Put::StoreTail { task }, Outcome::Stored) => {
            Some(Told::Put { task, full: false })
        }
        _ => None,
    }
}

/// What became of the tasks, by the machine's answers alone.
struct Ledger {
    /// By the entry at which the task's put began.
    fates: Vec<Fate>,
    /// Tasks that are stored and have not been given.
    waiting: usize,
}

#[derive(Clone, Copy, Default)]
struct Fate {
    stored: bool,
    given: usize,
}

impl Fate {
    fn waits(self) -> bool {
        self.stored && self.given == 0
    }
}

impl Ledger {
    fn new(entries: usize) -> Ledger {
        Ledger {
            fates: vec![Fate::default(); entries],
            waiting: 0,
        }
    }

    #[inline] // as for `tell`
    fn record(&mut self, sight: &Sight) {
        match (sight.outcome, sight.told) {
            (Outcome::Stored, Some(Told::Put { task, .. })) => {
                self.change(task, |fate| fate.stored = true);
            }
            (Outcome::Task(task), _) => self.change(task, |fate| fate.given += 1),
            _ => {}
        }
    }

    /// With too small a margin a task may be given before its put has
    /// answered, so the number of waiting tasks follows the fate, not the event.
    fn change(&mut self, task: Stamped, event: impl FnOnce(&mut Fate)) {
        let Some(put) = task.put else { return };
        let fate = &mut self.fates[put];
        self.waiting -= usize::from(fate.waits());
        event(fate);
        self.waiting += usize::from(fate.waits());
    }

    fn given_twice(&self) -> usize {
        self.fates.iter().filter(|fate| fate.given > 1).count()
    }

    /// The view has each slot once at most, so no task is counted off twice.
    fn lost(&self, view: impl Iterator<Item = Stamped>) -> usize {
        let in_view = view
            .filter_map(|task| task.put)
            .filter(|&put| self.fates[put].waits())
            .count();
        self.waiting - in_view
    }
}

/// The machine never gives cause for most of the judge's reasons, so here
/// they are forged, to see that the judge is not blind.
#[cfg(test)]
mod tests {
    use super::*;

    const SIZES: Sizes = Sizes {
        slots: 2,
        buffer: 1,
        spacing: 0,
        margin: 0,
        thieves: 1,
        start: 0x7fff_fffd,
    };

    const TAKE: Told = Told::Take { by_swap: false };
    const TAKE_BY_SWAP: Told = Told::Take { by_swap: true };

    fn task(put: usize) -> Stamped {
        Stamped {
            number: 9,
            put: Some(put),
        }
    }

    fn put(put: usize, full: bool) -> Told {
        Told::Put {
            task: task(put),
            full,
        }
    }

    #[test]
    fn the_plain_queue_is_two_ended() {
        let mut plain = PlainQueue::new::<Locking>(&SIZES);
        assert_eq!(plain.tell(put(0, false)), Ok(Outcome::Stored));
        assert_eq!(plain.tell(put(1, false)), Ok(Outcome::Stored));
        assert_eq!(plain.tell(put(2, false)), Ok(Outcome::End));
        assert_eq!(plain.tell(put(3, true)), Ok(Outcome::End));
        assert_eq!(plain.tell(Told::Steal { abort: true }), Ok(Outcome::Abort));
        assert_eq!(
            plain.tell(Told::Steal { abort: false }),
            Ok(Outcome::Task(task(0)))
        );
        assert_eq!(plain.tell(TAKE), Ok(Outcome::Task(task(1))));
        assert_eq!(plain.tell(TAKE), Ok(Outcome::Empty));
        assert_eq!(
            plain.tell(put(4, false)),
            Ok(Outcome::Stored),
            "a take lowers the sum"
        );
        assert_eq!(
            plain.tell(put(5, false)),
            Ok(Outcome::End),
            "a steal does not"
        );
    }

    #[test]
    fn a_take_by_swap_leaves_the_sum() {
        let mut plain = PlainQueue::new::<Swapping>(&SIZES);
        assert_eq!(plain.tell(put(0, false)), Ok(Outcome::Stored));
        assert_eq!(plain.tell(put(1, false)), Ok(Outcome::Stored));
        assert_eq!(plain.tell(TAKE), Ok(Outcome::Task(task(1))));
        assert_eq!(plain.tell(TAKE_BY_SWAP), Ok(Outcome::Task(task(0))));
        assert_eq!(plain.tell(TAKE_BY_SWAP), Ok(Outcome::Empty));
        assert_eq!(
            plain.tell(put(2, false)),
            Ok(Outcome::Stored),
            "one take of two lowers the sum"
        );
        assert_eq!(plain.tell(put(3, false)), Ok(Outcome::End));
        assert_eq!(plain.tell(TAKE_BY_SWAP), Ok(Outcome::Task(task(2))));
        assert_eq!(plain.tell(put(4, false)), Ok(Outcome::End));
    }

    #[test]
    fn what_the_plain_queue_is_told_has_limits() {
        let mut plain = PlainQueue::new::<Locking>(&Sizes { start: 0, ..SIZES });
        assert_eq!(plain.tell(put(0, true)), Err(Locking::FULL_TOO_SOON));
        assert_eq!(
            plain.tell(Told::Steal { abort: false }),
            Err(STOLEN_FROM_NOTHING)
        );
        assert_eq!(plain.tell(put(0, false)), Ok(Outcome::Stored));
        assert_eq!(plain.tell(put(1, true)), Ok(Outcome::Full));
        assert_eq!(plain.tell(put(1, false)), Ok(Outcome::Stored));
        assert_eq!(plain.tell(put(2, false)), Err(STORED_TOO_LATE));
    }

    #[test]
    fn with_swaps_full_comes_one_task_later() {
        let mut plain = PlainQueue::new::<Swapping>(&Sizes { start: 0, ..SIZES });
        for which in 0..2 {
            assert_eq!(plain.tell(put(which, true)), Err(Swapping::FULL_TOO_SOON));
            assert_eq!(plain.tell(put(which, false)), Ok(Outcome::Stored));
        }
        assert_eq!(plain.tell(put(2, true)), Ok(Outcome::Full));
        assert_eq!(plain.tell(put(2, false)), Err(STORED_TOO_LATE));
    }

    /// A watch whose thief is in a steal that has been given task 0.
    fn steal_in_effect() -> Watch<Locking> {
        let mut watch = Watch::new(&SIZES, 8);
        watch.bench.obey(Entry::BeginSteal(0));
        watch.plain.standing.push_back(task(0));
        let told = Some(Told::Steal { abort: false });
        assert_eq!(watch.compare(1, &sight(told, None, Outcome::Moved)), Ok(()));
        watch
    }

    fn sight(told: Option<Told>, loaded: Option<Stamped>, outcome: Outcome<Stamped>) -> Sight {
        Sight {
            told,
            loaded,
            outcome,
        }
    }

    #[test]
    fn an_equal_number_from_another_put_is_another_task() {
        let mut watch = steal_in_effect();
        let own = sight(None, Some(task(0)), Outcome::Moved);
        assert_eq!(watch.compare(1, &own), Ok(()));
        let foreign = sight(None, Some(task(1)), Outcome::Moved);
        assert_eq!(watch.compare(1, &foreign), Err(OTHER_TASK));
    }

    #[test]
    fn another_answer_is_noticed() {
        let answers = [Outcome::Abort, Outcome::Task(Stamped::default())];
        for answer in answers {
            let sight = sight(None, None, answer);
            assert_eq!(steal_in_effect().compare(1, &sight), Err(OTHER_ANSWER));
        }
        let unasked = sight(None, None, Outcome::Empty);
        assert_eq!(
            steal_in_effect().compare(WORKER, &unasked),
            Err(OTHER_ANSWER)
        );
    }

    /// Only a thief may, and only where its steal has taken no effect.
    #[test]
    fn an_empty_steal_is_owed_nothing() {
        let mut watch = Watch::<Swapping>::new(&SIZES, 8);
        watch.bench.obey(Entry::BeginSteal(0));
        watch.plain.standing.push_back(task(0));
        let empty = sight(None, None, Outcome::Empty);
        assert_eq!(watch.compare(1, &empty), Ok(()));
        assert_eq!(watch.compare(WORKER, &empty), Err(OTHER_ANSWER));
        let abort = sight(None, None, Outcome::Abort);
        assert_eq!(watch.compare(1, &abort), Err(OTHER_ANSWER));
        assert_eq!(steal_in_effect().compare(1, &empty), Err(OTHER_ANSWER));
    }

    /// With swaps a steal takes effect, has loaded and answers all at once.
    #[test]
    fn a_steal_by_swap_is_held_against_the_oldest_task() {
        let after_stealing = |loaded| {
            let mut watch = Watch::<Swapping>::new(&SIZES, 8);
            watch.bench.obey(Entry::BeginTake);
            watch.plain.standing.extend([task(0), task(1)]);
            let told = Some(Told::Steal { abort: false });
            watch.compare(1, &sight(told, Some(loaded), Outcome::Task(loaded)))
        };
        assert_eq!(after_stealing(task(0)), Ok(()));
        assert_eq!(after_stealing(task(1)), Err(OTHER_TASK));
        let other_number = Stamped::default();
        assert_eq!(after_stealing(other_number), Err(OTHER_ANSWER));
    }

    #[test]
    fn a_task_that_only_one_side_has_is_noticed() {
        let mut watch = Watch::<Locking>::new(&SIZES, 8);
        watch.plain.standing.push_back(task(0));
        watch.obey(3, Entry::ClientStore);
        let why = OTHER_VIEW;
        assert_eq!(watch.first_difference, Some(Difference { entry: 3, why }));
    }
}
