//! What has been seen, counted by each thread and added up at the end.

use crate::checks::Ran;
use crate::queue::{ByQueue, Queue, QUEUES};
use crate::schedule::{Draft, ABORT, EARLY, EMPTY, END, FULL, MOVED, PLACE, STORED, TASK, WAIT};
use crate::swaps;

/// Every outcome an entry can have.
pub const OUTCOMES: [(u8, &str); 10] = [
    (MOVED, "moved"),
    (PLACE, "PLACE"),
    (EARLY, "EARLY"),
    (WAIT, "WAIT"),
    (STORED, "STORED"),
    (TASK, "TASK"),
    (EMPTY, "EMPTY"),
    (ABORT, "ABORT"),
    (FULL, "FULL"),
    (END, "END"),
];

/// Every refusal of a file or of lent memory.
pub const REFUSALS: [(u32, &str); 5] = [
    (1, "SIZE"),
    (2, "SHORT"),
    (3, "KIND"),
    (4, "WHO"),
    (8, "ROOM"),
];

/// Things counted beside refusals, whichever queue runs.
#[derive(Clone, Copy)]
pub enum Count {
    SoundFiles,
    DamagedFiles,
    WriterCalls,
    Designs,
    Alike,
    NotAlike,
    AlikeRefused,
    SheetsWritten,
    SheetsOfAll,
    SheetsOfThieves,
    GivenToWorker,
    GivenToThief,
    PutNotGiven,
    NeverPut,
    SheetFile,
    SheetCount,
    SheetMargin,
    SheetBlock,
    RepeatedOutOfPlace,
    RepeatedWhenFull,
    SheetRoom,
    InRange,
    OutOfRange,
    OutWithTailPending,
    OneHandedOn,
    MoreHandedOn,
    AnotherHandedOn,
    OneDrained,
    LedOutHiding,
}

/// Things counted beside outcomes in the runs of one queue.
#[derive(Clone, Copy)]
pub enum Shown {
    JudgedEnough,
    EnoughSeveralThieves,
    EnoughStolen,
    EnoughFull,
    EnoughApartByPuts,
    EnoughNearLastIndex,
    JudgedShort,
    ShortHarmed,
    ShortGivenTwice,
    NoneHidden,
    OneHidden,
    MoreHidden,
    AllNeededHidden,
    PastMarginHidden,
    TakeAboveHead,
    TakeBelowHead,
    TakeWaitsToPutBack,
    TakeAtHead,
    SwapWaits,
    SwapWon,
    SwapLost,
    EndAfterSwap,
    StealEmpty,
    StealEmptyWithTask,
    StealAbort,
    StealSwapWon,
    StealSwapFailed,
    FailedByWorker,
    FailedByThief,
    FailedBefore,
    AgainTask,
    AgainAbort,
    AgainEmpty,
}

/// What a machine that is handed over can be.
pub const MACHINES: [(&str, Count); 3] = [
    ("machines in range", Count::InRange),
    ("machines out of range", Count::OutOfRange),
    ("  with a tail store pending", Count::OutWithTailPending),
];

/// What a step can make of the takes that are hidden.
pub const HANDED_ON: [(&str, Count); 5] = [
    (
        "steps to a machine with one take hidden",
        Count::OneHandedOn,
    ),
    ("steps to one with more", Count::MoreHandedOn),
    ("steps that hid a take", Count::AnotherHandedOn),
    ("steps that drained a hidden one", Count::OneDrained),
    ("steps out of range, takes hidden", Count::LedOutHiding),
];

/// The most takes that were hidden in a run.
pub const HIDDEN: [(&str, Shown); 5] = [
    ("no take hidden", Shown::NoneHidden),
    ("one take hidden", Shown::OneHidden),
    ("more takes hidden", Shown::MoreHidden),
    ("  as many as the needed margin", Shown::AllNeededHidden),
    (
        "  more than the margin that is set",
        Shown::PastMarginHidden,
    ),
];

/// What the plain queue beside a run says.
pub const JUDGED: [(&str, Shown); 9] = [
    ("margin enough, none differs", Shown::JudgedEnough),
    ("  more than one thief", Shown::EnoughSeveralThieves),
    ("  a thief got a task", Shown::EnoughStolen),
    ("  a put found the queue full", Shown::EnoughFull),
    ("  puts alone kept takes apart", Shown::EnoughApartByPuts),
    ("  start near the last index", Shown::EnoughNearLastIndex),
    ("margin short", Shown::JudgedShort),
    ("  the plain queue differs", Shown::ShortHarmed),
    ("  a block is given twice", Shown::ShortGivenTwice),
];

/// What the calls of the queue with compare-and-swap go through.
pub const SWAPS: [(&str, Shown); 19] = [
    ("takes above the head, TASK", Shown::TakeAboveHead),
    ("takes below the head, EMPTY", Shown::TakeBelowHead),
    ("takes at the head, which swap", Shown::TakeAtHead),
    ("  swaps that are won, TASK", Shown::SwapWon),
    ("    later puts that END", Shown::EndAfterSwap),
    ("  swaps that are lost, EMPTY", Shown::SwapLost),
    ("  waits at the swap", Shown::SwapWaits),
    ("waits to put the tail back", Shown::TakeWaitsToPutBack),
    ("steals that find none, EMPTY", Shown::StealEmpty),
    (
        "  with a task stored and not given",
        Shown::StealEmptyWithTask,
    ),
    ("steals that see too few, ABORT", Shown::StealAbort),
    ("thieves' swaps that are won, TASK", Shown::StealSwapWon),
    ("thieves' swaps that fail", Shown::StealSwapFailed),
    ("  after a swap of the worker", Shown::FailedByWorker),
    ("  after a swap of another thief", Shown::FailedByThief),
    ("  not the first of the steal", Shown::FailedBefore),
    ("  the thief starts over, TASK", Shown::AgainTask),
    ("  the thief starts over, ABORT", Shown::AgainAbort),
    ("  the thief starts over, EMPTY", Shown::AgainEmpty),
];

/// What becomes of share sheets, and of the blocks in those that are written.
pub const SHEETS: [(&str, Count); 14] = [
    ("sheets written", Count::SheetsWritten),
    ("  sheets of worker, thief and nobody", Count::SheetsOfAll),
    ("  sheets of several thieves", Count::SheetsOfThieves),
    ("  blocks given to the worker", Count::GivenToWorker),
    ("  blocks given to a thief", Count::GivenToThief),
    ("  blocks put and not given", Count::PutNotGiven),
    ("  blocks never put", Count::NeverPut),
    ("sheets refused, 1 to 4 of the file", Count::SheetFile),
    ("sheets refused, 1 SIZE of the count", Count::SheetCount),
    ("sheets refused, 9 MARGIN", Count::SheetMargin),
    ("sheets refused, 10 BLOCK", Count::SheetBlock),
    ("  a block repeated out of place", Count::RepeatedOutOfPlace),
    ("  a block repeated when full", Count::RepeatedWhenFull),
    ("sheets refused, 8 ROOM", Count::SheetRoom),
];

const COUNTS: usize = Count::LedOutHiding as usize + 1;
const SHOWN: usize = Shown::AgainEmpty as usize + 1;

#[derive(Clone)]
pub struct Tally {
    refusals: [u64; 9],
    counts: [u64; COUNTS],
    pub runs: ByQueue<Seen>,
}

/// What the runs of one queue have shown.
#[derive(Clone)]
pub struct Seen {
    outcomes: [u64; 22],
    shown: [u64; SHOWN],
}

/// Nothing seen.
impl Default for Tally {
    fn default() -> Self {
        Tally {
            refusals: [0; 9],
            counts: [0; COUNTS],
            runs: ByQueue::default(),
        }
    }
}

impl Default for Seen {
    fn default() -> Self {
        Seen {
            outcomes: [0; 22],
            shown: [0; SHOWN],
        }
    }
}

impl Tally {
    pub fn count(&mut self, what: Count) {
        self.counts[what as usize] += 1;
    }

    /// Counts each that is said to be seen.
    pub fn count_seen<const N: usize>(&mut self, all: [(Count, bool); N]) {
        for (what, seen) in all {
            self.counts[what as usize] += u64::from(seen);
        }
    }

    pub fn of(&self, what: Count) -> u64 {
        self.counts[what as usize]
    }

    pub fn refusal(&mut self, number: u32) {
        if let Some(seen) = self.refusals.get_mut(number as usize) {
            *seen += 1;
        }
    }

    pub fn refusal_seen(&self, number: u32) -> u64 {
        self.refusals[number as usize]
    }

    pub fn run(&mut self, queue: Queue, draft: &Draft, ran: &Ran) {
        let runs = &mut self.runs[queue];
        runs.count_run(draft, ran);
        if queue == Queue::Swapping {
            swaps::count(draft, &ran.outcomes, runs);
        }
    }

    /// Names of what never came up in single steps, which are those of the queue
    /// with a lock.
    pub fn missing_steps(&self) -> Vec<String> {
        let mut missing = self.runs[Queue::Locking].missing_outcomes();
        missing.extend(missing_rows(&MACHINES, |what| self.of(what)));
        missing.extend(missing_rows(&HANDED_ON, |what| self.of(what)));
        missing
    }

    /// Names of the refusals and share sheets, and of what runs can show, that
    /// never came up.
    pub fn missing(&self) -> Vec<String> {
        let refusals = REFUSALS.map(|(number, name)| (name, number));
        let mut missing = missing_rows(&refusals, |number| self.refusal_seen(number));
        missing.extend(missing_rows(&SHEETS, |what| self.of(what)));
        for queue in QUEUES {
            let of_queue = self.runs[queue].missing(queue);
            missing.extend(of_queue.map(|name| format!("{}: {name}", queue.name())));
        }
        missing
    }

    pub fn add(&mut self, other: &Tally) {
        add_each(&mut self.refusals, &other.refusals);
        add_each(&mut self.counts, &other.counts);
        for queue in QUEUES {
            let (runs, more) = (&mut self.runs[queue], &other.runs[queue]);
            add_each(&mut runs.outcomes, &more.outcomes);
            add_each(&mut runs.shown, &more.shown);
        }
    }
}

impl Seen {
    pub fn count(&mut self, what: Shown) {
        self.shown[what as usize] += 1;
    }

    /// Counts each that is said to be seen.
    pub fn count_seen<const N: usize>(&mut self, all: [(Shown, bool); N]) {
        for (what, seen) in all {
            self.shown[what as usize] += u64::from(seen);
        }
    }

    pub fn of(&self, what: Shown) -> u64 {
        self.shown[what as usize]
    }

    pub fn outcome(&mut self, outcome: u8) {
        self.outcomes[usize::from(outcome)] += 1;
    }

    pub fn outcome_seen(&self, outcome: u8) -> u64 {
        self.outcomes[usize::from(outcome)]
    }

    pub fn entries_run(&self) -> u64 {
        self.outcomes.iter().sum()
    }

    fn count_run(&mut self, draft: &Draft, ran: &Ran) {
        for &outcome in &ran.outcomes {
            self.outcome(outcome);
        }
        let hidden = ran.hidden();
        let all_needed = hidden == draft.needed_margin();
        self.count_seen([
            (Shown::NoneHidden, hidden == 0),
            (Shown::OneHidden, hidden == 1),
            (Shown::MoreHidden, hidden > 1),
            (Shown::AllNeededHidden, hidden > 1 && all_needed),
            (Shown::PastMarginHidden, hidden > draft.margin_in_use()),
        ]);
    }

    fn missing(&self, queue: Queue) -> impl Iterator<Item = String> + '_ {
        let swaps: &[_] = match queue {
            Queue::Locking => &[],
            Queue::Swapping => &SWAPS,
        };
        let rows = [&HIDDEN[..], &JUDGED, swaps].concat();
        let missing = missing_rows(&rows, |what| self.of(what));
        self.missing_outcomes().into_iter().chain(missing)
    }

    fn missing_outcomes(&self) -> Vec<String> {
        let outcomes = OUTCOMES.map(|(number, name)| (name, number));
        missing_rows(&outcomes, |outcome| self.outcome_seen(outcome))
    }
}

/// Names of the rows that were never seen.
fn missing_rows<C: Copy>(rows: &[(&str, C)], seen: impl Fn(C) -> u64) -> Vec<String> {
    let missing = rows.iter().filter(|row| seen(row.1) == 0);
    missing.map(|row| row.0.trim_start().to_owned()).collect()
}

fn add_each(sums: &mut [u64], more: &[u64]) {
    for (sum, one) in sums.iter_mut().zip(more) {
        *sum += one;
    }
}
