//! A machine as the row of numbers in which it is handed over.

use std::fmt;

use crate::schedule::LAST_INDEX;

pub const NUMBERS: usize = 487;

// Where the parts of the row begin; the sizes are its first six numbers.
pub const SLOTS: usize = 6;
pub const HEAD: usize = 262;
pub const TAIL: usize = 263;
pub const LOCK: usize = 264;
pub const PENDING: usize = 265;
pub const STORES: usize = 266;
pub const SPACING_COUNT: usize = 458;
pub const TAKE_BEGUN: usize = 459;
pub const WORKER_CALL: usize = 460;
pub const THIEF_CALLS: usize = 463;

/// All places there are, whatever the sizes say.
pub const MOST_SLOTS: usize = 256;
pub const MOST_STORES: usize = 64;
pub const MOST_THIEVES: usize = 8;

/// The largest index in range.
pub const TOP: i64 = LAST_INDEX as i64 + 1;
/// The largest spacing count in range.
pub const MOST_COUNTED: i64 = 4096;

/// What a store of one kind, or a call before one step, has in hand. What it
/// has not is 0 in the row.
#[derive(Clone, Copy)]
pub struct Hand {
    /// The least index in range, if it has one.
    pub least: Option<i64>,
    pub task: bool,
}

const NOTHING: Hand = hand(None, false);
const TASK: Hand = hand(None, true);
const INDEX: Hand = hand(Some(-1), false);
const SLOT_INDEX: Hand = hand(Some(0), false);
const SLOT_STORE: Hand = hand(Some(0), true);

const fn hand(least: Option<i64>, task: bool) -> Hand {
    Hand { least, task }
}

/// A tail store's kind.
const TAIL_STORE: i64 = 1;

/// By kind: a client store, a tail store, a slot store.
pub const STORE_HANDS: [Hand; 3] = [NOTHING, INDEX, SLOT_STORE];

/// By the worker's next step.
pub const WORKER_HANDS: [Hand; 13] = [
    NOTHING, TASK, TASK, NOTHING, NOTHING, INDEX, SLOT_INDEX, INDEX, INDEX, INDEX, NOTHING,
    SLOT_INDEX, SLOT_INDEX,
];

/// By a thief's next step.
pub const THIEF_HANDS: [Hand; 9] = [
    NOTHING, NOTHING, NOTHING, INDEX, INDEX, SLOT_INDEX, TASK, INDEX, NOTHING,
];

#[derive(Clone)]
pub struct Image([i64; NUMBERS]);

impl Image {
    pub const ZERO: Image = Image([0; NUMBERS]);

    pub fn of(bytes: &[u8]) -> Self {
        let (numbers, _) = bytes.as_chunks();
        Image(std::array::from_fn(|at| i64::from_le_bytes(numbers[at])))
    }

    pub fn bytes(&self) -> Vec<u8> {
        self.0.map(i64::to_le_bytes).as_flattened().to_vec()
    }

    pub fn at(&self, place: usize) -> i64 {
        self.0[place]
    }

    pub fn set(&mut self, place: usize, numbers: &[i64]) {
        self.0[place..][..numbers.len()].copy_from_slice(numbers);
    }

    /// The same with other numbers from a place on.
    pub fn with(&self, place: usize, numbers: &[i64]) -> Self {
        let mut image = self.clone();
        image.set(place, numbers);
        image
    }

    /// The stores that are pending, as far as there are places for them.
    fn pending(&self) -> usize {
        self.at(PENDING).clamp(0, MOST_STORES as i64) as usize
    }

    /// How many of them store a tail.
    pub fn pending_tails(&self) -> usize {
        let kinds = (0..self.pending()).map(|which| self.at(STORES + 3 * which));
        kinds.filter(|&kind| kind == TAIL_STORE).count()
    }
}

/// All that is in use and not 0, the slots left out.
impl fmt::Display for Image {
    fn fmt(&self, f: &mut fmt::Formatter) -> fmt::Result {
        let in_use = (0..SLOTS)
            .chain(HEAD..STORES + 3 * self.pending())
            .chain(SPACING_COUNT..NUMBERS);
        let told = in_use.filter(|&place| self.at(place) != 0);
        let told = told.map(|place| format!("{} {}", meaning(place), self.at(place)));
        f.write_str(&told.collect::<Vec<_>>().join(", "))
    }
}

/// What the number at a place is.
pub fn meaning(place: usize) -> String {
    const SIZES: [&str; SLOTS] = ["slots", "buffer", "spacing", "margin", "thieves", "start"];
    let one_of = |what: &str, begin: usize, numbers: [&str; 3]| {
        let at = place - begin;
        format!("{what} {}'s {}", at / 3, numbers[at % 3])
    };
    match place {
        0..SLOTS => SIZES[place].into(),
        SLOTS..HEAD => format!("slot {}", place - SLOTS),
        HEAD => "head".into(),
        TAIL => "tail".into(),
        LOCK => "lock".into(),
        PENDING => "stores pending".into(),
        STORES..SPACING_COUNT => one_of("store", STORES, ["kind", "index", "task"]),
        SPACING_COUNT => "spacing count".into(),
        TAKE_BEGUN => "take begun".into(),
        WORKER_CALL..THIEF_CALLS => {
            format!(
                "worker's {}",
                ["step", "index", "task"][place - WORKER_CALL]
            )
        }
        _ => one_of("thief", THIEF_CALLS, ["step", "index", "task"]),
    }
}
