//! Machines with one part at an edge of its range, or just past it.

use crate::image::{
    Hand, Image, HEAD, LOCK, MOST_COUNTED, MOST_THIEVES, PENDING, SPACING_COUNT, STORES,
    STORE_HANDS, TAIL, THIEF_CALLS, THIEF_HANDS, TOP, WORKER_CALL, WORKER_HANDS,
};
use crate::schedule::{BUFFER, RANGES};

/// Each end of the range of an index and of a slot's from both sides.
const INDICES: [i64; 8] = [i64::MIN, -2, -1, 0, TOP - 1, TOP, TOP + 1, i64::MAX];
const TASK: i64 = 9;

/// A machine, and whether the paper has it in range.
pub struct Limit {
    pub machine: Image,
    pub in_range: bool,
}

/// A machine in range, with each of its parts replaced in turn.
pub fn around(base: Image) -> Vec<Limit> {
    let mut limits = Limits {
        base,
        all: Vec::new(),
    };
    limits.sizes();
    limits.memory();
    limits.list_lengths();
    limits.stores();
    limits.spacing();
    limits.calls();
    limits.all
}

struct Limits {
    base: Image,
    all: Vec<Limit>,
}

impl Limits {
    /// `in_range` is said of the part. More stores than fit are out of range too.
    fn push(&mut self, machine: Image, in_range: bool) {
        let fits = 0..=machine.at(BUFFER);
        let in_range = in_range && fits.contains(&machine.at(PENDING));
        self.all.push(Limit { machine, in_range });
    }

    fn sizes(&mut self) {
        for (place, (low, high)) in RANGES[..6].iter().copied().enumerate() {
            for size in [low.wrapping_sub(1), low, high, high + 1, u32::MAX] {
                let machine = self.base.with(place, &[i64::from(size)]);
                self.push(machine, (low..=high).contains(&size));
            }
        }
    }

    /// Head, tail, and the lock, which anybody may hold.
    fn memory(&mut self) {
        for index in INDICES {
            for place in [HEAD, TAIL] {
                let machine = self.base.with(place, &[index]);
                self.push(machine, (-1..=TOP).contains(&index));
            }
        }
        for holder in [0, 1, 2, 9, 10, 2 + i64::from(u32::MAX)] {
            self.push(self.base.with(LOCK, &[holder]), true);
        }
    }

    fn list_lengths(&mut self) {
        let buffer = self.base.at(BUFFER);
        for length in [-1, 0, buffer, buffer + 1, 64, 65, i64::MIN, i64::MAX] {
            self.push(self.base.with(PENDING, &[length]), true);
        }
    }

    /// The first and the last store, pending; then just not pending, where
    /// nothing is asked of it.
    fn stores(&mut self) {
        for which in [0, self.base.at(BUFFER) - 1] {
            let place = STORES + 3 * which as usize;
            let pending = self.base.with(PENDING, &[which + 1]);
            let past = self.base.with(PENDING, &[which]);
            for (cells, in_range) in edges_of(&STORE_HANDS) {
                self.push(pending.with(place, &cells), in_range);
                self.push(past.with(place, &cells), true);
            }
        }
    }

    /// Whether or not a take has begun.
    fn spacing(&mut self) {
        let range = 0..=MOST_COUNTED;
        for count in [0, 1, MOST_COUNTED, MOST_COUNTED + 1, i64::from(u32::MAX)] {
            for begun in [0, 1] {
                let machine = self.base.with(SPACING_COUNT, &[count, begun]);
                self.push(machine, range.contains(&count));
            }
        }
    }

    /// The worker's, and those of all thieves, whether they are there or not.
    fn calls(&mut self) {
        for (cells, in_range) in edges_of(&WORKER_HANDS) {
            self.push(self.base.with(WORKER_CALL, &cells), in_range);
        }
        for thief in 0..MOST_THIEVES {
            for (cells, in_range) in edges_of(&THIEF_HANDS) {
                let place = THIEF_CALLS + 3 * thief;
                self.push(self.base.with(place, &cells), in_range);
            }
        }
    }
}

/// Stores of each kind, or calls before each step, with every edge of their
/// indices, and whether each is in range.
fn edges_of(hands: &[Hand]) -> Vec<([i64; 3], bool)> {
    let mut edges = Vec::new();
    for (tag, hand) in (0..).zip(hands) {
        let task = if hand.task { TASK } else { 0 };
        let Some(least) = hand.least else {
            edges.push(([tag, 0, task], true));
            continue;
        };
        let range = least..=TOP;
        edges.extend(INDICES.map(|index| ([tag, index, task], range.contains(&index))));
    }
    edges
}
