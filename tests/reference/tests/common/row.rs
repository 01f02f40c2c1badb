//! Machines as rows of numbers, put together by place.

use super::Dice;
use reference::{fresh_image, step_of_image, Sizes};

pub const SLOTS: usize = 6;
pub const HEAD: usize = 262;
pub const TAIL: usize = 263;
pub const LOCK: usize = 264;
pub const PENDING: usize = 265;
pub const STORES: usize = 266;
pub const COUNT: usize = 458;
pub const BEGUN: usize = 459;
pub const WORKER: usize = 460;
pub const THIEVES: usize = 463;

/// The index above all others.
pub const TOP: i64 = 1 << 31;

#[derive(Debug, Clone, PartialEq, Eq)]
pub struct Row(Vec<i64>);

impl Row {
    pub fn fresh(sizes: &Sizes) -> Row {
        Row::of(&fresh_image(sizes))
    }

    pub fn of(bytes: &[u8]) -> Row {
        let numbers = bytes.chunks(8).map(|it| it.try_into().unwrap());
        Row(numbers.map(i64::from_le_bytes).collect())
    }

    pub fn bytes(&self) -> Vec<u8> {
        self.0.iter().flat_map(|it| it.to_le_bytes()).collect()
    }

    pub fn at(&self, place: usize) -> i64 {
        self.0[place]
    }

    pub fn part(&self, place: usize, length: usize) -> &[i64] {
        &self.0[place..][..length]
    }

    /// The row with these numbers from `place` on.
    pub fn with(&self, place: usize, numbers: &[i64]) -> Row {
        let mut row = self.clone();
        row.0[place..][..numbers.len()].copy_from_slice(numbers);
        row
    }

    /// The row with what another one has at these places.
    pub fn with_places_of(&self, other: &Row, places: &[usize]) -> Row {
        let mut row = self.clone();
        for &place in places {
            row.0[place] = other.0[place];
        }
        row
    }

    pub fn with_pending(&self, stores: &[[i64; 3]]) -> Row {
        self.with(PENDING, &[stores.len() as i64])
            .with(STORES, stores.as_flattened())
    }

    /// Number and value of a step's outcome, and the row after it.
    pub fn step(&self, kind: u8, operand: u32) -> (u8, u32, Row) {
        let (number, value, _, _, machine) = step_of_image(&self.bytes(), [0; 3], kind, operand);
        (number, value, Row::of(&machine))
    }

    /// The stores of take step 1 that are pending after a step.
    pub fn hidden_after(&self, kind: u8, operand: u32) -> u32 {
        step_of_image(&self.bytes(), [0; 3], kind, operand).3
    }

    /// The row after a step that must be moved.
    pub fn moved(&self, kind: u8, operand: u32) -> Row {
        let (number, value, row) = self.step(kind, operand);
        assert_eq!((number, value), (0, 0), "kind {kind}, operand {operand}");
        row
    }
}

impl Dice {
    fn index(&mut self, least: i64) -> i64 {
        let near_top = TOP - i64::from(self.below(3));
        let near_bottom = least + i64::from(self.below(6));
        let anywhere = self.roll() as i64 % TOP;
        self.pick(&[near_bottom, near_bottom, near_top, anywhere])
    }

    fn store(&mut self) -> [i64; 3] {
        match self.below(3) {
            0 => [0, 0, 0],
            1 => [1, self.index(-1), 0],
            _ => [2, self.index(0), self.roll() as i64],
        }
    }

    fn worker_call(&mut self) -> [i64; 3] {
        let step = i64::from(self.below(13));
        match step {
            1 | 2 => [step, 0, self.roll() as i64],
            5 | 7..=9 => [step, self.index(-1), 0],
            6 | 11 | 12 => [step, self.index(0), 0],
            _ => [step, 0, 0],
        }
    }

    fn steal(&mut self) -> [i64; 3] {
        let step = i64::from(self.below(9));
        match step {
            3 | 4 | 7 => [step, self.index(-1), 0],
            5 => [step, self.index(0), 0],
            6 => [step, 0, self.roll() as i64],
            _ => [step, 0, 0],
        }
    }

    /// A machine in range that most likely no schedule leads to.
    pub fn row(&mut self) -> Row {
        let sizes = self.sizes();
        let mut row = Row::fresh(&sizes).with(3, &[i64::from(self.below(65))]);
        for slot in 0..256 {
            row.0[SLOTS + slot] = self.roll() as i64;
        }
        row.0[HEAD] = self.index(-1);
        let near = (row.0[HEAD] + i64::from(self.below(5)) - 2).clamp(-1, TOP);
        let anywhere = self.index(-1);
        row.0[TAIL] = self.pick(&[near, anywhere]);
        row.0[LOCK] = self.pick(&[0, 0, 1, 2, 9, 300]);
        let some = self.below(sizes.buffer + 1);
        row.0[PENDING] = i64::from(self.pick(&[0, some, some]));
        for which in 0..64 {
            row = row.with(STORES + 3 * which, &self.store());
        }
        row.0[COUNT] = self.pick(&[0, 1, 2, 3, 63, 4096]);
        row.0[BEGUN] = i64::from(self.below(2));
        row = row.with(WORKER, &self.worker_call());
        for which in 0..8 {
            row = row.with(THIEVES + 3 * which, &self.steal());
        }
        row
    }
}
