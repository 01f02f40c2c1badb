//! A machine as a row of numbers, in which somebody else can hand one over:
//! any machine, also one that no schedule leads to.
//!
//! A machine in range becomes a bench, the bench obeys, and what has changed
//! goes back into the row. So the row keeps what the bench has no place for:
//! slots, stores and thieves beyond those in use, and whose the lock is.

mod calls;
mod range;

use crate::bench::{Bench, SinceTake};
use crate::calls::Locking;
use crate::entry::Entry;
use crate::machine::{Machine, Memory, Store, Wait};
use crate::outcome::{Outcome, Totals};
use crate::sizes::Sizes;
use calls::{steal, steal_cells, worker_call, worker_cells};

/// The length of a machine's image: numbers of eight bytes each.
pub const IMAGE_BYTES: usize = 8 * NUMBERS;

const NUMBERS: usize = 487;

// Where the parts of the row begin; the sizes are its first six numbers.
const SLOTS: usize = 6;
const HEAD: usize = 262;
const TAIL: usize = 263;
const LOCK: usize = 264;
const PENDING: usize = 265;
const STORES: usize = 266;
const SPACING_COUNT: usize = 458;
const TAKE_BEGUN: usize = 459;
const WORKER: usize = 460;
const THIEVES: usize = 463;
/// All places for thieves, whatever number of them the sizes say.
const MOST_THIEVES: usize = 8;

const FREE: i64 = 0;
const WORKERS_LOCK: i64 = 1;
const FIRST_THIEFS_LOCK: i64 = 2;

/// The kinds of a store.
const CLIENT: i64 = 0;
const TAIL_STORE: i64 = 1;
const SLOT_STORE: i64 = 2;

/// A store or a call: its kind or its next step, an index, a task.
type Cells = [i64; 3];

/// Makes one step on a machine and brings the totals of given, aborts and
/// waits up to date: the outcome's number and value, the totals, the stores of
/// take step 1 that are pending in the machine after the step, that machine.
///
/// A machine out of range tells 0 of such stores, whether it was handed over
/// like that or the step has led there.
///
/// The operand is the task of a put or the number of a thief, whether there is
/// such a thief or not, and of no account for other kinds.
///
/// # Panics
///
/// On a kind above 6, and on bytes that are no machine at all: their number is
/// not [`IMAGE_BYTES`], or they have a store of no kind, a call at no step or a
/// task beyond 32 bits where a machine in range is looked at.
pub fn step_of_image(
    machine: &[u8],
    totals: [u32; 3],
    kind: u8,
    operand: u32,
) -> (u8, u32, [u32; 3], u32, Vec<u8>) {
    let entry = Entry::of_kind(kind, operand).expect("a kind is 0 to 6");
    let mut image = Image::from_bytes(machine);
    let (outcome, hidden) = image.obey(entry);
    let mut totals = Totals::from_printed_order(totals);
    totals.count(&outcome);
    (
        outcome.number(),
        outcome.value(),
        totals.in_printed_order(),
        hidden,
        image.to_bytes(),
    )
}

/// The machine on which a schedule of these sizes begins.
pub fn fresh_image(sizes: &Sizes) -> Vec<u8> {
    let mut image = Image([0; NUMBERS]);
    for (number, size) in image.0.iter_mut().zip(sizes.in_file_order()) {
        *number = i64::from(size);
    }
    image.0[HEAD] = i64::from(sizes.start);
    image.0[TAIL] = i64::from(sizes.start);
    image.to_bytes()
}

struct Image([i64; NUMBERS]);

impl Image {
    fn from_bytes(bytes: &[u8]) -> Image {
        assert_eq!(bytes.len(), IMAGE_BYTES, "a machine has {NUMBERS} numbers");
        let (numbers, _) = bytes.as_chunks::<8>();
        Image(std::array::from_fn(|at| i64::from_le_bytes(numbers[at])))
    }

    fn to_bytes(&self) -> Vec<u8> {
        self.0.iter().flat_map(|it| it.to_le_bytes()).collect()
    }

    /// Becomes the machine after the entry; gives the outcome, and what that
    /// machine tells of pending stores of take step 1.
    fn obey(&mut self, entry: Entry<u32>) -> (Outcome<u32>, u32) {
        let Some(sizes) = self.sizes_in_range() else {
            return (Outcome::Wait, 0);
        };
        let mut bench = self.bench(&sizes).expect("no more is pending than fits");
        let outcome = if range::is_there(entry, &sizes) {
            bench.obey(entry)
        } else {
            Outcome::Wait
        };
        if !outcome.is_refused() {
            self.follow(&bench, entry);
        }
        // The step may have led out of range, which only the row can tell.
        let hidden = match self.sizes_in_range() {
            Some(_) => bench.machine().hidden(),
            None => 0,
        };
        (outcome, hidden)
    }

    /// The place `which` among the stores or the calls that begin at `start`.
    fn cells(&self, start: usize, which: usize) -> Cells {
        std::array::from_fn(|at| self.0[start + 3 * which + at])
    }

    fn set_cells(&mut self, start: usize, which: usize, cells: Cells) {
        self.0[start + 3 * which..][..3].copy_from_slice(&cells);
    }
}

/// From the row to a bench.
impl Image {
    /// The bench that a machine in range stands for. The stores are made once
    /// more, each as the worker made it, so that what the machine keeps about
    /// them comes out as if it had been there all the time.
    fn bench(&self, sizes: &Sizes) -> Result<Bench<Locking, u32>, Wait> {
        let mut machine = Machine::with_memory(self.memory(sizes), sizes);
        for which in 0..self.0[PENDING] as usize {
            match self.cells(STORES, which) {
                [SLOT_STORE, index, task] => machine.worker_store(index, task_number(task))?,
                [TAIL_STORE, tail, _] => machine.worker_store_tail(machine.worker_tail(), tail)?,
                _ => machine.client_store()?,
            }
        }
        let thieves = 0..sizes.thieves as usize;
        Ok(Bench::resumed(
            sizes,
            machine,
            worker_call(self.cells(WORKER, 0)),
            thieves
                .map(|which| steal(self.cells(THIEVES, which)))
                .collect(),
            self.since_take(),
        ))
    }

    fn since_take(&self) -> SinceTake {
        SinceTake {
            begun: self.0[TAKE_BEGUN] != 0,
            stores: self.0[SPACING_COUNT] as u32,
        }
    }

    fn memory(&self, sizes: &Sizes) -> Memory<u32> {
        let slots = &self.0[SLOTS..][..sizes.slots as usize];
        Memory {
            slots: slots.iter().map(|&task| task_number(task)).collect(),
            head: self.0[HEAD],
            tail: self.0[TAIL],
            locked: self.0[LOCK] != FREE,
        }
    }
}

/// From a bench back to the row.
impl Image {
    /// Takes over what the bench has become by obeying `entry`.
    fn follow(&mut self, bench: &Bench<Locking, u32>, entry: Entry<u32>) {
        self.follow_memory(bench.machine().memory(), entry);
        self.follow_stores(bench.machine().pending());
        self.follow_spacing(bench.since_take());
        match entry {
            Entry::Drain => {}
            Entry::BeginSteal(thief) | Entry::ThiefStep(thief) => {
                let cells = steal_cells(bench.thief_call(thief));
                self.set_cells(THIEVES, thief as usize, cells);
            }
            _ => self.set_cells(WORKER, 0, worker_cells(bench.worker_call())),
        }
    }

    fn follow_spacing(&mut self, since_take: SinceTake) {
        self.0[SPACING_COUNT] = i64::from(since_take.stores);
        self.0[TAKE_BEGUN] = i64::from(since_take.begun);
    }

    fn follow_memory(&mut self, memory: &Memory<u32>, entry: Entry<u32>) {
        for (number, &task) in self.0[SLOTS..].iter_mut().zip(&memory.slots) {
            *number = i64::from(task);
        }
        self.0[HEAD] = memory.head;
        self.0[TAIL] = memory.tail;
        if !memory.locked {
            self.0[LOCK] = FREE;
        } else if self.0[LOCK] == FREE {
            self.0[LOCK] = lock_of(entry);
        }
    }

    /// A place that a drain has freed gets a client store, the emptiest one.
    fn follow_stores(&mut self, pending: impl ExactSizeIterator<Item = Store<u32>>) {
        let before = self.0[PENDING] as usize;
        let now = pending.len();
        self.0[PENDING] = now as i64;
        for (which, store) in pending.enumerate() {
            self.set_cells(STORES, which, store_cells(store));
        }
        for which in now..before {
            self.set_cells(STORES, which, store_cells(Store::Client));
        }
    }
}

fn store_cells(store: Store<u32>) -> Cells {
    match store {
        Store::Client => [CLIENT, 0, 0],
        Store::Tail(tail) => [TAIL_STORE, tail, 0],
        Store::Slot { index, task, .. } => [SLOT_STORE, index, i64::from(task)],
    }
}

/// A lock that was free and is not is that of the party whose step it was.
fn lock_of(entry: Entry<u32>) -> i64 {
    match entry {
        Entry::ThiefStep(thief) => FIRST_THIEFS_LOCK + i64::from(thief),
        _ => WORKERS_LOCK,
    }
}

fn task_number(task: i64) -> u32 {
    u32::try_from(task).expect("a task number has 32 bits")
}

#[cfg(test)]
mod tests {
    use super::*;
    use crate::common::Dice;

    #[test]
    fn a_machine_handed_over_keeps_the_number_of_a_pass() {
        let mut dice = Dice::new(33);
        let mut met = [0; 65];
        for _ in 0..20_000 {
            let image = Image::from_bytes(&dice.row().bytes());
            let sizes = image.sizes_in_range().expect("the row is in range");
            let mut bench = image.bench(&sizes).expect("no more is pending than fits");
            let handed_over = bench.machine();
            assert_eq!(handed_over.hidden(), handed_over.hidden_by_a_pass());
            met[handed_over.hidden() as usize] += 1;

            let kind = dice.pick(&[0, 1, 2, 3, 4, 4, 4, 5, 6]);
            bench.obey(Entry::of_kind(kind, 0).expect("a kind is 0 to 6"));
            let after = bench.machine();
            assert_eq!(after.hidden(), after.hidden_by_a_pass());
        }
        assert!(met[..8].iter().all(|&times| times > 20), "{met:?}");
    }
}
