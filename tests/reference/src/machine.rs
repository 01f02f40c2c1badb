//! The machine: memory, the lock, and the worker's bounded store buffer.
//!
//! The content of a slot is an opaque `T`: the machine copies it and never
//! looks at it, so whatever travels with a task cannot change what happens.

use std::collections::VecDeque;

use crate::sizes::Sizes;

/// The moment is wrong: what the step needs is not there yet.
#[derive(Debug, Clone, Copy, PartialEq, Eq)]
pub(crate) struct Wait;

/// A store of the worker on its way to memory.
#[derive(Debug, Clone, Copy)]
pub(crate) enum Store<T> {
    Slot {
        index: i64,
        /// Where the index lies, worked out once for all loads to come.
        slot: usize,
        task: T,
    },
    Tail(i64),
    /// The client's own data; the queue only feels the place it takes up.
    Client,
}

/// What all parties share.
#[derive(Debug, Clone)]
pub(crate) struct Memory<T> {
    pub(crate) slots: Vec<T>,
    pub(crate) head: i64,
    pub(crate) tail: i64,
    pub(crate) locked: bool,
}

#[derive(Debug, Clone)]
pub(crate) struct Machine<T> {
    memory: Memory<T>,
    /// The store buffer, oldest first; `buffer` is its capacity.
    pending: VecDeque<Store<T>>,
    buffer: usize,
    /// What [`Machine::hidden`] tells, kept up to date as tail stores come and
    /// go: it is asked for after every entry, and a pass over a long buffer
    /// would cost more than the entry itself.
    hidden: u32,
}

impl<T: Copy + Default> Machine<T> {
    pub(crate) fn new(sizes: &Sizes) -> Self {
        let memory = Memory {
            slots: vec![T::default(); sizes.slots as usize],
            head: i64::from(sizes.start),
            tail: i64::from(sizes.start),
            locked: false,
        };
        Machine::with_memory(memory, sizes)
    }

    /// A machine that finds its memory as it is, with nothing pending.
    pub(crate) fn with_memory(memory: Memory<T>, sizes: &Sizes) -> Self {
        let buffer = sizes.buffer as usize;
        Machine {
            memory,
            pending: VecDeque::with_capacity(buffer),
            buffer,
            hidden: 0,
        }
    }

    /// Lets the store that has waited longest arrive.
    pub(crate) fn drain(&mut self) -> Result<(), Wait> {
        match self.pending.pop_front().ok_or(Wait)? {
            Store::Slot { slot, task, .. } => self.memory.slots[slot] = task,
            Store::Tail(tail) => {
                // All tails stored before it have arrived, so memory has what
                // was the worker's tail when it stored this one.
                self.hidden -= u32::from(tail < self.memory.tail);
                self.memory.tail = tail;
            }
            Store::Client => {}
        }
        Ok(())
    }

    pub(crate) fn slot_count(&self) -> i64 {
        self.memory.slots.len() as i64
    }

    /// The head is the same for everybody, since no store to it is ever late.
    pub(crate) fn head(&self) -> i64 {
        self.memory.head
    }

    pub(crate) fn memory(&self) -> &Memory<T> {
        &self.memory
    }

    /// The stores on their way, oldest first.
    pub(crate) fn pending(&self) -> impl ExactSizeIterator<Item = Store<T>> + '_ {
        self.pending.iter().copied()
    }

    fn slot_of(&self, index: i64) -> usize {
        index.rem_euclid(self.slot_count()) as usize
    }
}

/// The worker's side: stores are late, and loads see them first.
impl<T: Copy + Default> Machine<T> {
    pub(crate) fn worker_tail(&self) -> i64 {
        let newest = self.pending.iter().rev().find_map(|store| match *store {
            Store::Tail(tail) => Some(tail),
            _ => None,
        });
        newest.unwrap_or(self.memory.tail)
    }

    /// How many stores of take step 1 are pending: tail stores below the tail
    /// store before them or, for the first, below memory's tail. No other step
    /// lowers the tail: a put raises it, and a take that stores it once more
    /// puts it back up.
    pub(crate) fn hidden(&self) -> u32 {
        self.hidden
    }

    pub(crate) fn worker_load(&self, index: i64) -> T {
        let wanted = self.slot_of(index);
        let newest = self.pending.iter().rev().find_map(|store| match *store {
            Store::Slot { slot, task, .. } if slot == wanted => Some(task),
            _ => None,
        });
        newest.unwrap_or(self.memory.slots[wanted])
    }

    pub(crate) fn worker_store(&mut self, index: i64, task: T) -> Result<(), Wait> {
        let slot = self.slot_of(index);
        self.push(Store::Slot { index, slot, task })
    }

    /// Stores a tail, `before` being the worker's so far: who wants to move it
    /// has mostly found it already, so it is not searched for here once more.
    pub(crate) fn worker_store_tail(&mut self, before: i64, tail: i64) -> Result<(), Wait> {
        self.push(Store::Tail(tail))?;
        self.hidden += u32::from(tail < before);
        Ok(())
    }

    pub(crate) fn client_store(&mut self) -> Result<(), Wait> {
        self.push(Store::Client)
    }

    fn push(&mut self, store: Store<T>) -> Result<(), Wait> {
        if self.pending.len() == self.buffer {
            return Err(Wait);
        }
        self.pending.push_back(store);
        Ok(())
    }

    /// Like every atomic instruction, this one waits for the store buffer.
    pub(crate) fn worker_lock(&mut self) -> Result<(), Wait> {
        self.buffer_is_empty()?;
        self.lock()
    }

    pub(crate) fn worker_unlock(&mut self) -> Result<(), Wait> {
        self.buffer_is_empty()?;
        self.unlock();
        Ok(())
    }

    /// Waits for the store buffer too, whether the swap will succeed or not.
    pub(crate) fn worker_swap_head(&mut self, h: i64) -> Result<bool, Wait> {
        self.buffer_is_empty()?;
        Ok(self.swap_head(h))
    }

    fn buffer_is_empty(&self) -> Result<(), Wait> {
        if self.pending.is_empty() {
            Ok(())
        } else {
            Err(Wait)
        }
    }
}

/// The lock, and the thief's side: loads and stores go straight to memory.
impl<T: Copy + Default> Machine<T> {
    pub(crate) fn lock(&mut self) -> Result<(), Wait> {
        if self.memory.locked {
            return Err(Wait);
        }
        self.memory.locked = true;
        Ok(())
    }

    pub(crate) fn unlock(&mut self) {
        self.memory.locked = false;
    }

    pub(crate) fn set_head(&mut self, head: i64) {
        self.memory.head = head;
    }

    /// Compares and swaps: moves the head on from `h` if that is where it is,
    /// and says whether it was.
    pub(crate) fn swap_head(&mut self, h: i64) -> bool {
        let is_there = self.memory.head == h;
        if is_there {
            self.memory.head = h + 1;
        }
        is_there
    }

    pub(crate) fn memory_tail(&self) -> i64 {
        self.memory.tail
    }

    pub(crate) fn memory_load(&self, index: i64) -> T {
        self.memory.slots[self.slot_of(index)]
    }
}

/// An oracle for the kept number.
#[cfg(test)]
impl<T: Copy + Default> Machine<T> {
    /// The sentence that [`Machine::hidden`] goes by, as it is written.
    pub(crate) fn hidden_by_a_pass(&self) -> u32 {
        let mut before = self.memory.tail;
        let mut hidden = 0;
        for store in &self.pending {
            if let Store::Tail(tail) = *store {
                hidden += u32::from(tail < before);
                before = tail;
            }
        }
        hidden
    }
}

#[cfg(test)]
mod tests {
    use super::*;
    use crate::common::{Dice, SIZES};

    /// A store of any kind, a tail now and then far from the one before.
    fn store(machine: &mut Machine<u32>, dice: &mut Dice) -> Result<(), Wait> {
        let before = machine.worker_tail();
        let near = before + i64::from(dice.below(3)) - 1;
        let tail = dice.pick(&[near, near, near, -1, 1 << 31]);
        match dice.below(4) {
            0 => machine.client_store(),
            1 => machine.worker_store(tail, 9),
            _ => machine.worker_store_tail(before, tail),
        }
    }

    #[test]
    fn a_swap_finds_the_head_once() {
        let mut machine = Machine::<u32>::new(&SIZES);
        assert_eq!(machine.worker_swap_head(0), Ok(true));
        assert!(!machine.swap_head(0));
        assert_eq!(machine.worker_swap_head(0), Ok(false));
        assert!(!machine.swap_head(2), "it is not there yet");
        assert!(machine.swap_head(1));
        assert_eq!(machine.head(), 2);
    }

    #[test]
    fn only_the_workers_swap_waits_for_the_store_buffer() {
        let mut machine = Machine::<u32>::new(&SIZES);
        machine.client_store().expect("there is a place");
        assert_eq!(machine.worker_swap_head(0), Err(Wait));
        assert_eq!(machine.worker_swap_head(5), Err(Wait), "in vain as well");
        assert_eq!(machine.head(), 0);
        assert!(machine.swap_head(0));
        machine.drain().expect("a store is pending");
        assert_eq!(machine.worker_swap_head(0), Ok(false));
        assert_eq!(machine.worker_swap_head(1), Ok(true));
    }

    #[test]
    fn the_kept_number_is_that_of_a_pass() {
        let mut dice = Dice::new(31);
        let (mut met, mut waits) = ([0; 65], 0);
        for _ in 0..600 {
            let mut machine = Machine::new(&dice.sizes());
            let drains_in_8 = dice.pick(&[1, 3, 4, 5]);
            for _ in 0..400 {
                let step = if dice.below(8) < drains_in_8 {
                    machine.drain()
                } else {
                    store(&mut machine, &mut dice)
                };
                assert_eq!(machine.hidden(), machine.hidden_by_a_pass());
                met[machine.hidden() as usize] += 1;
                waits += u32::from(step == Err(Wait));
            }
        }
        assert!(met[..16].iter().all(|&times| times > 100), "{met:?}");
        assert!(waits > 10_000, "{waits} waits");
    }
}
