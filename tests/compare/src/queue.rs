//! The two queues, which obey the same files.

use std::ops::{Index, IndexMut};

use reference::plain_queue::{judge, judge_cas, Verdict as Judgement};
use reference::{lines, lines_cas};

#[derive(Clone, Copy, Debug, PartialEq, Eq)]
pub enum Queue {
    Locking,
    Swapping,
}

pub const QUEUES: [Queue; 2] = [Queue::Locking, Queue::Swapping];

impl Queue {
    /// As the paper has it.
    pub const fn name(self) -> &'static str {
        match self {
            Queue::Locking => "FF-THE",
            Queue::Swapping => "FF-CL",
        }
    }

    /// The lines that the reference has its program print.
    pub fn lines(self, file: &[u8]) -> String {
        match self {
            Queue::Locking => lines(file),
            Queue::Swapping => lines_cas(file),
        }
    }

    /// The run of an accepted file beside the plain queue.
    pub fn judged(self, file: &[u8]) -> Judgement {
        let judgement = match self {
            Queue::Locking => judge(file),
            Queue::Swapping => judge_cas(file),
        };
        judgement.expect("the file is accepted")
    }
}

/// One for each queue.
#[derive(Clone, Default)]
pub struct ByQueue<T>([T; 2]);

impl<T> ByQueue<T> {
    pub fn new(make: impl FnMut(Queue) -> T) -> Self {
        ByQueue(QUEUES.map(make))
    }

    /// The first that can't be made is told.
    pub fn try_new<E>(make: impl FnMut(Queue) -> Result<T, E>) -> Result<Self, E> {
        let [locking, swapping] = QUEUES.map(make);
        Ok(ByQueue([locking?, swapping?]))
    }
}

impl<T> Index<Queue> for ByQueue<T> {
    type Output = T;

    fn index(&self, queue: Queue) -> &T {
        &self.0[queue as usize]
    }
}

impl<T> IndexMut<Queue> for ByQueue<T> {
    fn index_mut(&mut self, queue: Queue) -> &mut T {
        &mut self.0[queue as usize]
    }
}
