//! Schedules before they are bytes, and the bytes, sound or not; the numbers of
//! kinds and outcomes.

use crate::queue::Queue;
use crate::sides::{in_file_order, REFERENCE, TOTALS_ROOM};

/// The most entries a file may have.
pub const MOST_ENTRIES: usize = 4096;
/// The bytes before the kinds.
pub const HEADER: usize = 28;
/// The largest start, and the tail at which puts end.
pub const LAST_INDEX: u32 = 2_147_483_647;
/// Lowest and highest allowed number of each size, the entries' last.
pub const RANGES: [(u32, u32); 7] = [
    (2, 256),
    (1, 64),
    (0, 63),
    (0, 64),
    (1, 8),
    (0, LAST_INDEX),
    (0, MOST_ENTRIES as u32),
];

pub const SLOTS: usize = 0;
pub const BUFFER: usize = 1;
pub const SPACING: usize = 2;
pub const MARGIN: usize = 3;
pub const THIEVES: usize = 4;
pub const START: usize = 5;

pub const DRAIN: u8 = 0;
pub const CLIENT_STORE: u8 = 1;
pub const BEGIN_PUT: u8 = 2;
pub const BEGIN_TAKE: u8 = 3;
pub const WORKER_STEP: u8 = 4;
pub const BEGIN_STEAL: u8 = 5;
pub const THIEF_STEP: u8 = 6;

pub const MOVED: u8 = 0;
pub const PLACE: u8 = 5;
pub const EARLY: u8 = 6;
pub const WAIT: u8 = 7;
pub const STORED: u8 = 16;
pub const TASK: u8 = 17;
pub const EMPTY: u8 = 18;
pub const ABORT: u8 = 19;
pub const FULL: u8 = 20;
pub const END: u8 = 21;

/// Kind and operand.
pub type Entry = (u8, u32);

/// Six sizes as written and the entries. Nothing is checked here: the same type
/// carries faulty schedules.
#[derive(Clone, Debug, PartialEq, Eq)]
pub struct Draft {
    pub sizes: [u32; 6],
    pub entries: Vec<Entry>,
}

impl Draft {
    pub fn new(sizes: [u32; 6]) -> Self {
        Draft::with(sizes, &[])
    }

    pub fn with(sizes: [u32; 6], entries: &[Entry]) -> Self {
        Draft {
            sizes,
            entries: entries.to_vec(),
        }
    }

    /// An accepted file as the reference reads it.
    pub fn of_accepted(file: &[u8]) -> Self {
        let read = reference::read(file).expect("the file is accepted");
        Draft {
            sizes: in_file_order(&read.sizes),
            entries: read.kinds.into_iter().zip(read.operands).collect(),
        }
    }

    pub fn kinds(&self) -> Vec<u8> {
        self.entries.iter().map(|entry| entry.0).collect()
    }

    pub fn operands(&self) -> Vec<u32> {
        self.entries.iter().map(|entry| entry.1).collect()
    }

    pub fn bytes(&self) -> Vec<u8> {
        let entries = u32::try_from(self.entries.len()).expect("a draft is short");
        assemble(&self.sizes, entries, &self.kinds(), &self.operands())
    }

    /// The outcomes that the reference gives to the entries of a sound draft.
    pub fn outcomes(&self, queue: Queue) -> Vec<u8> {
        let entries = self.entries.len();
        let mut trace = vec![0; trace_room(entries)];
        let answer = (REFERENCE.run)(queue, &self.bytes(), &mut trace, &mut [0; TOTALS_ROOM]);
        assert!(!answer.is_refused(), "the draft is sound");
        trace[4..4 + entries].to_vec()
    }

    pub fn has_enough_margin(&self) -> bool {
        self.margin_in_use() >= self.needed_margin()
    }

    pub fn margin_in_use(&self) -> u32 {
        match self.sizes[MARGIN] {
            0 => self.sizes[BUFFER],
            margin => margin,
        }
    }

    pub fn needed_margin(&self) -> u32 {
        reference::needed_margin(self.sizes[BUFFER], self.sizes[SPACING])
    }
}

/// The bytes of a trace.
pub const fn trace_room(entries: usize) -> usize {
    4 + 5 * entries
}

/// The bytes of a file whose parts need not fit one another.
pub fn assemble(sizes: &[u32; 6], entries: u32, kinds: &[u8], operands: &[u32]) -> Vec<u8> {
    let mut file = Vec::with_capacity(HEADER + kinds.len() + 4 * operands.len());
    for size in sizes.iter().chain([&entries]) {
        file.extend_from_slice(&size.to_le_bytes());
    }
    file.extend_from_slice(kinds);
    for operand in operands {
        file.extend_from_slice(&operand.to_le_bytes());
    }
    file
}

/// Four bytes as a number, least significant first.
pub fn number_at(bytes: &[u8]) -> u32 {
    u32::from_le_bytes(bytes.try_into().expect("four bytes make a number"))
}
