//! Memory lent to an operation, filled with a pattern and fenced by guards, so
//! that a byte written where none may be written is seen.

use crate::random::Random;

/// The least length of a guard.
const GUARD: usize = 32;

pub struct Lent {
    bytes: Vec<u8>,
    pattern: u64,
    /// Where the room begins. It moves with the pattern, so that the lent
    /// memory isn't always aligned.
    begin: usize,
}

impl Lent {
    /// `room` bytes between two guards. Another `pattern` gives other bytes, so
    /// no fixed content passes for "untouched" twice.
    pub fn new(room: usize, pattern: u64) -> Self {
        let begin = GUARD + (pattern % 8) as usize;
        let bytes = patterned(begin + room + GUARD, pattern);
        Lent {
            bytes,
            pattern,
            begin,
        }
    }

    /// What is lent.
    pub fn room(&mut self) -> &mut [u8] {
        let end = self.bytes.len() - GUARD;
        &mut self.bytes[self.begin..end]
    }

    pub fn content(&self) -> &[u8] {
        &self.bytes[self.begin..self.bytes.len() - GUARD]
    }

    /// Whether the guards and all of the room from `used` on are as they were.
    pub fn untouched_beyond(&self, used: usize) -> bool {
        let fresh = patterned(self.bytes.len(), self.pattern);
        let (before, from) = (self.begin, self.begin + used);
        self.bytes[..before] == fresh[..before] && self.bytes[from..] == fresh[from..]
    }

    pub fn untouched(&self) -> bool {
        self.untouched_beyond(0)
    }

    /// Where two lent memories first differ, counted from the start of the room,
    /// and what each has there.
    pub fn first_difference(&self, other: &Lent) -> Option<(isize, u8, u8)> {
        let mut pairs = self.bytes.iter().zip(&other.bytes);
        let place = pairs.position(|(one, two)| one != two)?;
        let from_room = place as isize - self.begin as isize;
        Some((from_room, self.bytes[place], other.bytes[place]))
    }
}

fn patterned(length: usize, pattern: u64) -> Vec<u8> {
    let mut random = Random::new(pattern);
    let mut bytes = Vec::with_capacity(length + 8);
    while bytes.len() < length {
        bytes.extend_from_slice(&random.word().to_le_bytes());
    }
    bytes.truncate(length);
    bytes
}
