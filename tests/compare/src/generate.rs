//! Random sound schedules that mostly make progress.
//!
//! Entries are drawn with no thought of what the machine can do. The reference
//! then runs them with one of the queues, and most of those that got 5, 6 or 7 are
//! swept out: each left the machine as it was, so the others keep their outcomes.
//! No comparison rests on that run; an error in it could only make the schedules
//! duller. With the other queue they are somewhat duller anyway.

use crate::queue::{Queue, QUEUES};
use crate::random::Random;
use crate::schedule::{
    Draft, BEGIN_PUT, BEGIN_STEAL, BEGIN_TAKE, BUFFER, CLIENT_STORE, DRAIN, EARLY, LAST_INDEX,
    MARGIN, MOST_ENTRIES, PLACE, SLOTS, SPACING, THIEF_STEP, THIEVES, WAIT, WORKER_STEP,
};

/// What is drawn. Shares are out of a thousand.
#[derive(Clone, Copy)]
pub struct Lean {
    drain: u32,
    /// A thief's entry rather than the worker's.
    thief: u32,
    /// A take rather than a put.
    take: u32,
}

/// Leanings in turn, and how much is kept of what did nothing.
#[derive(Clone, Copy)]
pub struct Flavour {
    leans: &'static [Lean],
    /// Of the entries that get PLACE.
    noise: u32,
    /// Of those that get EARLY or WAIT.
    stubborn: u32,
}

/// A change to the next leaning.
const TURN: u32 = 10;
/// A client store where the worker begins something.
const CLIENT: u32 = 60;
/// Sizes that bring the parties close together.
const CLOSE: u32 = 150;
/// After so many sweeps, what is still missing stays as it is drawn.
const SWEEPS: usize = 32;

const BALANCED: &[Lean] = &[lean(145, 300, 450)];
/// Puts that reach memory, takes that don't, and thieves who see older tails.
const AMBUSH: &[Lean] = &[lean(300, 0, 0), lean(0, 0, 1000), lean(0, 1000, 0)];

const FLAVOURS: [Flavour; 11] = [
    progressing(BALANCED),
    progressing(BALANCED),
    progressing(AMBUSH),
    progressing(AMBUSH),
    // Puts to the brim, then takes to the bottom.
    progressing(&[lean(145, 300, 30), lean(145, 300, 970)]),
    // A queue that is hardly ever filled.
    progressing(&[lean(145, 400, 750)]),
    // Stores that stay pending while the list has a place.
    progressing(&[lean(60, 300, 450)]),
    // Stores that reach memory nearly at once.
    progressing(&[lean(480, 300, 450)]),
    // Thieves in each other's way.
    progressing(&[lean(145, 700, 450)]),
    // Steps that insist although their need isn't met.
    flavour(BALANCED, 10, 400),
    // No sense at all.
    flavour(BALANCED, 1000, 1000),
];

/// Drains, thieves' entries, takes.
pub const fn lean(drain: u32, thief: u32, take: u32) -> Lean {
    Lean { drain, thief, take }
}

/// Leanings, and what is kept of PLACE, and of EARLY and WAIT.
pub const fn flavour(leans: &'static [Lean], noise: u32, stubborn: u32) -> Flavour {
    Flavour {
        leans,
        noise,
        stubborn,
    }
}

const fn progressing(leans: &'static [Lean]) -> Flavour {
    flavour(leans, 10, 30)
}

/// A sound schedule of `length` entries for either queue.
pub fn schedule(length: usize, random: &mut Random) -> Draft {
    let queue = random.pick(&QUEUES);
    schedule_for(queue, length, random)
}

/// A sound schedule that makes progress with one queue.
pub fn schedule_for(queue: Queue, length: usize, random: &mut Random) -> Draft {
    let flavour = random.pick(&FLAVOURS);
    flavoured(queue, sizes(random), &flavour, length, random)
}

/// The same with enough margin, for the queue with a lock.
pub fn with_enough_margin(length: usize, random: &mut Random) -> Draft {
    let flavour = random.pick(&FLAVOURS);
    let sizes = enough_sizes(random);
    flavoured(Queue::Locking, sizes, &flavour, length, random)
}

/// A sound schedule of given sizes and flavour.
pub fn flavoured(
    queue: Queue,
    sizes: [u32; 6],
    flavour: &Flavour,
    length: usize,
    random: &mut Random,
) -> Draft {
    let mut drawing = Drawing {
        queue,
        draft: Draft::new(sizes),
        swept: 0,
        flavour,
        lean: 0,
        random,
    };
    // Most of what is drawn goes, so some more of it needs fewer sweeps.
    let ahead = MOST_ENTRIES.min(2 * length);
    for _ in 0..SWEEPS {
        if drawing.swept >= length {
            break;
        }
        drawing.fill(ahead);
        drawing.sweep();
    }
    drawing.fill(length);
    drawing.draft
}

struct Drawing<'a> {
    queue: Queue,
    draft: Draft,
    /// Entries that stay, whatever follows.
    swept: usize,
    flavour: &'a Flavour,
    /// The place of the present leaning.
    lean: usize,
    random: &'a mut Random,
}

impl Drawing<'_> {
    /// Draws until there are `length` entries, and leaves out what is beyond.
    fn fill(&mut self, length: usize) {
        while self.draft.entries.len() < length {
            self.draw();
        }
        self.draft.entries.truncate(length);
    }

    fn draw(&mut self) {
        if self.random.chance(TURN) {
            self.lean = (self.lean + 1) % self.flavour.leans.len();
        }
        let lean = self.flavour.leans[self.lean];
        if self.random.chance(lean.drain) {
            self.push(DRAIN, 0);
        } else if self.random.chance(lean.thief) {
            let kind = self.random.pick(&[BEGIN_STEAL, THIEF_STEP]);
            let thief = self.random.below(self.draft.sizes[THIEVES]);
            self.push(kind, thief);
        } else if self.random.chance(500) {
            self.push(WORKER_STEP, 0);
        } else {
            self.begin(lean);
        }
    }

    fn begin(&mut self, lean: Lean) {
        if self.random.chance(CLIENT) {
            self.push(CLIENT_STORE, 0);
        } else if self.random.chance(lean.take) {
            self.push(BEGIN_TAKE, 0);
            // Only a take that is early leaves the worker free for this one.
            if self.draft.sizes[SPACING] > 0 {
                self.push(CLIENT_STORE, 0);
            }
        } else {
            let task = task(self.random);
            self.push(BEGIN_PUT, task);
        }
    }

    fn push(&mut self, kind: u8, operand: u32) {
        self.draft.entries.push((kind, operand));
    }

    /// Leaves out most of the new entries that did nothing.
    fn sweep(&mut self) {
        let outcomes = self.draft.outcomes(self.queue);
        let mut place = 0;
        self.draft.entries.retain(|_| {
            let share = match outcomes[place] {
                _ if place < self.swept => 1000,
                PLACE => self.flavour.noise,
                EARLY | WAIT => self.flavour.stubborn,
                _ => 1000,
            };
            place += 1;
            self.random.chance(share)
        });
        self.swept = self.draft.entries.len();
    }
}

/// Few different numbers, so that equal ones meet, and some wide ones.
pub fn task(random: &mut Random) -> u32 {
    match random.below(4) {
        0 => random.below(4),
        1 | 2 => random.between(1, 1000),
        _ => random.number(),
    }
}

/// Sizes in range.
pub fn sizes(random: &mut Random) -> [u32; 6] {
    if random.chance(CLOSE) {
        return close_sizes(random);
    }
    let buffer = buffer(random);
    let spacing = spacing(buffer, random);
    let margin = margin(reference::needed_margin(buffer, spacing), random);
    let slots = slots(if margin == 0 { buffer } else { margin }, random);
    let any = random.between(1, 8);
    let thieves = random.pick(&[1, any.min(3), any, 8]);
    let start = start(slots, random);
    [slots, buffer, spacing, margin, thieves, start]
}

/// Sizes in range with a margin of 1, enough or not: a thief steals one block of
/// two, so that it and the worker often meet at the last one.
fn close_sizes(random: &mut Random) -> [u32; 6] {
    let buffer = random.between(1, 4);
    let spacing = random.pick(&[0, buffer - 1]);
    let slots = random.between(2, 6);
    let start = start(slots, random);
    [slots, buffer, spacing, 1, random.between(1, 3), start]
}

/// Sizes in range whose margin is enough, mostly just enough.
fn enough_sizes(random: &mut Random) -> [u32; 6] {
    let mut sizes = sizes(random);
    let buffer = sizes[BUFFER];
    let needed = reference::needed_margin(buffer, sizes[SPACING]);
    let more = random.between(needed, 64);
    let margin = random.pick(&[needed, needed, needed, more, 0]);
    sizes[MARGIN] = margin;
    sizes[SLOTS] = slots(if margin == 0 { buffer } else { margin }, random);
    sizes
}

fn buffer(random: &mut Random) -> u32 {
    match random.below(10) {
        0 => 1,
        1..=6 => random.between(2, 8),
        7 | 8 => random.between(1, 64),
        _ => 64,
    }
}

fn spacing(buffer: u32, random: &mut Random) -> u32 {
    match random.below(10) {
        0..=3 => 0,
        4..=7 => random.between(1, 4),
        8 => random.between(0, 63),
        _ => random.between(0, buffer.min(63)),
    }
}

/// The needed margin and its neighbours most of the time.
fn margin(needed: u32, random: &mut Random) -> u32 {
    match random.below(8) {
        0 => 0,
        1..=3 => needed,
        4 => needed - 1,
        5 | 6 => random.between(1, needed),
        _ => random.between(needed, 64),
    }
}

/// Often just above the margin, because with fewer no steal succeeds and with
/// many no put is FULL.
fn slots(margin: u32, random: &mut Random) -> u32 {
    match random.below(10) {
        0 | 1 => random.between(2, 3),
        2 => random.between(4, 12),
        3..=7 => margin + random.between(2, 10),
        8 => random.between(2, 256),
        _ => 256,
    }
}

/// Zero, near the last index, or anywhere.
fn start(slots: u32, random: &mut Random) -> u32 {
    match random.below(16) {
        0..=6 => 0,
        7 | 8 => random.between(1, 300),
        9 | 10 => LAST_INDEX - random.below(slots + 4),
        11 => LAST_INDEX - random.below(3),
        _ => random.between(0, LAST_INDEX),
    }
}
