//! What can be wrong with a design, from its file to the memory for its sheet.

use reference::needed_margin;

use crate::checks::NO_ROOM;
use crate::designs::{fate, puts, Design};
use crate::edges::SHORT;
use crate::random::Random;
use crate::schedule::{
    BEGIN_STEAL, BEGIN_TAKE, BUFFER, CLIENT_STORE, DRAIN, FULL, MARGIN, MOVED, PLACE, RANGES,
    SPACING, THIEF_STEP, THIEVES, WORKER_STEP,
};
use crate::sheets::{self, sheet_room};
use crate::sides::Answer;

/// Faults in the order in which they are looked for.
#[derive(Clone, Copy, PartialEq, Eq, PartialOrd, Ord)]
pub enum Fault {
    Size,
    Length,
    Entry,
    Count,
    Margin,
    Block,
    Room,
}

pub const FAULTS: [Fault; 7] = [
    Fault::Size,
    Fault::Length,
    Fault::Entry,
    Fault::Count,
    Fault::Margin,
    Fault::Block,
    Fault::Room,
];

/// Adds faults to a design that is sound; tells how its sheet is refused. The
/// outcomes are those of its run.
pub fn spoil(
    design: &mut Design,
    faults: &[Fault],
    outcomes: &[u8],
    random: &mut Random,
) -> Answer {
    let mut faults = faults.to_vec();
    faults.sort();
    let mut spoiling = Spoiling {
        design,
        outcomes,
        random,
    };
    let mut told: Option<(Fault, Answer)> = None;
    // What is looked for first is added last, so that nothing undoes it.
    for &fault in faults.iter().rev() {
        let next = spoiling.add(fault);
        // Of two faults of one sort the one at the lower place is told.
        let earlier = told.filter(|one| one.0 == fault && one.1.low < next.low);
        told = earlier.or(Some((fault, next)));
    }
    told.expect("a fault is added").1
}

struct Spoiling<'a> {
    design: &'a mut Design,
    outcomes: &'a [u8],
    random: &'a mut Random,
}

impl Spoiling<'_> {
    /// Adds a fault; tells how the sheet is refused for it.
    fn add(&mut self, fault: Fault) -> Answer {
        match fault {
            Fault::Size => self.size(),
            Fault::Length => self.length(),
            Fault::Entry => self.entry(),
            Fault::Count => self.count(),
            Fault::Margin => self.margin(),
            Fault::Block => self.block(),
            Fault::Room => self.room(),
        }
    }

    fn size(&mut self) -> Answer {
        let place = self.random.place(6);
        let (low, high) = RANGES[place];
        let past = [low.wrapping_sub(1), high + 1, u32::MAX];
        self.design.draft.sizes[place] = self.random.pick(&past);
        Answer::refused(1, place as u32)
    }

    /// Not under 28 bytes, for that is looked for before the sizes.
    fn length(&mut self) -> Answer {
        self.design.excess = self.random.pick(&[-5, -4, -1, 1, 4, 5]);
        SHORT
    }

    fn entry(&mut self) -> Answer {
        let draft = &mut self.design.draft;
        let place = self.random.place(draft.entries.len());
        let kinds = [DRAIN, CLIENT_STORE, BEGIN_TAKE, WORKER_STEP];
        let worker = self.random.pick(&kinds);
        let thief = self.random.pick(&[BEGIN_STEAL, THIEF_STEP]);
        let (number, entry) = self.random.pick(&[
            (3, (7, 0)),
            (3, (255, 1)),
            (4, (worker, 1)),
            (4, (thief, draft.sizes[THIEVES])),
        ]);
        draft.entries[place] = entry;
        Answer::refused(number, place as u32)
    }

    /// Past the range; most are the count in their lowest byte.
    fn count(&mut self) -> Answer {
        let low = self.design.count & 255;
        let past = [0, 256, 256 + low, 1 << 16 | low, 1 << 24 | low, u32::MAX];
        self.design.count = self.random.pick(&past);
        sheets::COUNT
    }

    fn margin(&mut self) -> Answer {
        let sizes = &mut self.design.draft.sizes;
        if needed_margin(sizes[BUFFER], sizes[SPACING]) == 1 {
            // No margin is less, for 0 stands for the buffer.
            sizes[BUFFER] = self.random.between(2, 64);
            sizes[SPACING] = self.random.below(sizes[BUFFER] - 1);
        }
        let needed = needed_margin(sizes[BUFFER], sizes[SPACING]);
        let less = self.random.between(1, needed - 1);
        sizes[MARGIN] = self.random.pick(&[needed - 1, less]);
        sheets::MARGIN
    }

    fn block(&mut self) -> Answer {
        let puts = puts(&self.design.draft);
        let place = match self.random.below(6) {
            0 => self.no_block(&puts),
            1 => self.above(&puts),
            2 => self.count_below(&puts),
            _ => self.repeated(&puts),
        };
        sheets::bad_block(place)
    }

    fn no_block(&mut self, puts: &[usize]) -> usize {
        let place = self.random.pick(puts);
        self.design.draft.entries[place].1 = 0;
        place
    }

    /// Most are the right block in their lowest byte.
    fn above(&mut self, puts: &[usize]) -> usize {
        let place = self.random.pick(puts);
        let block = &mut self.design.draft.entries[place].1;
        let low = *block & 255;
        let next = self.design.count + 1;
        let above = [next, 256 | low, 1 << 16 | low, 1 << 24 | low, u32::MAX];
        *block = self.random.pick(&above);
        place
    }

    /// A count one less than the largest of its blocks.
    fn count_below(&mut self, puts: &[usize]) -> usize {
        let entries = &self.design.draft.entries;
        let counted = |place: &&usize| (2..=self.design.count).contains(&entries[**place].1);
        let Some(&place) = puts
            .iter()
            .filter(counted)
            .max_by_key(|place| (entries[**place].1, usize::MAX - **place))
        else {
            return self.no_block(puts);
        };
        self.design.count = entries[place].1 - 1;
        place
    }

    /// A block that was used before, if there can be one: by a put that goes on,
    /// or a begin out of place, or a put that finds the queue full.
    fn repeated(&mut self, puts: &[usize]) -> usize {
        let wanted = self.random.pick(&[MOVED, PLACE, FULL]);
        let draft = &mut self.design.draft;
        let later = || 1..puts.len();
        let such = later().filter(|&put| fate(draft, self.outcomes, puts[put]) == wanted);
        let mut such: Vec<usize> = such.collect();
        if such.is_empty() {
            such = later().collect();
        }
        if such.is_empty() {
            return self.no_block(puts);
        }
        let put = self.random.pick(&such);
        let earlier = puts[self.random.place(put)];
        draft.entries[puts[put]].1 = draft.entries[earlier].1;
        puts[put]
    }

    fn room(&mut self) -> Answer {
        let needed = sheet_room(self.design.count);
        let less = self.random.place(needed);
        self.design.room = self
            .random
            .pick(&[needed - 1, needed - 1, needed - 5, less]);
        NO_ROOM
    }
}
