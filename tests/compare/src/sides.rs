//! Both implementations in one shape, so that each comparison is written once.

use reference::{Refusal, Sizes, Totals};

use crate::ffi;
use crate::queue::Queue;

/// Bytes that must be lent for the six sizes, and for the three totals and hidden: given,
/// aborts, waits and hidden.
pub const SIZES_ROOM: usize = 24;
pub const TOTALS_ROOM: usize = 16;

/// What an operation answers: refusal number 0 with a value, or a refusal
/// number with its place.
#[derive(Clone, Copy, Debug, PartialEq, Eq)]
pub struct Answer {
    pub number: u32,
    /// The value where nothing is refused, else the place.
    pub low: u32,
}

impl Answer {
    pub const fn value(value: u32) -> Self {
        Answer {
            number: 0,
            low: value,
        }
    }

    pub const fn refused(number: u32, place: u32) -> Self {
        Answer { number, low: place }
    }

    pub const fn is_refused(self) -> bool {
        self.number != 0
    }

    /// Takes an exported function's answer apart: the number stands in the high half.
    pub const fn unpack(answer: u64) -> Self {
        Answer {
            number: (answer >> 32) as u32,
            low: answer as u32,
        }
    }

    fn of(result: Result<usize, Refusal>) -> Self {
        match result {
            Ok(value) => Answer::value(u32::try_from(value).expect("no value is that large")),
            Err(refusal) => Answer::refused(refusal.number, refusal.place),
        }
    }
}

/// The queue, the file and the memory for the trace and the totals.
pub type Run = fn(Queue, &[u8], &mut [u8], &mut [u8]) -> Answer;

/// Sizes, kinds, operands and the memory for the file.
pub type Write = fn(&[u32; 6], &[u8], &[u32], &mut [u8]) -> Answer;

/// One implementation. Lent memory and answers follow the rules of the exported functions.
pub struct Side {
    pub name: &'static str,
    pub read: fn(&[u8], &mut [u8]) -> Answer,
    pub run: Run,
    pub alike: fn(&[u8], &[u8]) -> Answer,
    pub write: Write,
    pub share_sheet: fn(&[u8], u32, &mut [u8]) -> Answer,
    pub needed_margin: fn(u32, u32) -> u32,
}

/// The proved implementation, by its exported functions.
pub static PROVED: Side = Side {
    name: "proved",
    read: ffi::read,
    run: ffi::run,
    alike: ffi::alike,
    write: ffi::write,
    share_sheet: ffi::share_sheet,
    needed_margin: ffi::needed_margin,
};

/// The independent implementation.
pub static REFERENCE: Side = Side {
    name: "reference",
    read: reference_read,
    run: reference_run,
    alike: reference_alike,
    write: reference_write,
    share_sheet: reference_share_sheet,
    needed_margin: reference::needed_margin,
};

fn reference_read(file: &[u8], sizes: &mut [u8]) -> Answer {
    const ROOM: Refusal = Refusal {
        number: 8,
        place: 0,
    };
    Answer::of(reference::read(file).and_then(|read| {
        let lent = sizes.get_mut(..SIZES_ROOM).ok_or(ROOM)?;
        put_numbers(lent, &in_file_order(&read.sizes));
        Ok(read.kinds.len())
    }))
}

/// Too few bytes for the totals are refused as too few for the trace are, so
/// such a run is given none of it.
fn reference_run(queue: Queue, file: &[u8], trace: &mut [u8], totals: &mut [u8]) -> Answer {
    let run = match queue {
        Queue::Locking => reference::run,
        Queue::Swapping => reference::run_cas,
    };
    let short = totals.len() < TOTALS_ROOM;
    let trace = if short { &mut [] } else { trace };
    Answer::of(run(file, trace).map(|ran| {
        let Totals {
            given,
            aborts,
            waits,
        } = ran.totals;
        put_numbers(totals, &[given, aborts, waits, ran.hidden]);
        0
    }))
}

fn reference_alike(first: &[u8], second: &[u8]) -> Answer {
    Answer::of(reference::alike(first, second).map(usize::from))
}

fn reference_write(sizes: &[u32; 6], kinds: &[u8], operands: &[u32], file: &mut [u8]) -> Answer {
    let sizes = from_file_order(sizes);
    Answer::of(reference::write(&sizes, kinds, operands, file))
}

fn reference_share_sheet(file: &[u8], count: u32, sheet: &mut [u8]) -> Answer {
    Answer::of(reference::share_sheet(file, count, sheet))
}

pub fn from_file_order(sizes: &[u32; 6]) -> Sizes {
    let [slots, buffer, spacing, margin, thieves, start] = *sizes;
    Sizes {
        slots,
        buffer,
        spacing,
        margin,
        thieves,
        start,
    }
}

pub fn in_file_order(sizes: &Sizes) -> [u32; 6] {
    let Sizes {
        slots,
        buffer,
        spacing,
        margin,
        thieves,
        start,
    } = *sizes;
    [slots, buffer, spacing, margin, thieves, start]
}

fn put_numbers(lent: &mut [u8], numbers: &[u32]) {
    for (place, number) in lent.chunks_exact_mut(4).zip(numbers) {
        place.copy_from_slice(&number.to_le_bytes());
    }
}
