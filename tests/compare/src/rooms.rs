//! Lent memory that is too short, exact or longer than needed.

use crate::checks::{on, Case, Verdict, NO_ROOM};
use crate::edges::{drains, SHORT};
use crate::lent::Lent;
use crate::queue::{Queue, QUEUES};
use crate::schedule::{trace_room, MOST_ENTRIES};
use crate::sides::{Answer, SIZES_ROOM, TOTALS_ROOM};
use crate::tally::Tally;

/// A file, and the bytes lent with it.
pub struct Rooms {
    file: Vec<u8>,
    /// What reading it answers where there is room.
    read: Answer,
    sizes: usize,
    trace: usize,
    totals: usize,
}

/// Each room around what it must have, alone and together with the others.
pub fn all() -> Vec<Rooms> {
    let mut all = Vec::new();
    for entries in [0, 1, 2, 7, 255, MOST_ENTRIES] {
        let needed = trace_room(entries);
        for trace in [0, 1, needed - 1, needed, needed + 1, needed + 300] {
            for (sizes, totals) in [
                (0, 0),
                (SIZES_ROOM - 1, TOTALS_ROOM - 1),
                (SIZES_ROOM, TOTALS_ROOM),
                (SIZES_ROOM + 1, TOTALS_ROOM + 1),
            ] {
                all.push(Rooms::accepted(entries, sizes, trace, totals));
            }
        }
    }
    for room in 0..=32 {
        all.push(Rooms::accepted(3, room, trace_room(3), room));
        all.push(Rooms::refused(room));
    }
    all
}

impl Rooms {
    fn accepted(entries: usize, sizes: usize, trace: usize, totals: usize) -> Self {
        Rooms {
            file: drains(entries),
            read: Answer::value(entries as u32),
            sizes,
            trace,
            totals,
        }
    }

    fn refused(room: usize) -> Self {
        Rooms {
            file: vec![255; 27],
            read: SHORT,
            sizes: room,
            trace: room,
            totals: room,
        }
    }

    pub fn hold(&self, _: &mut Tally) -> Verdict {
        let case = Case::new(&self.file, (self.sizes + 7 * self.trace) as u64);
        let (answer, sizes) = case.read(self.sizes)?;
        let fits = self.sizes >= SIZES_ROOM;
        case.hold("read", self.expected(fits, self.read), answer)?;
        hold_left(&case, answer, [(&sizes, SIZES_ROOM)])?;
        for queue in QUEUES {
            self.hold_run(queue, &case).map_err(on(queue))?;
        }
        Ok(())
    }

    fn hold_run(&self, queue: Queue, case: &Case) -> Verdict {
        let needed = trace_room(self.read.low as usize);
        let (answer, [trace, totals]) = case.raw_run(queue, [self.trace, self.totals])?;
        let fits = self.trace >= needed && self.totals >= TOTALS_ROOM;
        case.hold("run", self.expected(fits, Answer::value(0)), answer)?;
        hold_left(case, answer, [(&trace, needed), (&totals, TOTALS_ROOM)])
    }

    /// Too little room is refused after every fault of the file.
    fn expected(&self, fits: bool, answer: Answer) -> Answer {
        match self.read {
            refusal if refusal.is_refused() => refusal,
            _ if fits => answer,
            _ => NO_ROOM,
        }
    }
}

/// Nothing beyond the bytes that an answer takes is touched, and nothing at all
/// by a refusal.
fn hold_left<const N: usize>(case: &Case, answer: Answer, lent: [(&Lent, usize); N]) -> Verdict {
    let left = |(lent, needed): (&Lent, usize)| {
        lent.untouched_beyond(if answer.is_refused() { 0 } else { needed })
    };
    case.hold("lent memory beyond", true, lent.into_iter().all(left))
}
