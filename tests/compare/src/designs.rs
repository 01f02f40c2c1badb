//! Designs: random schedules with enough margin that put no block twice, so that
//! their share sheets are written; then the same with faults, alone and in
//! pairs, for the order of the checks.

use crate::checks::{Case, Ran, Verdict};
use crate::faults::{spoil, Fault, FAULTS};
use crate::queue::Queue;
use crate::random::Random;
use crate::schedule::{Draft, BEGIN_PUT, DRAIN, FULL, MOST_ENTRIES, PLACE, WORKER_STEP};
use crate::sheets::{self, sheet_room, MOST_BLOCKS};
use crate::tally::{Count, Tally};
use crate::{generate, plain};

/// Begin puts, out of a thousand, that another follows at once, out of place.
const OUT_OF_PLACE: u32 = 30;
/// Bad blocks that each design is given beside one of every fault, because a
/// block can be bad in several ways.
const BLOCKS: usize = 5;
/// Pairs of faults that each design is given.
const PAIRS: usize = 8;

/// A design through all comparisons, and with faults through that of share
/// sheets.
pub fn examine(length: usize, random: &mut Random, tally: &mut Tally) -> Verdict {
    tally.count(Count::Designs);
    let length = random.pick(&[length, 4 * length]);
    let design = Design::new(length.clamp(1, MOST_ENTRIES), random);
    let file = design.file();
    let case = Case::new(&file, random.word());
    let runs = case.accepted(tally)?;
    plain::examine(&file, &runs, tally)?;
    let ran = &runs[Queue::Locking];
    design.hold_written(&case, ran, tally)?;

    for fault in FAULTS.into_iter().chain([Fault::Block; BLOCKS]) {
        design.hold_faults(&[fault], ran, random, tally)?;
    }
    for _ in 0..PAIRS {
        let pair = [random.pick(&FAULTS), random.pick(&FAULTS)];
        design.hold_faults(&pair, ran, random, tally)?;
    }
    Ok(())
}

/// A schedule, and what is asked and lent for its sheet.
#[derive(Clone)]
pub struct Design {
    pub draft: Draft,
    /// Bytes that the file has too many or, below 0, too few.
    pub excess: isize,
    pub count: u32,
    pub room: usize,
}

impl Design {
    /// As it should be, with one put at least.
    fn new(length: usize, random: &mut Random) -> Self {
        let mut draft = generate::with_enough_margin(length, random);
        draft.entries[0].0 = BEGIN_PUT;
        out_of_place(&mut draft, random);
        let mut puts = puts(&draft);
        let least = puts.len().min(MOST_BLOCKS as usize);
        for surplus in puts.drain(least..) {
            draft.entries[surplus] = (DRAIN, 0);
        }
        let more = random.between(least as u32, MOST_BLOCKS);
        let count = random.pick(&[least as u32, more, MOST_BLOCKS]);
        let mut blocks: Vec<u32> = (1..=count).collect();
        for put in puts {
            draft.entries[put].1 = blocks.swap_remove(random.place(blocks.len()));
        }
        Design {
            draft,
            excess: 0,
            count,
            room: sheet_room(count) + random.pick(&[0, 1, 40]),
        }
    }

    fn file(&self) -> Vec<u8> {
        let mut file = self.draft.bytes();
        file.resize(file.len().saturating_add_signed(self.excess), 0);
        file
    }

    fn hold_written(&self, case: &Case, ran: &Ran, tally: &mut Tally) -> Verdict {
        let sheet = sheets::ask(case, self.count, self.room, tally)?;
        let sheet = sheet.map_err(|refusal| {
            let count = self.count;
            case.disagreement(format!("sheet of {count} blocks is refused: {refusal:?}"))
        })?;
        sheets::hold_sheet(case, &sheet, &self.draft, ran, tally)
    }

    /// With faults the sheet is refused for the one that is looked for first.
    fn hold_faults(
        &self,
        faults: &[Fault],
        ran: &Ran,
        random: &mut Random,
        tally: &mut Tally,
    ) -> Verdict {
        let mut design = self.clone();
        let expected = spoil(&mut design, faults, &ran.outcomes, random);
        let file = design.file();
        let case = Case::new(&file, random.word());
        sheets::hold(&case, design.count, design.room, Err(expected), tally)?;
        if expected.number == sheets::BLOCK {
            design.count_repeated(expected.low as usize, &ran.outcomes, tally);
        }
        Ok(())
    }

    /// Counts what a put came to that is refused for a block used before.
    fn count_repeated(&self, place: usize, outcomes: &[u8], tally: &mut Tally) {
        if !(1..=self.count).contains(&self.draft.entries[place].1) {
            return;
        }
        match fate(&self.draft, outcomes, place) {
            PLACE => tally.count(Count::RepeatedOutOfPlace),
            FULL => tally.count(Count::RepeatedWhenFull),
            _ => {}
        }
    }
}

/// Right behind a begin put another one is out of place.
fn out_of_place(draft: &mut Draft, random: &mut Random) {
    for place in puts(draft) {
        if let Some(next) = draft.entries.get_mut(place + 1) {
            if random.chance(OUT_OF_PLACE) {
                next.0 = BEGIN_PUT;
            }
        }
    }
}

/// The places of all begin puts.
pub fn puts(draft: &Draft) -> Vec<usize> {
    let places = 0..draft.entries.len();
    places
        .filter(|&place| draft.entries[place].0 == BEGIN_PUT)
        .collect()
}

/// What becomes of a begin put: its own outcome where that is PLACE, else that of
/// the put's first step, if there is one.
pub fn fate(draft: &Draft, outcomes: &[u8], place: usize) -> u8 {
    let mut after = place + 1..outcomes.len();
    let step = after.find(|&after| draft.entries[after].0 == WORKER_STEP);
    match (outcomes[place], step) {
        (PLACE, _) | (_, None) => outcomes[place],
        (_, Some(step)) => outcomes[step],
    }
}
