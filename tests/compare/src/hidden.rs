//! The takes that are hidden after single steps: their stores of the tail, by
//! which they begin, are pending. All steps on one machine are held beside one
//! another; how many it is after each, only the two sides tell.

use std::ops::RangeInclusive;

use crate::checks::{Case, Verdict};
use crate::image::Image;
use crate::operations::Stepped;
use crate::schedule::{BEGIN_PUT, DRAIN, EARLY, PLACE, WAIT, WORKER_STEP};
use crate::tally::{Count, Tally};

/// What both sides made of a step.
pub struct Made {
    kind: u8,
    pub outcome: u8,
    hidden: u32,
    /// Said of the machine that is handed back.
    in_range: bool,
}

impl Made {
    pub fn of(kind: u8, stepped: &Stepped) -> Self {
        let &(outcome, _, _, hidden, ref after) = stepped;
        Made {
            kind,
            outcome,
            hidden,
            in_range: is_in_range(after),
        }
    }

    /// Whether the machine that is handed back is the one that was handed in.
    pub fn is_refused(&self) -> bool {
        matches!(self.outcome, PLACE | EARLY | WAIT)
    }

    /// A take is hidden by a pending store of the tail, and no machine out of
    /// range tells of one.
    pub fn sound(&self, case: &Case, after: &Image) -> Verdict {
        let most = if self.in_range {
            after.pending_tails()
        } else {
            0
        };
        let beyond = (self.hidden as usize).saturating_sub(most);
        case.hold("takes hidden beyond the tails pending", 0, beyond)
    }

    /// How many takes can be hidden afterwards, `before` having been so.
    fn possible(&self, before: u32) -> RangeInclusive<u32> {
        match self.kind {
            _ if !self.in_range => 0..=0,
            _ if self.is_refused() => before..=before,
            DRAIN => before.saturating_sub(1)..=before,
            WORKER_STEP => before..=before + 1,
            _ => before..=before,
        }
    }

    fn count(&self, before: u32, tally: &mut Tally) {
        let led_out = !self.in_range && !self.is_refused();
        tally.count_seen([
            (Count::OneHandedOn, self.hidden == 1),
            (Count::MoreHandedOn, self.hidden > 1),
            (Count::AnotherHandedOn, self.hidden > before),
            (
                Count::OneDrained,
                self.kind == DRAIN && self.hidden < before,
            ),
            (Count::LedOutHiding, led_out && before > 0),
        ]);
    }
}

/// Holds all kinds of steps on one machine to what they can hide and drain.
pub fn hold(machine: &Image, all: &[Made], tally: &mut Tally) -> Verdict {
    let image = machine.bytes();
    let case = Case::new(&image, 0);
    // A worker with a call begins none, and one without has no step to make: the
    // machine as it was is told of by one of them.
    let refused = all.iter().find(|made| made.is_refused());
    let before = refused.expect("some kind of step is refused").hidden;
    for made in all {
        let Made { kind, hidden, .. } = *made;
        let what = format!("{hidden} takes hidden after kind {kind}, {before} before, possible");
        let possible = made.possible(before).contains(&hidden);
        let held = case.hold(&what, true, possible);
        held.map_err(|found| found.of(&format!("on {machine}")))?;
        made.count(before, tally);
    }
    Ok(())
}

/// To begin a put needs nothing, so only a machine out of range waits. The
/// reference is asked: whether both sides draw the same line is seen where
/// machines are handed in.
fn is_in_range(image: &[u8]) -> bool {
    reference::step_of_image(image, [0; 3], BEGIN_PUT, 0).0 != WAIT
}
