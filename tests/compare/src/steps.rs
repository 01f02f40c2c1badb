//! Single steps of the queue with a lock, on machines that are handed over, from
//! any totals.

use crate::checks::{Case, Disagreement, Verdict};
use crate::edges::SIZES;
use crate::hidden::{self, Made};
use crate::image::{meaning, Image, NUMBERS, THIEF_CALLS, WORKER_CALL};
use crate::limits::Limit;
use crate::operations::Stepped;
use crate::queue::Queue;
use crate::random::Random;
use crate::schedule::{
    Entry, ABORT, BEGIN_PUT, BEGIN_STEAL, BEGIN_TAKE, CLIENT_STORE, DRAIN, MOVED, PLACE, TASK,
    THIEF_STEP, THIEVES, WAIT, WORKER_STEP,
};
use crate::sides::from_file_order;
use crate::single::Single;
use crate::spread::guarded;
use crate::tally::{Count, Tally, OUTCOMES};

/// No more differing numbers are told.
const TOLD: usize = 6;

/// What a step is given.
struct Step<'a> {
    machine: &'a Image,
    totals: [u32; 3],
    entry: Entry,
}

impl Step<'_> {
    /// Makes the step on both sides.
    fn examine(&self, single: &Single) -> Result<Made, Disagreement> {
        guarded(|| self.compare(single)).map_err(|found| found.of(&self.name()))
    }

    fn name(&self) -> String {
        let Step {
            machine,
            totals,
            entry: (kind, operand),
        } = self;
        format!("on {machine}\n  kind {kind}, operand {operand}, totals {totals:?}")
    }

    fn compare(&self, single: &Single) -> Result<Made, Disagreement> {
        let image = self.machine.bytes();
        let case = Case::new(&image, 0);
        let proved = single.ask(&case, |program| {
            program.step(&image, self.totals, self.entry)
        })?;
        let (kind, operand) = self.entry;
        let reference = reference::step_of_image(&image, self.totals, kind, operand);
        if proved != reference {
            return Err(self.difference(&case, &proved, &reference));
        }
        let made = Made::of(kind, &proved);
        self.sound(&case, &image, &proved, &made)?;
        Ok(made)
    }

    fn difference(&self, case: &Case, proved: &Stepped, reference: &Stepped) -> Disagreement {
        let (ours, theirs) = (Image::of(&proved.4), Image::of(&reference.4));
        let number = |place| {
            let before = self.machine.at(place);
            let what = format!("number {place}, {}, was {before}", meaning(place));
            case.same(&what, ours.at(place), theirs.at(place))
        };
        let answers = [
            case.same("outcome", proved.0, reference.0),
            case.same("value", proved.1, reference.1),
            case.same("totals", proved.2, reference.2),
            case.same("takes hidden", proved.3, reference.3),
        ];
        let all = answers.into_iter().chain((0..NUMBERS).map(number));
        let told = all.filter_map(Result::err).map(|found| found.what);
        case.disagreement(told.take(TOLD).collect::<Vec<_>>().join("\n    "))
    }

    /// What any step must be, whoever made it.
    fn sound(&self, case: &Case, image: &[u8], stepped: &Stepped, made: &Made) -> Verdict {
        let &(outcome, value, totals, _, ref after) = stepped;
        let known = OUTCOMES.iter().any(|row| row.0 == outcome);
        case.hold("a known outcome", true, known)?;
        let valued = outcome == TASK || value == 0;
        case.hold("only TASK has a value", true, valued)?;
        let mut expected = self.totals;
        if let Some(which) = [TASK, ABORT, WAIT].iter().position(|&it| it == outcome) {
            expected[which] = expected[which].saturating_add(1);
        }
        case.hold("totals", expected, totals)?;
        let unchanged = !made.is_refused() || after == image;
        case.hold("5, 6 and 7 change nothing", true, unchanged)?;
        made.sound(case, &Image::of(after))
    }
}

/// All seven kinds of entries on a machine. Gives whether it is in range.
pub fn examine(
    machine: &Image,
    single: &Single,
    random: &mut Random,
    tally: &mut Tally,
) -> Result<bool, Disagreement> {
    let mut in_range = true;
    let mut all = Vec::new();
    for entry in entries(machine, random) {
        let around = totals_around(random);
        let totals = [(); 3].map(|()| random.pick(&around));
        let step = Step {
            machine,
            totals,
            entry,
        };
        let made = step.examine(single)?;
        tally.runs[Queue::Locking].outcome(made.outcome);
        // To begin a put needs nothing, so in range it never waits.
        in_range &= entry.0 != BEGIN_PUT || made.outcome != WAIT;
        all.push(made);
    }
    hidden::hold(machine, &all, tally)?;
    let tail_pending = machine.pending_tails() > 0;
    tally.count_seen([
        (Count::InRange, in_range),
        (Count::OutOfRange, !in_range),
        (Count::OutWithTailPending, !in_range && tail_pending),
    ]);
    Ok(in_range)
}

/// The same where it is known whether the machine is in range.
pub fn hold_limit(
    limit: &Limit,
    single: &Single,
    random: &mut Random,
    tally: &mut Tally,
) -> Verdict {
    let in_range = examine(&limit.machine, single, random, tally)?;
    let image = limit.machine.bytes();
    let held = Case::new(&image, 0).hold("in range", limit.in_range, in_range);
    held.map_err(|found| found.of(&format!("on {}", limit.machine)))
}

/// The thieves' kinds come twice: with a thief that is there, and with one that
/// may not be.
fn entries(machine: &Image, random: &mut Random) -> [Entry; 9] {
    let thieves = machine.at(THIEVES) as u32;
    let there = random.below(thieves.clamp(1, 8));
    let other = random.pick(&[thieves, 7, 8, u32::MAX]);
    let any = random.number();
    let ignored = random.pick(&[0, 8, any]);
    [
        (DRAIN, ignored),
        (CLIENT_STORE, ignored),
        (BEGIN_PUT, any),
        (BEGIN_TAKE, ignored),
        (WORKER_STEP, ignored),
        (BEGIN_STEAL, there),
        (BEGIN_STEAL, other),
        (THIEF_STEP, there),
        (THIEF_STEP, other),
    ]
}

/// A total may be anything, and at its largest it stays.
fn totals_around(random: &mut Random) -> [u32; 4] {
    [0, random.number(), u32::MAX - 1, u32::MAX]
}

/// All combinations of such totals.
pub fn all_totals(random: &mut Random) -> Vec<[u32; 3]> {
    let around = totals_around(random);
    let mut all = Vec::new();
    for given in around {
        for aborts in around {
            all.extend(around.map(|waits| [given, aborts, waits]));
        }
    }
    all
}

/// The outcomes that are counted, each from all parties that can get it, and
/// some that are not.
pub fn hold_totals(totals: [u32; 3], single: &Single, tally: &mut Tally) -> Verdict {
    let sizes = from_file_order(&SIZES);
    let fresh = Image::of(&reference::fresh_image(&sizes));
    // The worker loads a slot, one thief has a task, another has none.
    let calling = fresh
        .with(WORKER_CALL, &[12, 0, 0])
        .with(THIEF_CALLS, &[6, 0, 9, 8, 0, 0]);
    for (machine, entry, outcome) in [
        (&calling, (WORKER_STEP, 0), TASK),
        (&calling, (THIEF_STEP, 0), TASK),
        (&calling, (THIEF_STEP, 1), ABORT),
        (&calling, (THIEF_STEP, 2), WAIT),
        (&calling, (DRAIN, 0), WAIT),
        (&calling, (BEGIN_TAKE, 0), PLACE),
        (&fresh, (BEGIN_TAKE, 0), MOVED),
    ] {
        let step = Step {
            machine,
            totals,
            entry,
        };
        let given = step.examine(single)?.outcome;
        tally.runs[Queue::Locking].outcome(given);
        let held = Case::new(&machine.bytes(), 0).hold("outcome", outcome, given);
        held.map_err(|found| found.of(&step.name()))?;
    }
    Ok(())
}
