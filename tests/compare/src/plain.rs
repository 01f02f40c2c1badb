//! The plain queue beside the machine: nothing goes wrong with enough margin,
//! and exactly one block is given twice with one less.

use reference::needed_margin;
use reference::plain_queue::Verdict as Judgement;

use crate::checks::{on, Case, Ran, Runs, Verdict};
use crate::queue::{Queue, QUEUES};
use crate::random::Random;
use crate::schedule::{
    Draft, ABORT, BEGIN_TAKE, BUFFER, CLIENT_STORE, FULL, LAST_INDEX, MARGIN, MOVED, SPACING,
    START, TASK, THIEF_STEP, THIEVES,
};
use crate::script::Script;
use crate::tally::{Seen, Shown, Tally};

/// Judges the runs of an accepted file and holds them where the margin is enough.
pub fn examine(file: &[u8], runs: &Runs, tally: &mut Tally) -> Verdict {
    let draft = Draft::of_accepted(file);
    for queue in QUEUES {
        let judgement = queue.judged(file);
        let seen = &mut tally.runs[queue];
        if draft.has_enough_margin() {
            count_enough(&draft, &runs[queue], seen);
            clean(file, &judgement).map_err(on(queue))?;
            continue;
        }
        seen.count_seen([
            (Shown::JudgedShort, true),
            (Shown::ShortHarmed, judgement.first_difference.is_some()),
            (Shown::ShortGivenTwice, judgement.given_twice > 0),
        ]);
    }
    Ok(())
}

/// What the runs judged with enough margin went through.
fn count_enough(draft: &Draft, ran: &Ran, seen: &mut Seen) {
    let mut steps = draft.entries.iter().zip(&ran.outcomes);
    let stolen = steps.any(|(entry, outcome)| entry.0 == THIEF_STEP && *outcome == TASK);
    seen.count_seen([
        (Shown::JudgedEnough, true),
        (Shown::EnoughSeveralThieves, draft.sizes[THIEVES] > 1),
        (Shown::EnoughStolen, stolen),
        (Shown::EnoughFull, ran.outcomes.contains(&FULL)),
        (
            Shown::EnoughApartByPuts,
            has_takes_apart_by_puts(draft, ran),
        ),
        (
            Shown::EnoughNearLastIndex,
            draft.sizes[START] > LAST_INDEX - 300,
        ),
    ]);
}

/// Whether a take began that the spacing rule would have held back, had no put
/// stored anything: the client has stored nothing since the take before.
fn has_takes_apart_by_puts(draft: &Draft, ran: &Ran) -> bool {
    let mut client_stored = None;
    for (entry, outcome) in draft.entries.iter().zip(&ran.outcomes) {
        match (entry.0, *outcome) {
            (BEGIN_TAKE, MOVED) if client_stored == Some(false) => {
                return draft.sizes[SPACING] > 0;
            }
            (BEGIN_TAKE, MOVED) => client_stored = Some(false),
            (CLIENT_STORE, MOVED) => client_stored = client_stored.map(|_| true),
            _ => {}
        }
    }
    false
}

fn clean(file: &[u8], judgement: &Judgement) -> Verdict {
    let case = Case::new(file, 0);
    let difference = judgement.first_difference;
    let difference = difference.map(|first| (first.entry, first.why));
    case.hold("entry where the plain queue differs", None, difference)?;
    case.hold("blocks given twice", 0, judgement.given_twice)?;
    case.hold("blocks lost", 0, judgement.lost)
}

/// Sizes with too small a margin: for every buffer and spacing that need more
/// than 1, the margin one short and, now and then, another one.
pub fn short_margins(seed: u64) -> Vec<[u32; 6]> {
    let mut random = Random::new(seed);
    let mut all = Vec::new();
    for buffer in 2..=64 {
        for spacing in 0..buffer - 1 {
            let needed = needed_margin(buffer, spacing);
            let any = random.between(1, needed - 1);
            let margins = [needed - 1, any];
            for &margin in &margins[..1 + usize::from(random.chance(250))] {
                let some = random.between(needed + 1, 256);
                let slots = random.pick(&[needed + 1, some, 256]);
                all.push([slots, buffer, spacing, margin, random.between(1, 8), 0]);
            }
        }
    }
    all
}

/// Harm with this margin, none with the needed one.
pub fn hold_short(sizes: &[u32; 6], tally: &mut Tally) -> Verdict {
    for queue in QUEUES {
        hold_harm(queue, sizes, tally).map_err(on(queue))?;
    }
    Ok(())
}

fn hold_harm(queue: Queue, sizes: &[u32; 6], tally: &mut Tally) -> Verdict {
    let script = match queue {
        Queue::Locking => taken_unseen(queue, 1, sizes).steal(0, TASK, 1),
        Queue::Swapping => {
            let stolen = taken_unseen(queue, 2, sizes).steal(0, TASK, 1);
            stolen.steal(0, TASK, 2)
        }
    };
    script.follow(tally)?;
    let file = script.draft.bytes();
    let judgement = queue.judged(&file);
    let case = Case::new(&file, 0);
    case.hold("blocks given twice", 1, judgement.given_twice)?;
    let differs = judgement.first_difference.is_some();
    case.hold("a difference from the plain queue", true, differs)?;

    let needed = needed_margin(sizes[BUFFER], sizes[SPACING]);
    let mut script = match queue {
        Queue::Locking => taken_unseen(queue, 1, sizes).steal(0, ABORT, 0),
        // Where the margin was just one short, the thief may have the one that is
        // not taken.
        Queue::Swapping if needed == sizes[MARGIN] + 1 => {
            let stolen = taken_unseen(queue, 2, sizes).steal(0, TASK, 1);
            stolen.steal(0, ABORT, 0)
        }
        Queue::Swapping => taken_unseen(queue, 2, sizes).steal(0, ABORT, 0),
    };
    script.draft.sizes[MARGIN] = needed;
    script.follow(tally)?;
    let file = script.draft.bytes();
    clean(&file, &queue.judged(&file))
}

/// Puts of 1 to `last` + margin in memory. All from `last` on are taken, `last` at
/// last, with no store drained, so that all takes are hidden at last.
fn taken_unseen(queue: Queue, last: u32, sizes: &[u32; 6]) -> Script {
    let (spacing, margin) = (sizes[SPACING], sizes[MARGIN]);
    let mut script = Script::on(queue, *sizes);
    for task in 1..=last + margin {
        script = script.put(task).drains(2);
    }
    for task in (last + 1..=last + margin).rev() {
        script = script.take(task).client_stores(spacing);
    }
    script.take(last).hiding(margin + 1)
}
