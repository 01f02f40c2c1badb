//! The rehearsals: M1 to M9, the paper's example, and stories that a planner
//! meets, each told step by step with what every step must answer. All but M1
//! are files of `examples/` too, and so is the share sheet of one. Here stand those
//! of the queue with a lock.

mod swapping;

use crate::checks::{Case, Verdict};
use crate::queue::Queue;
use crate::schedule::{
    ABORT, BEGIN_PUT, BEGIN_STEAL, BEGIN_TAKE, EARLY, END, FULL, LAST_INDEX, STORED, TASK,
    THIEF_STEP, WAIT,
};
use crate::script::Script;
use crate::sheets::{self, sheet_room, Share, NOT_GIVEN};
use crate::sides::{PROVED, REFERENCE};
use crate::tally::Tally;

pub struct Rehearsal {
    /// The name of its file, without the ending.
    pub name: &'static str,
    pub script: Script,
    /// The shares of its blocks, where it is a design.
    shares: Option<&'static [Share]>,
}

impl Rehearsal {
    /// Its files, by name, and their bytes.
    pub fn files(&self) -> Vec<(String, Vec<u8>)> {
        let schedule = format!("{}.schedule", self.name);
        let mut files = vec![(schedule, self.script.draft.bytes())];
        if let Some(shares) = self.shares {
            let sheet = format!("{}.sheet", self.name);
            files.push((sheet, sheets::assemble(shares)));
        }
        files
    }

    pub fn hold(&self, tally: &mut Tally) -> Verdict {
        let held = self.script.follow(tally);
        let held = held.and_then(|()| self.hold_sheet(tally));
        held.map_err(|found| found.of(self.name))
    }

    fn hold_sheet(&self, tally: &mut Tally) -> Verdict {
        let Some(shares) = self.shares else {
            return Ok(());
        };
        let count = shares.len() as u32;
        let file = self.script.draft.bytes();
        let case = Case::new(&file, file.len() as u64);
        sheets::hold(&case, count, sheet_room(count), Ok(shares), tally)
    }
}

/// What a program prints for the example, which is the same for each queue but for
/// what stands at the end.
pub fn example_lines(queue: Queue) -> String {
    let lines = "\
4 1 0 1 1 0 enough
0 0 0
1 0 0
2 0 0
3 7 0
4 0 0
5 16 0
given 0 aborts 0 waits 1";
    match queue {
        Queue::Locking => format!("{lines} hidden 0\n"),
        Queue::Swapping => format!("{lines}\n"),
    }
}

/// M1: buffer, spacing and the needed margin.
const MARGINS: [(u32, u32, u32); 3] = [(33, 1, 17), (32, 0, 32), (64, 63, 1)];

/// Every rehearsal that is a schedule.
pub fn all() -> Vec<Rehearsal> {
    let named = |(name, script)| Rehearsal {
        name,
        script,
        shares: None,
    };
    let told = [
        ("paper-example", example()),
        ("m2-given-twice", two_taken_unseen(1).steal(0, TASK, 11)),
        ("m3-enough-margin", m3()),
        ("m4-full", m4()),
        ("m5-thief-in-between", m5_before_its_load()),
        ("m5-thief-aborts", m5_after_its_load()),
        ("m6-tail-below-zero", m6()),
        ("m7-end", start_at(LAST_INDEX).put_ends(1, END)),
        (
            "m7-stored-then-end",
            start_at(LAST_INDEX - 1).put(1).put_ends(2, END),
        ),
        ("m8-take-too-early", m8()),
        ("m9-worker-waits", m9()),
        ("story-double-hand-out", both_taken(1).steal(0, TASK, 101)),
        (
            "story-abort-saves-a-block",
            both_taken(2).steal(0, ABORT, 0),
        ),
        ("story-lock-wait", lock_wait()),
        ("story-full", full()),
        ("story-end", end()),
        ("story-puts-between-takes", puts_between()),
        ("story-refused", refused()),
    ];
    let design = Rehearsal {
        name: "story-share-sheet",
        script: design(),
        shares: Some(&SHARES),
    };
    let told = told.into_iter().chain(swapping::told());
    told.map(named).chain([design]).collect()
}

/// M1, then every needed margin in range.
pub fn hold_margins() -> Verdict {
    let case = Case::new(&[], 0);
    for (buffer, spacing, needed) in MARGINS {
        case.hold("M1", needed, (PROVED.needed_margin)(buffer, spacing))?;
    }
    for buffer in 1..=64 {
        for spacing in 0..=63 {
            let what = format!("needed margin of buffer {buffer}, spacing {spacing}");
            let proved = (PROVED.needed_margin)(buffer, spacing);
            case.same(&what, proved, (REFERENCE.needed_margin)(buffer, spacing))?;
        }
    }
    Ok(())
}

pub fn example() -> Script {
    Script::new([4, 1, 0, 1, 1, 0])
        .moves(BEGIN_PUT, 7)
        .works(2)
        .answers(WAIT, 0)
        .drains(1)
        .answers(STORED, 0)
        .hiding(0)
}

/// M2 and M3: two tasks in memory, both taken with the stores still pending.
fn two_taken_unseen(margin: u32) -> Script {
    let stored = Script::new([4, 2, 0, margin, 1, 0]);
    let stored = stored.put(11).drains(2).put(12).drains(2);
    stored.take(12).take(11).hiding(2)
}

/// The head is 0 again: with a head of 1 the last take would go the long way.
fn m3() -> Script {
    let aborted = two_taken_unseen(2).steal(0, ABORT, 0).drains(2);
    aborted.put(13).drains(2).take(13)
}

fn m4() -> Script {
    let stored = Script::new([2, 2, 0, 1, 1, 0]).put(1);
    stored.put_ends(2, FULL).drains(2).take(1)
}

/// M5 with the thief after `steps` of its steps.
fn m5(steps: u32) -> Script {
    Script::new([2, 1, 0, 1, 1, 0])
        .put_drained(21)
        .moves(BEGIN_STEAL, 0)
        .robs(0, steps)
        .put_drained(22)
        .put_ends(23, FULL)
}

fn m5_before_its_load() -> Script {
    m5(3).robs(0, 2).gets(THIEF_STEP, 0, TASK, 21)
}

/// Here the thief has seen one task and must abort, so two tasks stand in two
/// slots afterwards, both whole. They are taken, but never hidden at once.
fn m5_after_its_load() -> Script {
    let aborted = m5(4).robs(0, 1).gets(THIEF_STEP, 0, ABORT, 0);
    aborted.take(22).drains(1).take(21).hiding(1)
}

/// The put and take afterwards show that the tail is 0 again.
fn m6() -> Script {
    let emptied = start_at(0).take_empty();
    emptied.put(5).drains(2).take(5).hiding(1)
}

fn start_at(start: u32) -> Script {
    Script::new([4, 2, 0, 0, 1, start])
}

fn m8() -> Script {
    Script::new([4, 2, 1, 0, 1, 0])
        .take_empty()
        .gets(BEGIN_TAKE, 0, EARLY, 0)
        .client_stores(1)
        .moves(BEGIN_TAKE, 0)
}

fn m9() -> Script {
    Script::new([4, 1, 0, 1, 1, 0])
        .put_drained(31)
        .moves(BEGIN_STEAL, 0)
        .robs(0, 3)
        .moves(BEGIN_TAKE, 0)
        .works(2)
        .drains(1)
        .answers(WAIT, 0)
        .robs(0, 2)
        .gets(THIEF_STEP, 0, ABORT, 0)
        .works(3)
        .answers(TASK, 31)
}

/// Buffer 4 and one client store between takes need a margin of 2. The worker
/// takes both blocks; neither store of its tail has reached memory when the
/// thief looks.
fn both_taken(margin: u32) -> Script {
    let stored = Script::new([8, 4, 1, margin, 1, 0]);
    let stored = stored.put(101).drains(2).put(102).drains(2);
    stored.take(102).client_stores(1).take(101).hiding(2)
}

/// Thief 0 has the lock; thief 1 and the worker, who is after the last block,
/// both wait for it.
fn lock_wait() -> Script {
    Script::new([4, 1, 0, 1, 2, 0])
        .put_drained(201)
        .moves(BEGIN_STEAL, 0)
        .robs(0, 3)
        .moves(BEGIN_STEAL, 1)
        .gets(THIEF_STEP, 1, WAIT, 0)
        .moves(BEGIN_TAKE, 0)
        .works(2)
        .drains(1)
        .answers(WAIT, 0)
        .robs(0, 2)
        .gets(THIEF_STEP, 0, ABORT, 0)
        .works(1)
        .gets(THIEF_STEP, 1, WAIT, 0)
        .works(2)
        .answers(TASK, 201)
        .robs(1, 5)
        .gets(THIEF_STEP, 1, ABORT, 0)
}

/// Four slots hold three blocks; the fourth put is stored once a thief has
/// taken one.
fn full() -> Script {
    let mut stored = Script::new([4, 2, 0, 2, 1, 0]);
    for block in 301..=303 {
        stored = stored.put(block).drains(2);
    }
    stored.put_ends(304, FULL).steal(0, TASK, 301).put(304)
}

/// Two indices are left: after two puts the third finds the end, and a take
/// gives one back.
fn end() -> Script {
    let stored = Script::new([8, 2, 0, 0, 1, LAST_INDEX - 2]);
    let stored = stored.put(401).drains(2).put(402).drains(2);
    stored.put_ends(403, END).take(402).drains(1).put(403)
}

/// The client stores nothing: the two stores of one put are not enough for a
/// spacing of 4, those of two puts are. Both takes are hidden at last; what the
/// puts store between them raises the tail and hides nothing.
fn puts_between() -> Script {
    let stored = Script::new([8, 8, 4, 2, 1, 0]);
    let stored = stored.put(501).drains(2).put(502).drains(2);
    let early = stored.take(502).gets(BEGIN_TAKE, 0, EARLY, 0);
    let early = early.put(503).gets(BEGIN_TAKE, 0, EARLY, 0);
    early.put(504).take(504).hiding(2)
}

/// The shares of the design's blocks, from 1 to 6.
const SHARES: [Share; 6] = [(2, 43), (0, 52), (1, 36), NOT_GIVEN, (0, 47), NOT_GIVEN];

/// Six blocks, of which 4 is never put. Each thief gets one and the worker two;
/// then a thief sees too few to take block 6.
fn design() -> Script {
    let mut stored = Script::new([8, 4, 1, 2, 2, 0]);
    for block in [3, 1, 6, 2, 5] {
        stored = stored.put(block).drains(2);
    }
    let stolen = stored.steal(0, TASK, 3).steal(1, TASK, 1);
    let taken = stolen.take(5).client_stores(1).take(2).drains(3);
    taken.steal(0, ABORT, 0)
}

/// The third entry asks for a second thief, where there is one only.
fn refused() -> Script {
    let begun = Script::new([4, 1, 0, 1, 1, 0]).moves(BEGIN_STEAL, 0);
    begun.robs(0, 1).refused(THIEF_STEP, 1, 4)
}
