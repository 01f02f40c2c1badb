//! Share sheets at the edges of counts, room, margins and blocks, each told
//! share by share or with its refusal.

use reference::needed_margin;

use crate::checks::{Case, Verdict, NO_ROOM};
use crate::schedule::{
    ABORT, BEGIN_PUT, BEGIN_STEAL, BEGIN_TAKE, DRAIN, END, FULL, LAST_INDEX, MOST_ENTRIES, PLACE,
    STORED, TASK, THIEF_STEP, WAIT,
};
use crate::script::Script;
use crate::sheets::{self, bad_block, sheet_room, Share, COUNT, MARGIN, MOST_BLOCKS, NOT_GIVEN};
use crate::sides::Answer;
use crate::tally::Tally;

/// Slots for some blocks, one place for a store, all thieves.
const SIZES: [u32; 6] = [8, 1, 0, 1, 8, 0];
const TWO_SLOTS: [u32; 6] = [2, 1, 0, 1, 8, 0];
const AT_THE_END: [u32; 6] = [8, 1, 0, 1, 8, LAST_INDEX];

/// A schedule, what is asked and lent for its sheet, and what must be in it.
pub struct SheetEdge {
    name: String,
    script: Script,
    count: u32,
    room: usize,
    told: Result<Vec<Share>, Answer>,
}

impl SheetEdge {
    pub fn hold(&self, tally: &mut Tally) -> Verdict {
        let file = self.script.draft.bytes();
        let case = Case::new(&file, 5 * self.room as u64 + 2);
        let told = self.told.as_deref().map_err(|&refusal| refusal);
        let held = self.script.follow(tally);
        let held = held.and_then(|()| sheets::hold(&case, self.count, self.room, told, tally));
        held.map_err(|found| found.of(&self.name))
    }
}

pub fn all() -> Vec<SheetEdge> {
    let mut edges = counts();
    edges.extend(rooms());
    edges.extend(margins());
    edges.extend(blocks());
    edges.extend(repeated());
    edges.extend(without_store());
    edges.extend(given());
    edges.extend(late());
    edges.push(largest());
    edges.extend(order());
    edges
}

/// A sheet that is written in just its room.
fn written(name: impl Into<String>, script: Script, shares: Vec<Share>) -> SheetEdge {
    let count = shares.len() as u32;
    SheetEdge {
        name: name.into(),
        script,
        count,
        room: sheet_room(count),
        told: Ok(shares),
    }
}

/// A sheet that is refused, though there is room for any.
fn refused(name: impl Into<String>, script: Script, count: u32, refusal: Answer) -> SheetEdge {
    SheetEdge {
        name: name.into(),
        script,
        count,
        room: sheet_room(MOST_BLOCKS + 2),
        told: Err(refusal),
    }
}

/// Nothing is given; a sheet of any count can say so.
fn none_given(count: u32) -> Vec<Share> {
    vec![NOT_GIVEN; count as usize]
}

/// Counts at both ends of the range; some past it would do by their lowest byte.
fn counts() -> Vec<SheetEdge> {
    let mut edges = Vec::new();
    for count in [1, 2, 127, 128, 254, 255] {
        let name = format!("count {count}");
        edges.push(written(name, Script::new(SIZES), none_given(count)));
    }
    for count in [
        0,
        256,
        257,
        511,
        1 << 16,
        1 | 1 << 16,
        1 | 1 << 24,
        u32::MAX,
    ] {
        let name = format!("count {count}");
        edges.push(refused(name, Script::new(SIZES), count, COUNT));
    }
    edges
}

fn rooms() -> Vec<SheetEdge> {
    let mut edges = Vec::new();
    for count in [1, 2, 51, 255] {
        let needed = sheet_room(count);
        let less = [0, 1, needed - 5, needed - 1];
        for room in less.into_iter().chain([needed, needed + 1, needed + 300]) {
            let name = format!("count {count}, {room} bytes");
            let script = Script::new(SIZES);
            let edge = if room < needed {
                refused(name, script, count, NO_ROOM)
            } else {
                written(name, script, none_given(count))
            };
            edges.push(SheetEdge { room, ..edge });
        }
    }
    edges
}

/// Every buffer and spacing with the needed margin and its neighbours, and with
/// 0, which stands for the buffer and so is always enough.
fn margins() -> Vec<SheetEdge> {
    let mut edges = Vec::new();
    for buffer in 1..=64 {
        for spacing in 0..=63 {
            let needed = needed_margin(buffer, spacing);
            for margin in [0, needed - 1, needed, (needed + 1).min(64)] {
                let name = format!("buffer {buffer}, spacing {spacing}, margin {margin}");
                let script = Script::new([4, buffer, spacing, margin, 1, 0]);
                edges.push(if (1..needed).contains(&margin) {
                    refused(name, script, 1, MARGIN)
                } else {
                    written(name, script, none_given(1))
                });
            }
        }
    }
    edges
}

/// The block of a first put, and of one behind another; some that are above the
/// count would do by their lowest byte.
fn blocks() -> Vec<SheetEdge> {
    let mut edges = Vec::new();
    for count in [2, 3, 128, 254, 255] {
        let wide = [256, 257, 258, 2 | 1 << 16, 2 | 1 << 24, u32::MAX];
        for block in [0, 2, count, count + 1].into_iter().chain(wide) {
            let name = format!("block {block} of {count}");
            let first = Script::new(SIZES).moves(BEGIN_PUT, block);
            let later = Script::new(SIZES).put_drained(1).moves(BEGIN_PUT, block);
            for (script, place) in [(first, 0), (later, 6)] {
                edges.push(if (1..=count).contains(&block) {
                    written(&name, script, none_given(count))
                } else {
                    refused(&name, script, count, bad_block(place))
                });
            }
        }
    }
    edges
}

/// Blocks that cannot be put, of a count of 2: none, one used before, one above.
fn repeated() -> Vec<SheetEdge> {
    let start = || Script::new(SIZES);
    let mut edges = Vec::new();
    let mut push = |name, script, place| edges.push(refused(name, script, 2, bad_block(place)));
    for bad in [0, 1, 3] {
        let place = start().moves(BEGIN_PUT, 1).gets(BEGIN_PUT, bad, PLACE, 0);
        push("a bad block out of place", place, 1);
        let full = Script::new(TWO_SLOTS).put_drained(1).put_ends(bad, FULL);
        push("a bad block when full", full, 6);
        let given = start().put_drained(1).take(1).drains(1);
        push("a bad block behind a take", given.put_drained(bad), 11);
        let two = start().put_drained(1).put_drained(2);
        push("two bad blocks", two.put_drained(bad).put_drained(2), 12);
    }
    let end = Script::new(AT_THE_END).put_ends(1, END).put_ends(1, END);
    push("repeated where no index is left", end, 2);
    edges
}

/// A begin put that stores nothing leaves its block not given, and uses it up.
fn without_store() -> Vec<SheetEdge> {
    let begun = Script::new(SIZES).moves(BEGIN_PUT, 1);
    let place = begun.gets(BEGIN_PUT, 2, PLACE, 0).works(2).drains(1);
    let place = place.answers(STORED, 0).drains(1);
    let full = Script::new(TWO_SLOTS).put_drained(1).put_ends(2, FULL);
    let full = full.take(1).drains(1);
    let end = Script::new(AT_THE_END).put_ends(2, END);
    let again = |script: &Script| script.clone().moves(BEGIN_PUT, 2);
    vec![
        refused("used out of place", again(&place), 2, bad_block(7)),
        refused("used when full", again(&full), 2, bad_block(13)),
        refused("used at the end", again(&end), 2, bad_block(2)),
        written("out of place", place.take(1), vec![(0, 10), NOT_GIVEN]),
        written("when full", full, vec![(0, 11), NOT_GIVEN]),
        written("at the end", end, none_given(2)),
    ]
}

/// A block is given where the call answers, and to the party whose call it is.
fn given() -> Vec<SheetEdge> {
    let mut edges = Vec::new();
    for thief in 0..8 {
        let put = Script::new(SIZES).put_drained(2).put_drained(1);
        let stealing = put.moves(BEGIN_STEAL, thief).robs(thief, 5);
        let held = "a thief that has not answered";
        edges.push(written(held, stealing.clone(), none_given(2)));
        let stolen = stealing.gets(THIEF_STEP, thief, TASK, 2).take(1);
        let shares = vec![(0, 22), (1 + thief as u8, 18)];
        edges.push(written(format!("thief {thief}"), stolen, shares));
    }
    let lifted = Script::new(SIZES).put_drained(1);
    let lifted = lifted.moves(BEGIN_STEAL, 3).robs(3, 3);
    let waits = lifted.moves(BEGIN_TAKE, 0).works(2).drains(1);
    let waits = waits.answers(WAIT, 0).robs(3, 2);
    let last = waits.gets(THIEF_STEP, 3, ABORT, 0).works(3);
    let held = "a long take that has not answered";
    edges.push(written(held, last.clone(), none_given(1)));
    let taken = last.answers(TASK, 1);
    edges.push(written("a long take", taken, vec![(0, 21)]));
    edges
}

/// An entry's number takes up to two bytes.
fn late() -> Vec<SheetEdge> {
    let late = |entry: u32| {
        let mut waits = Script::new(SIZES);
        for _ in 9..entry {
            waits = waits.gets(DRAIN, 0, WAIT, 0);
        }
        let name = format!("given by entry {entry}");
        written(name, waits.put_drained(1).take(1), vec![(0, entry)])
    };
    [9, 255, 256, 258, MOST_ENTRIES as u32 - 1].map(late).into()
}

/// As many blocks as a sheet can have, put from the last to the first; thieves
/// in turn get all but the newest.
fn largest() -> SheetEdge {
    let mut script = Script::new([256, 1, 0, 1, 8, 0]);
    for block in (1..=MOST_BLOCKS).rev() {
        script = script.put_drained(block);
    }
    let mut shares = none_given(MOST_BLOCKS);
    for block in (2..=MOST_BLOCKS).rev() {
        let thief = block % 8;
        script = script.steal(thief, TASK, block);
        shares[block as usize - 1] = (1 + thief as u8, script.draft.entries.len() as u32 - 1);
    }
    script = script.take(1);
    shares[0] = (0, script.draft.entries.len() as u32 - 1);
    written("the largest sheet", script, shares)
}

/// Everything wrong but the file, then set right from the first check to the
/// last.
fn order() -> Vec<SheetEdge> {
    let put = |margin| Script::new([4, 4, 0, margin, 1, 0]).moves(BEGIN_PUT, 3);
    let faulty = [
        refused("all but the file", put(3), 0, COUNT),
        refused("all but the file and the count", put(3), 2, MARGIN),
        refused("the block and the room", put(4), 2, bad_block(0)),
        refused("the room", put(4), 3, NO_ROOM),
    ];
    let without_room = faulty.map(|edge| SheetEdge { room: 0, ..edge });
    let sound = written("nothing", put(4), none_given(3));
    without_room.into_iter().chain([sound]).collect()
}
