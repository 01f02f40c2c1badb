//! Stories of the queue with compare-and-swap.

use crate::queue::Queue;
use crate::schedule::{ABORT, BEGIN_STEAL, BEGIN_TAKE, EMPTY, TASK, THIEF_STEP, WAIT};
use crate::script::Script;

/// With the names of their files.
pub fn told() -> Vec<(&'static str, Script)> {
    vec![
        ("cas-double-hand-out", two_taken(1).steal(0, TASK, 102)),
        ("cas-abort-saves-a-block", two_taken(2).steal(0, ABORT, 0)),
        ("cas-last-block", last_block()),
        ("cas-lost-swap", lost_swap()),
        ("cas-two-thieves", two_thieves()),
    ]
}

fn sized(sizes: [u32; 6]) -> Script {
    Script::on(Queue::Swapping, sizes)
}

/// Buffer 4 and one client store between takes need a margin of 2. The worker
/// takes two blocks of three, and neither store of its tail has reached memory when
/// the thief steals the third, which is the thief's by right.
fn two_taken(margin: u32) -> Script {
    let mut stored = sized([8, 4, 1, margin, 1, 0]);
    for block in 101..=103 {
        stored = stored.put(block).drains(2);
    }
    let taken = stored.take(103).client_stores(1).take(102);
    taken.hiding(2).steal(0, TASK, 101)
}

/// The take's two stores, of the tail one lower and of the tail put back, are both
/// pending when it wants to swap. The take after it finds the queue empty.
fn last_block() -> Script {
    let stored = sized([4, 2, 0, 2, 1, 0]).put(601).drains(2);
    let pending = stored.moves(BEGIN_TAKE, 0).works(3).answers(WAIT, 0);
    let won = pending.drains(1).answers(WAIT, 0).drains(1).works(1);
    let empty = won.answers(TASK, 601).moves(BEGIN_TAKE, 0).works(2);
    empty.answers(EMPTY, 0).hiding(1)
}

/// The thief has seen two blocks and loaded the first. The worker takes the second;
/// while it is about to swap for the first, the thief swaps.
fn lost_swap() -> Script {
    let stored = sized([4, 1, 0, 1, 1, 0]).put_drained(701).put_drained(702);
    let loaded = stored.moves(BEGIN_STEAL, 0).robs(0, 3);
    let taken = loaded.take(702).drains(1);
    let lowered = taken.moves(BEGIN_TAKE, 0).works(2).drains(1);
    let both_swap = lowered.works(1).drains(1);
    let stolen = both_swap.gets(THIEF_STEP, 0, TASK, 701);
    stolen.answers(EMPTY, 0).hiding(1)
}

/// Both thieves have loaded the head and the first block. Thief 1 swaps first, so
/// thief 0's swap fails; it starts over and is given the second. The third is too
/// close to the tail for a thief.
fn two_thieves() -> Script {
    let mut stored = sized([4, 1, 0, 1, 2, 0]);
    for block in 801..=803 {
        stored = stored.put_drained(block);
    }
    let first = stored.moves(BEGIN_STEAL, 0).robs(0, 3);
    let both = first.moves(BEGIN_STEAL, 1).robs(1, 3);
    let one = both.gets(THIEF_STEP, 1, TASK, 801);
    let over = one.moves(THIEF_STEP, 0).robs(0, 3);
    let other = over.gets(THIEF_STEP, 0, TASK, 802);
    other.steal(1, ABORT, 0).hiding(0)
}
