//! The queue with compare-and-swap: what each call answers, who wins a swap,
//! and what becomes of the tail.

use std::collections::BTreeMap;

use super::{Stage, ROOMY};
use crate::bench::WorkerCall;
use crate::calls::swapping::{Steal, Take};
use crate::calls::Swapping;
use crate::common::Dice;
use crate::outcome::Outcome::{
    self, Abort, Early, Empty, End, Full, Moved, Place, Stored, Task, Wait,
};
use crate::plain_queue::{Difference, Verdict};
use crate::sizes::{needed_margin, Sizes};

/// A thief may steal where two tasks stand, and every store needs its drain.
const TIGHT: Sizes = Sizes {
    buffer: 1,
    margin: 1,
    ..ROOMY
};

/// Room for a few calls without a drain.
const LATE: Sizes = Sizes {
    slots: 16,
    buffer: 8,
    margin: 0,
    ..ROOMY
};

impl Stage<Swapping> {
    fn swapping(sizes: Sizes) -> Self {
        Stage::on(sizes)
    }

    /// Steps until the thief answers.
    fn thief_goes_on(&mut self, thief: u32) -> Outcome<u32> {
        loop {
            let outcome = self.thief(thief);
            if outcome != Moved {
                return outcome;
            }
        }
    }

    fn steal(&mut self, thief: u32) -> Outcome<u32> {
        assert_eq!(self.begin_steal(thief), Moved);
        self.thief_goes_on(thief)
    }

    /// Brings a thief to where only its swap is left.
    fn thief_up_to_its_swap(&mut self, thief: u32) {
        assert_eq!(self.begin_steal(thief), Moved);
        self.thief_steps(thief, 3);
    }

    /// Brings a take of the last task to where only the swap and the load are
    /// left, and nothing is pending.
    fn worker_up_to_its_swap(&mut self) {
        assert_eq!(self.begin_take(), Moved);
        self.worker_steps(2);
        self.drain_all();
        self.worker_steps(1);
        self.drain_all();
    }

    fn memory_tail(&self) -> i64 {
        self.bench.machine().memory_tail()
    }
}

#[test]
fn a_put_has_three_steps() {
    let mut stage = Stage::swapping(LATE);
    assert_eq!(stage.begin_put(7), Moved);
    stage.worker_steps(2);
    assert_eq!(stage.indices(), (0, 0));
    assert_eq!(stage.worker(), Stored);
    assert_eq!(stage.indices(), (0, 1));
    assert_eq!(stage.memory_tail(), 0, "the stores are pending");
    stage.ends_well();
}

#[test]
fn a_put_is_full_only_at_all_slots() {
    for slots in [2, 3, 4, 256] {
        let mut stage = Stage::swapping(Sizes { slots, ..TIGHT }).holding(slots);
        assert_eq!(stage.begin_put(0), Moved);
        assert_eq!(stage.worker(), Full, "at its first step");
        assert_eq!(stage.steal(0), Task(1));
        assert_eq!(stage.put_with_drains(slots + 1), Stored);
        assert_eq!(stage.put(0), Full);
        assert_eq!(stage.take(), Task(slots + 1));
        assert_eq!(stage.put_with_drains(slots + 2), Stored);
        assert_eq!(stage.put(0), Full);
        stage.ends_well();
    }
}

/// The head is not lifted before the task is the thief's, so nobody stores to
/// the slot that the thief is about to load.
#[test]
fn a_running_steal_lets_no_put_in() {
    for steps in 0..=3 {
        let mut stage = Stage::swapping(Sizes { slots: 2, ..TIGHT }).holding(2);
        assert_eq!(stage.begin_steal(0), Moved);
        stage.thief_steps(0, steps);
        assert_eq!(stage.put(3), Full);
        stage.thief_steps(0, 3 - steps);
        assert_eq!(stage.thief(0), Task(1));
        assert_eq!(stage.put_with_drains(3), Stored);
        assert_eq!(stage.steal(1), Task(2));
        stage.ends_well();
    }
}

#[test]
fn the_last_index_ends_all_puts() {
    let mut stage = Stage::swapping(Sizes {
        start: 0x7fff_ffff,
        ..LATE
    });
    assert_eq!(stage.begin_put(1), Moved);
    assert_eq!(stage.worker(), End, "at its first step");
    assert_eq!(stage.take(), Empty);
    assert_eq!(stage.put(1), End);
    assert_eq!(stage.steal(0), Empty);
    stage.ends_well();
}

#[test]
fn end_comes_before_full() {
    let mut stage = Stage::swapping(Sizes {
        slots: 2,
        start: 0x7fff_fffd,
        ..LATE
    });
    assert_eq!(stage.put(1), Stored);
    assert_eq!(stage.put(2), Stored);
    assert_eq!(stage.put(3), End);
    stage.ends_well();
}

#[test]
fn a_take_by_swap_gives_no_index_back() {
    let mut stage = Stage::swapping(Sizes {
        start: 0x7fff_fffd,
        ..TIGHT
    })
    .holding(2);
    assert_eq!(stage.put(3), End);
    assert_eq!(stage.take(), Task(2));
    stage.drain_all();
    assert_eq!(
        stage.put_with_drains(3),
        Stored,
        "a take without a swap does"
    );
    assert_eq!(stage.steal(0), Task(1));
    assert_eq!(stage.put(4), End, "neither does a steal");
    assert_eq!(stage.take_with_drains(), Task(3));
    assert_eq!(stage.indices(), (0x7fff_ffff, 0x7fff_ffff));
    assert_eq!(stage.put(4), End);
    stage.ends_well();
}

#[test]
fn a_take_above_the_head_needs_no_swap() {
    let mut stage = Stage::swapping(LATE).holding(3);
    assert_eq!(stage.begin_take(), Moved);
    stage.worker_steps(2);
    assert_eq!(stage.worker(), Task(3), "at its third step");
    assert_eq!(stage.take(), Task(2));
    assert_eq!(stage.indices(), (0, 1));
    assert_eq!(stage.memory_tail(), 3, "both stores are pending");
    stage.ends_well();
}

#[test]
fn an_empty_take_goes_below_zero_and_back() {
    let mut stage = Stage::swapping(LATE);
    assert_eq!(stage.begin_take(), Moved);
    stage.worker_steps(2);
    assert_eq!(stage.indices(), (0, -1));
    assert_eq!(stage.worker(), Empty, "at its third step");
    assert_eq!(stage.indices(), (0, 0));
    for memory_tail in [-1, 0] {
        assert_eq!(stage.drain(), Moved);
        assert_eq!(stage.memory_tail(), memory_tail);
    }
    assert_eq!(stage.drain(), Wait, "two stores were pending");
    stage.ends_well();
}

#[test]
fn an_empty_take_waits_for_a_place_to_put_the_tail_back() {
    let mut stage = Stage::swapping(TIGHT);
    assert_eq!(stage.begin_take(), Moved);
    stage.worker_steps(2);
    assert_eq!(stage.worker(), Wait);
    assert_eq!(stage.indices(), (0, -1));
    assert_eq!(stage.drain(), Moved);
    assert_eq!(stage.worker(), Empty);
    assert_eq!(stage.indices(), (0, 0));
    stage.ends_well();
}

/// The thief saw two tasks, and swaps between the store and the load of a take
/// that is after the same one.
#[test]
fn a_take_whose_task_is_stolen_before_it_looks_needs_no_swap() {
    let mut stage = Stage::swapping(TIGHT).holding(2);
    stage.thief_up_to_its_swap(0);
    assert_eq!(stage.take(), Task(2));
    stage.drain_all();
    assert_eq!(stage.begin_take(), Moved);
    stage.worker_steps(1);
    assert_eq!(stage.thief(0), Task(1));
    assert_eq!(stage.indices(), (1, 0));
    stage.worker_steps(1);
    stage.drain_all();
    assert_eq!(stage.worker(), Empty);
    assert_eq!(stage.indices(), (1, 1));
    assert_eq!(stage.put_with_drains(3), Stored);
    assert_eq!(stage.take_with_drains(), Task(3));
    stage.ends_well();
}

#[test]
fn the_last_task_needs_a_swap() {
    let mut stage = Stage::swapping(LATE).holding(1);
    assert_eq!(stage.begin_take(), Moved);
    stage.worker_steps(2);
    assert_eq!(stage.indices(), (0, 0));
    stage.worker_steps(1);
    assert_eq!(stage.indices(), (0, 1), "the tail is back");
    assert_eq!(stage.worker(), Wait, "two stores are pending");
    assert_eq!(stage.drain(), Moved);
    assert_eq!(stage.memory_tail(), 0);
    assert_eq!(stage.worker(), Wait, "one store is pending");
    assert_eq!(stage.drain(), Moved);
    assert_eq!(stage.memory_tail(), 1);
    assert_eq!(stage.indices(), (0, 1), "to wait is to change nothing");
    assert_eq!(stage.worker(), Moved, "the swap is not yet the answer");
    assert_eq!(stage.indices(), (1, 1));
    assert_eq!(stage.worker(), Task(1), "at its fifth step");
    assert_eq!(stage.drain(), Wait, "a swap leaves no store behind");
    stage.ends_well();
}

#[test]
fn a_swap_waits_for_every_kind_of_store() {
    let mut stage = Stage::swapping(LATE);
    assert_eq!(stage.client_store(), Moved);
    assert_eq!(stage.put(1), Stored);
    assert_eq!(stage.client_store(), Moved);
    assert_eq!(stage.begin_take(), Moved);
    stage.worker_steps(3);
    for pending in (1..=6).rev() {
        assert_eq!(stage.bench.machine().pending().len(), pending);
        assert_eq!(stage.worker(), Wait);
        assert_eq!(stage.drain(), Moved);
    }
    assert_eq!(stage.worker(), Moved);
    assert_eq!(stage.worker(), Task(1));
    stage.ends_well();
}

/// A task put after the last one of an earlier index was taken by a swap lies
/// one slot further on.
#[test]
fn takes_by_swap_go_round_the_slots() {
    let mut stage = Stage::swapping(Sizes { slots: 2, ..TIGHT });
    for task in 1..=5 {
        assert_eq!(stage.put_with_drains(task), Stored);
        assert_eq!(stage.take_with_drains(), Task(task));
        assert_eq!(stage.indices(), (i64::from(task), i64::from(task)));
    }
    stage.ends_well();
}

/// The thief saw two tasks and is after the older one; by the time of the two
/// swaps it is the only one.
fn both_up_to_their_swaps() -> Stage<Swapping> {
    let mut stage = Stage::swapping(TIGHT).holding(2);
    stage.thief_up_to_its_swap(0);
    assert_eq!(stage.take(), Task(2));
    stage.drain_all();
    stage.worker_up_to_its_swap();
    assert_eq!(stage.indices(), (0, 1));
    stage
}

#[test]
fn a_take_loses_its_swap_to_a_thief() {
    let mut stage = both_up_to_their_swaps();
    assert_eq!(stage.thief(0), Task(1));
    assert_eq!(stage.worker(), Empty, "at its fourth step");
    assert_eq!(stage.indices(), (1, 1), "the tail was put back before");
    assert_eq!(stage.memory_tail(), 1);
    stage.ends_well();
}

#[test]
fn a_thief_loses_its_swap_to_a_take() {
    let mut stage = both_up_to_their_swaps();
    assert_eq!(stage.worker(), Moved);
    assert_eq!(stage.thief(0), Moved, "it starts over");
    assert_eq!(stage.indices(), (1, 1));
    assert_eq!(stage.thief(0), Moved, "the head");
    assert_eq!(stage.thief(0), Empty, "the tail");
    assert_eq!(stage.worker(), Task(1));
    stage.ends_well();
}

/// The thief swaps while the worker's swap still waits for the last drain.
#[test]
fn a_swap_that_waits_can_be_lost_meanwhile() {
    let mut stage = Stage::swapping(TIGHT).holding(2);
    stage.thief_up_to_its_swap(0);
    assert_eq!(stage.take(), Task(2));
    stage.drain_all();
    assert_eq!(stage.begin_take(), Moved);
    stage.worker_steps(2);
    stage.drain_all();
    stage.worker_steps(1);
    assert_eq!(stage.worker(), Wait);
    assert_eq!(stage.thief(0), Task(1));
    assert_eq!(stage.worker(), Wait, "a swap that must fail waits as well");
    assert_eq!(stage.drain(), Moved);
    assert_eq!(stage.worker(), Empty);
    stage.ends_well();
}

#[test]
fn a_steal_has_four_steps() {
    let mut stage = Stage::swapping(TIGHT).holding(3);
    stage.thief_up_to_its_swap(1);
    assert_eq!(stage.indices(), (0, 3), "nothing is moved before the swap");
    assert_eq!(stage.thief(1), Task(1));
    assert_eq!(stage.indices(), (1, 3));
    assert_eq!(stage.thief(1), Place);
    stage.ends_well();
}

#[test]
fn a_steal_needs_nothing_to_be_drained() {
    let mut stage = Stage::swapping(LATE).holding(16);
    for task in (9..=16).rev() {
        assert_eq!(stage.take(), Task(task));
    }
    assert_eq!(stage.client_store(), Wait, "the buffer is full");
    for task in 1..=8 {
        assert_eq!(stage.steal(task % 2), Task(task));
    }
    assert_eq!(stage.steal(0), Abort);
    assert_eq!(stage.indices(), (8, 8));
    stage.ends_well();
}

#[test]
fn a_thief_finds_the_queue_empty() {
    let mut stage = Stage::swapping(TIGHT);
    assert_eq!(stage.begin_steal(0), Moved);
    assert_eq!(stage.thief(0), Moved);
    assert_eq!(stage.thief(0), Empty, "at its second step");
    assert_eq!(stage.indices(), (0, 0));
    stage.ends_well();
}

/// The task stands, for the plain queue has it; but only the worker knows.
#[test]
fn a_thief_does_not_see_a_put_that_lags() {
    let mut stage = Stage::swapping(LATE);
    assert_eq!(stage.put(1), Stored);
    assert_eq!(stage.steal(0), Empty);
    assert_eq!(stage.drain(), Moved);
    assert_eq!(stage.steal(0), Empty, "the slot is no tail");
    assert_eq!(stage.drain(), Moved);
    assert_eq!(stage.steal(0), Abort);
    stage.ends_well();
}

/// Of a queue with `tasks` tasks a thief with this margin says so much.
fn stolen(tasks: u32, margin: u32) -> Outcome<u32> {
    let mut stage = Stage::swapping(Sizes {
        slots: 16,
        margin,
        ..TIGHT
    })
    .holding(tasks);
    let answer = stage.steal(0);
    let moved_on = i64::from(answer == Task(1));
    assert_eq!(stage.indices(), (moved_on, i64::from(tasks)));
    stage.ends_well();
    answer
}

#[test]
fn a_thief_keeps_its_margin() {
    for margin in 1..=8 {
        assert_eq!(stolen(0, margin), Empty, "which comes before ABORT");
        for tasks in 1..=margin {
            assert_eq!(stolen(tasks, margin), Abort);
        }
        for tasks in margin + 1..=10 {
            assert_eq!(stolen(tasks, margin), Task(1));
        }
    }
}

#[test]
fn an_aborted_steal_ends_at_its_second_step() {
    let mut stage = Stage::swapping(TIGHT).holding(1);
    assert_eq!(stage.begin_steal(0), Moved);
    assert_eq!(stage.thief(0), Moved);
    assert_eq!(stage.thief(0), Abort);
    assert_eq!(stage.indices(), (0, 1));
    assert_eq!(stage.thief(0), Place);
    stage.ends_well();
}

/// The tail of an empty take is below the head for a while.
#[test]
fn a_tail_below_the_head_is_empty() {
    let mut stage = Stage::swapping(TIGHT);
    assert_eq!(stage.begin_take(), Moved);
    stage.worker_steps(1);
    stage.drain_all();
    assert_eq!(stage.memory_tail(), -1);
    assert_eq!(stage.steal(0), Empty);
    assert_eq!(stage.worker_goes_on(), Empty);
    stage.ends_well();
}

/// What it loaded at first is forgotten: head, tail and slot are loaded anew.
#[test]
fn a_thief_that_loses_starts_over() {
    let mut stage = Stage::swapping(TIGHT).holding(3);
    stage.thief_up_to_its_swap(0);
    assert_eq!(stage.steal(1), Task(1));
    assert_eq!(stage.thief(0), Moved, "the swap is lost");
    assert_eq!(stage.bench.thief_call(0), Some(Steal::LoadHead));
    assert_eq!(stage.indices(), (1, 3));
    stage.thief_steps(0, 3);
    assert_eq!(stage.thief(0), Task(2));
    assert_eq!(stage.indices(), (2, 3));
    stage.ends_well();
}

#[test]
fn a_thief_that_starts_over_can_abort() {
    let mut stage = Stage::swapping(TIGHT).holding(2);
    stage.thief_up_to_its_swap(0);
    assert_eq!(stage.steal(1), Task(1));
    stage.thief_steps(0, 2);
    assert_eq!(stage.thief(0), Abort);
    assert_eq!(stage.take_with_drains(), Task(2));
    stage.ends_well();
}

#[test]
fn of_two_thieves_with_one_head_one_wins() {
    for winner in [0, 1] {
        let loser = 1 - winner;
        let mut stage = Stage::swapping(TIGHT).holding(4);
        stage.thief_up_to_its_swap(0);
        stage.thief_up_to_its_swap(1);
        assert_eq!(stage.thief(winner), Task(1));
        assert_eq!(stage.thief(loser), Moved);
        assert_eq!(stage.indices(), (1, 4));
        assert_eq!(stage.thief_goes_on(loser), Task(2));
        stage.ends_well();
    }
}

/// Any number of thieves in a row can get ahead of one that is slow.
#[test]
fn a_slow_thief_loses_again_and_again() {
    let mut stage = Stage::swapping(Sizes { slots: 8, ..TIGHT }).holding(6);
    stage.thief_up_to_its_swap(0);
    for task in 1..=4 {
        assert_eq!(stage.steal(1), Task(task));
        stage.thief_steps(0, 4);
    }
    assert_eq!(stage.thief(0), Task(5), "nobody was faster");
    stage.ends_well();
}

/// A slot that was stored to again holds no task of the thief's.
#[test]
fn what_a_losing_thief_has_loaded_is_of_no_account() {
    let mut stage = Stage::swapping(Sizes { slots: 2, ..TIGHT }).holding(2);
    stage.thief_up_to_its_swap(0);
    assert_eq!(stage.steal(1), Task(1));
    assert_eq!(stage.put_with_drains(3), Stored, "where task 1 has been");
    stage.thief_steps(0, 4);
    assert_eq!(stage.thief(0), Task(2));
    assert_eq!(stage.take_with_drains(), Task(3));
    stage.ends_well();
}

/// Two tasks that were taken without a swap, and one below them that stands.
fn two_of_three_taken_late(margin: u32) -> Stage<Swapping> {
    let mut stage = Stage::swapping(Sizes { margin, ..ROOMY }).holding(3);
    assert_eq!(stage.take(), Task(3));
    assert_eq!(stage.take(), Task(2));
    assert_eq!(stage.steal(0), Task(1), "which is the thief's by right");
    stage
}

#[test]
fn a_short_margin_gives_a_task_twice() {
    let mut stage = two_of_three_taken_late(1);
    assert_eq!(stage.steal(0), Task(2));
    let verdict = Verdict {
        given_twice: 1,
        lost: 0,
        first_difference: Some(Difference {
            entry: stage.outcomes.len() - 1, // the steal's swap
            why: "a steal without ABORT where no task stands",
        }),
    };
    assert_eq!(stage.ends(), verdict);
}

#[test]
fn the_needed_margin_aborts_instead() {
    for margin in [2, 0] {
        let mut stage = two_of_three_taken_late(margin);
        assert_eq!(stage.steal(0), Abort);
        assert_eq!(stage.indices(), (1, 1));
        stage.ends_well();
    }
}

#[test]
fn a_put_behind_the_head_is_lost() {
    let mut stage = two_of_three_taken_late(1);
    assert_eq!(stage.steal(0), Task(2));
    assert_eq!(stage.indices(), (2, 1));
    stage.drain_all();
    assert_eq!(stage.put_with_drains(4), Stored);
    assert_eq!(stage.steal(0), Empty);
    assert_eq!(stage.take(), Empty);
    let verdict = stage.ends();
    assert_eq!((verdict.given_twice, verdict.lost), (1, 1));
}

/// With enough margin the worker's view of a slot never differs from memory's
/// where a thief wins it; with a short one it is seen which of them is loaded.
#[test]
fn a_thief_loads_what_memory_has() {
    let mut stage = Stage::swapping(Sizes {
        buffer: 4,
        margin: 1,
        ..ROOMY
    })
    .holding(3);
    stage.take_close_together(3, 2);
    assert_eq!(stage.put(4), Stored, "where task 2 has been");
    assert_eq!(stage.steal(0), Task(1));
    assert_eq!(stage.steal(0), Task(2));
    let verdict = Verdict {
        given_twice: 1,
        lost: 1,
        first_difference: Some(Difference {
            entry: stage.outcomes.len() - 1, // the steal's swap
            why: "the answer is not the plain queue's",
        }),
    };
    assert_eq!(stage.ends(), verdict);
}

/// A short margin lets thieves go further than one beyond the tail; so the
/// tail that an empty take puts back is seen to be the head, and not its own.
#[test]
fn an_empty_take_puts_the_tail_back_to_the_head() {
    let mut stage = Stage::swapping(Sizes {
        buffer: 3,
        margin: 1,
        ..ROOMY
    })
    .holding(4);
    stage.take_close_together(4, 2);
    for task in 1..=3 {
        assert_eq!(stage.steal(0), Task(task));
    }
    assert_eq!(stage.steal(0), Abort);
    assert_eq!(stage.indices(), (3, 1));
    stage.drain_all();
    assert_eq!(stage.take(), Empty);
    assert_eq!(stage.indices(), (3, 3));
    assert_eq!(stage.ends().given_twice, 2);
}

/// As many takes as the store buffer can hide, none of them by a swap, for one
/// more task stands below; that one a thief may steal, and no other.
#[test]
fn one_less_than_any_needed_margin_is_too_little() {
    for (buffer, spacing) in (1..=64).flat_map(|buffer| (0..=63).map(move |it| (buffer, it))) {
        let needed = needed_margin(buffer, spacing);
        for margin in [needed - 1, needed] {
            if margin == 0 {
                continue; // which would stand for another one
            }
            let mut stage = Stage::swapping(Sizes {
                slots: needed + 1,
                buffer,
                spacing,
                margin,
                ..ROOMY
            })
            .holding(needed + 1);
            stage.take_close_together(needed + 1, 2);
            assert_eq!(stage.hidden(), needed);
            assert_eq!(stage.steal(0), Task(1));
            if margin == needed {
                assert_eq!(stage.steal(0), Abort);
                stage.ends_well();
            } else {
                assert_eq!(stage.steal(0), Task(2), "the worker has it too");
                assert_eq!(stage.ends().given_twice, 1);
            }
        }
    }
}

/// Neither the tail that a take stores first nor the one it puts back, by
/// whichever way.
#[test]
fn what_a_take_stores_counts_nothing_for_the_spacing() {
    let sizes = Sizes { spacing: 1, ..LATE };
    let mut stage = Stage::swapping(sizes);
    assert_eq!(stage.take(), Empty);
    assert_eq!(stage.bench.since_take().stores, 0);
    assert_eq!(stage.begin_take(), Early);
    assert_eq!(stage.put(1), Stored);
    assert_eq!(stage.bench.since_take().stores, 2);
    assert_eq!(stage.take_with_drains(), Task(1));
    assert_eq!(stage.bench.since_take().stores, 0);
    assert_eq!(stage.begin_take(), Early);
    assert_eq!(stage.client_store(), Moved);
    assert_eq!(stage.take(), Empty);
    stage.ends_well();
}

#[test]
fn a_full_put_counts_nothing_for_the_spacing() {
    let mut stage = Stage::swapping(Sizes {
        slots: 2,
        spacing: 3,
        ..LATE
    })
    .holding(2);
    assert_eq!(stage.take(), Task(2));
    assert_eq!(stage.put(3), Stored);
    assert_eq!(stage.put(4), Full);
    assert_eq!(stage.bench.since_take().stores, 2);
    assert_eq!(stage.begin_take(), Early);
    assert_eq!(stage.client_store(), Moved);
    assert_eq!(stage.take(), Task(3));
    stage.ends_well();
}

#[test]
fn the_tails_that_a_take_puts_back_are_not_hidden() {
    let mut stage = Stage::swapping(LATE);
    assert_eq!(stage.begin_take(), Moved);
    for (hidden, outcome) in [(0, Moved), (1, Moved), (1, Empty), (1, Place)] {
        assert_eq!(stage.hidden(), hidden);
        assert_eq!(stage.worker(), outcome);
    }
    assert_eq!(stage.take(), Empty);
    assert_eq!(stage.hidden(), 2, "one of each take's two stores");
    stage.drain_all();
    assert_eq!(stage.put_with_drains(1), Stored);
    assert_eq!(stage.begin_take(), Moved);
    stage.worker_steps(3);
    assert_eq!(stage.hidden(), 1);
    for hidden in [0, 0] {
        assert_eq!(stage.drain(), Moved);
        assert_eq!(stage.hidden(), hidden);
    }
    assert_eq!(stage.worker_goes_on(), Task(1));
    stage.ends_well();
}

#[test]
fn entries_out_of_order_are_in_the_wrong_place() {
    let mut stage = Stage::swapping(ROOMY);
    assert_eq!(stage.worker(), Place);
    assert_eq!(stage.thief(1), Place);
    assert_eq!(stage.drain(), Wait);
    assert_eq!(stage.begin_take(), Moved);
    assert_eq!(stage.begin_take(), Place);
    assert_eq!(stage.begin_put(1), Place);
    assert_eq!(stage.client_store(), Place);
    assert_eq!(stage.begin_steal(0), Moved);
    assert_eq!(stage.begin_steal(0), Place);
    assert_eq!(stage.begin_steal(1), Moved);
    assert_eq!(stage.worker_goes_on(), Empty);
    assert_eq!(stage.thief_goes_on(1), Empty);
    assert_eq!(stage.thief_goes_on(0), Empty);
    stage.ends_well();
}

/// What a step has come to, where it could have come to something else.
fn turn(stage: &mut Stage<Swapping>, kind: u8, operand: u32) -> Option<&'static str> {
    let worker = stage.bench.worker_call();
    let thief = stage.bench.thief_call(if kind == 6 { operand } else { 0 });
    let outcome = stage.obey(kind, operand);
    match (kind, worker, thief, outcome) {
        (4, Some(WorkerCall::Take(Take::RaiseTail { .. })), _, Empty) => Some("take nothing"),
        (4, Some(WorkerCall::Take(Take::SwapHead { .. })), _, Moved) => Some("take by swap"),
        (4, Some(WorkerCall::Take(Take::SwapHead { .. })), _, Empty) => Some("take lost"),
        (4, Some(WorkerCall::Take(Take::SwapHead { .. })), _, Wait) => Some("take waits"),
        (4, _, _, Full) => Some("put full"),
        (4, _, _, End) => Some("put ends"),
        (6, _, Some(Steal::SwapHead { .. }), Task(_)) => Some("steal"),
        (6, _, Some(Steal::SwapHead { .. }), Moved) => Some("steal starts over"),
        (6, _, _, Empty) => Some("steal nothing"),
        (6, _, _, Abort) => Some("steal aborts"),
        _ => None,
    }
}

/// The judge must have seen all there is to see.
#[test]
fn random_stories_end_well_whatever_happens() {
    let mut dice = Dice::new(51);
    let mut met = BTreeMap::new();
    for _ in 0..3000 {
        let sizes = Sizes {
            buffer: dice.pick(&[1, 2, 3]),
            spacing: dice.pick(&[0, 1, 2]),
            thieves: dice.pick(&[1, 2, 8]),
            start: dice.pick(&[0, 0, 0, 0x7fff_fff0]),
            ..dice.sizes()
        };
        let margin = needed_margin(sizes.buffer, sizes.spacing);
        let mut stage = Stage::swapping(Sizes { margin, ..sizes });
        for (kind, operand) in dice.entries(&sizes, 1000) {
            if let Some(turn) = turn(&mut stage, kind, operand) {
                *met.entry(turn).or_insert(0) += 1;
            }
        }
        stage.ends_well();
    }
    assert_eq!(met.len(), 10, "{met:?}");
    assert!(met.values().all(|&times| times > 50), "{met:?}");
}
