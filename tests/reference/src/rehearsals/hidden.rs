//! How far behind memory was: the takes whose tail is still pending.

use super::{two_tasks_taken_late, Stage, ROOMY};
use crate::common::Dice;
use crate::outcome::Outcome::{Abort, Early, Empty, Moved, Place, Stored, Task, Wait};
use crate::sizes::{needed_margin, Sizes};

/// Room for a few calls without a drain.
const LATE: Sizes = Sizes {
    slots: 8,
    buffer: 16,
    margin: 0,
    ..ROOMY
};

fn holding(sizes: Sizes, tasks: u32) -> Stage {
    Stage::new(sizes).holding(tasks)
}

impl Stage {
    /// The largest number after any entry, as the run of the file has it.
    fn most_hidden(&self) -> u32 {
        self.told_again().0.hidden
    }
}

#[test]
fn a_fresh_machine_hides_nothing() {
    let stage = Stage::new(ROOMY);
    assert_eq!(stage.hidden(), 0);
    assert_eq!(stage.most_hidden(), 0, "a run of no entries");
}

#[test]
fn the_tail_of_a_put_is_not_counted() {
    let mut stage = Stage::new(LATE);
    for task in 1..=3 {
        assert_eq!(stage.put(task), Stored);
        assert_eq!(stage.hidden(), 0);
    }
    stage.drain_all();
    assert_eq!(stage.most_hidden(), 0);
    stage.ends_well();
}

#[test]
fn a_take_counts_from_its_first_step_to_its_drain() {
    let mut stage = holding(LATE, 2);
    assert_eq!(stage.begin_take(), Moved);
    assert_eq!(stage.hidden(), 0, "to begin is to store nothing");
    stage.worker_steps(1);
    assert_eq!(stage.hidden(), 1);
    stage.worker_steps(1);
    assert_eq!(stage.worker(), Task(2));
    assert_eq!(stage.hidden(), 1, "the answer is not the store's arrival");
    assert_eq!(stage.drain(), Moved);
    assert_eq!(stage.hidden(), 0);
    assert_eq!(stage.most_hidden(), 1);
    stage.ends_well();
}

#[test]
fn two_late_takes_count_two() {
    let mut stage = two_tasks_taken_late(2);
    assert_eq!(stage.hidden(), 2);
    assert_eq!(stage.drain(), Moved);
    assert_eq!(stage.hidden(), 1);
    assert_eq!(stage.drain(), Moved);
    assert_eq!(stage.hidden(), 0);
    assert_eq!(stage.most_hidden(), 2);
    stage.ends_well();
}

/// The second take's store is the first one pending, and it is below memory's
/// tail; below the worker's it cannot be, since it is the worker's.
#[test]
fn the_first_pending_tail_is_compared_with_memorys() {
    let mut stage = holding(LATE, 2);
    assert_eq!(stage.take(), Task(2));
    stage.drain_all();
    assert_eq!(stage.hidden(), 0);
    assert_eq!(stage.take(), Task(1));
    assert_eq!(stage.hidden(), 1);
    assert_eq!(stage.most_hidden(), 1);
    stage.ends_well();
}

/// Once the put has arrived the take is the first, and still below memory's.
#[test]
fn a_put_before_a_take_does_not_outweigh_it() {
    let mut stage = Stage::new(LATE);
    assert_eq!(stage.put(1), Stored);
    assert_eq!(stage.take(), Task(1));
    assert_eq!(stage.indices(), (0, 0), "the tail is where memory has it");
    for (hidden, outcome) in [(1, Moved), (1, Moved), (1, Moved), (0, Wait)] {
        assert_eq!(stage.hidden(), hidden);
        assert_eq!(stage.drain(), outcome);
    }
    stage.ends_well();
}

#[test]
fn a_put_after_a_take_does_not_outweigh_it_either() {
    let mut stage = holding(LATE, 2);
    for (hidden, task) in [(1, 2), (2, 3), (3, 4)] {
        assert_eq!(stage.take(), Task(task));
        assert_eq!(stage.hidden(), hidden);
        assert_eq!(stage.put(task + 1), Stored);
        assert_eq!(stage.hidden(), hidden);
        assert_eq!(stage.indices(), (0, 2), "the tail is where memory has it");
    }
    let left = [2, 2, 2, 1, 1, 1, 0, 0, 0];
    for hidden in left {
        assert_eq!(stage.drain(), Moved);
        assert_eq!(stage.hidden(), hidden, "of each take's three stores one");
    }
    assert_eq!(stage.drain(), Wait);
    stage.ends_well();
}

#[test]
fn the_tail_that_an_empty_take_puts_back_is_not_counted() {
    let mut stage = Stage::new(ROOMY);
    assert_eq!(stage.begin_take(), Moved);
    stage.worker_steps(2);
    assert_eq!(stage.hidden(), 1, "its first store is one like any take's");
    assert_eq!(stage.drain(), Moved);
    assert_eq!(stage.hidden(), 0);
    stage.worker_steps(3);
    assert_eq!(stage.bench.machine().pending().len(), 1);
    assert_eq!(stage.indices(), (0, 0), "the tail is back");
    assert_eq!(stage.hidden(), 0);
    assert_eq!(stage.drain(), Moved);
    assert_eq!(stage.worker(), Empty);
    assert_eq!(stage.hidden(), 0);
    assert_eq!(stage.most_hidden(), 1);
    stage.ends_well();
}

#[test]
fn other_stores_between_two_takes_change_nothing() {
    let mut stage = holding(LATE, 2);
    assert_eq!(stage.client_store(), Moved);
    assert_eq!(stage.hidden(), 0);
    assert_eq!(stage.take(), Task(2));
    assert_eq!(stage.client_store(), Moved);
    assert_eq!(stage.hidden(), 1);
    assert_eq!(stage.take(), Task(1));
    assert_eq!(stage.client_store(), Moved);
    assert_eq!(stage.begin_put(3), Moved);
    stage.worker_steps(2);
    assert_eq!(stage.hidden(), 2, "neither does a slot store");
    for hidden in [2, 1, 1, 0, 0, 0] {
        assert_eq!(stage.drain(), Moved);
        assert_eq!(stage.hidden(), hidden);
    }
    stage.ends_well();
}

#[test]
fn thieves_change_nothing() {
    let mut stage = holding(Sizes { buffer: 2, ..LATE }, 4);
    assert_eq!(stage.take(), Task(4));
    assert_eq!(stage.begin_steal(0), Moved);
    for _ in 0..5 {
        assert_eq!(stage.thief(0), Moved);
        assert_eq!(stage.hidden(), 1);
    }
    assert_eq!(stage.thief(0), Task(1));
    assert_eq!(stage.hidden(), 1, "a given task");
    assert_eq!(stage.take(), Task(3));
    assert_eq!(stage.steal(1), Task(2));
    assert_eq!(stage.steal(1), Abort);
    assert_eq!(stage.hidden(), 2, "an aborted steal");
    stage.ends_well();
}

#[test]
fn a_refused_entry_hands_back_the_number_as_well() {
    let mut stage = holding(
        Sizes {
            buffer: 1,
            spacing: 1,
            ..LATE
        },
        2,
    );
    assert_eq!(stage.take(), Task(2));
    assert_eq!(stage.hidden(), 1);
    assert_eq!(stage.worker(), Place);
    assert_eq!(stage.begin_take(), Early);
    assert_eq!(stage.client_store(), Wait);
    assert_eq!(stage.hidden(), 1);
    assert_eq!(stage.drain(), Moved);
    assert_eq!(stage.drain(), Wait);
    assert_eq!(stage.hidden(), 0);
    assert_eq!(stage.client_store(), Moved);
    assert_eq!(stage.begin_take(), Moved);
    assert_eq!(stage.worker(), Wait);
    assert_eq!(stage.hidden(), 0, "a store that has no place is none");
    stage.ends_well();
}

#[test]
fn a_run_keeps_the_largest_number() {
    let mut stage = Stage::new(LATE);
    for (takes, most) in [(1, 1), (3, 3), (2, 3), (4, 4), (1, 4)] {
        for task in 1..=takes {
            assert_eq!(stage.put_with_drains(task), Stored);
        }
        for task in (1..=takes).rev() {
            assert_eq!(stage.take(), Task(task));
        }
        assert_eq!(stage.hidden(), takes);
        stage.drain_all();
        assert_eq!(stage.hidden(), 0);
        assert_eq!(stage.most_hidden(), most);
    }
    stage.ends_well();
}

/// As many tasks as the needed margin, all of them taken.
fn takes_close_together(sizes: Sizes) -> Stage {
    let tasks = needed_margin(sizes.buffer, sizes.spacing);
    let slots = tasks + 1;
    let mut stage = holding(Sizes { slots, ..sizes }, tasks);
    stage.take_close_together(tasks, 1);
    stage
}

/// The margin that the file sets is the thieves' affair.
#[test]
fn every_needed_margin_is_reached_and_not_passed() {
    for (buffer, spacing) in (1..=64).flat_map(|buffer| (0..=63).map(move |it| (buffer, it))) {
        let needed = needed_margin(buffer, spacing);
        for margin in [0, 1, needed, 64] {
            let mut stage = takes_close_together(Sizes {
                buffer,
                spacing,
                margin,
                ..ROOMY
            });
            assert_eq!(stage.hidden(), needed, "buffer {buffer}, spacing {spacing}");
            if (0..spacing).all(|_| stage.client_store() == Moved) {
                assert_eq!(stage.begin_take(), Moved);
                assert_eq!(stage.worker(), Wait, "there is no place for one more");
            } else {
                assert_eq!(stage.begin_take(), Early);
            }
            assert_eq!(stage.most_hidden(), needed);
            stage.ends_well();
        }
    }
}

#[test]
fn takes_that_puts_keep_apart_reach_the_needed_margin_too() {
    for (buffer, takes) in [(1, 1), (3, 1), (4, 2), (6, 2), (7, 3), (16, 6), (64, 22)] {
        let spacing = 2;
        assert_eq!(needed_margin(buffer, spacing), takes);
        let mut stage = holding(
            Sizes {
                buffer,
                spacing,
                ..LATE
            },
            1,
        );
        for task in 1..takes {
            assert_eq!(stage.take(), Task(task));
            assert_eq!(stage.put(task + 1), Stored);
            assert_eq!(stage.hidden(), task);
        }
        assert_eq!(stage.take(), Task(takes));
        assert_eq!(stage.hidden(), takes);
        stage.ends_well();
    }
}

/// The stage holds the number against a pass, after every entry.
#[test]
fn random_stories_keep_the_number() {
    let mut dice = Dice::new(32);
    let mut met = [0; 65];
    for _ in 0..600 {
        let sizes = Sizes {
            margin: dice.below(65),
            ..dice.sizes()
        };
        let mut stage = Stage::new(sizes);
        for (kind, operand) in dice.entries(&sizes, 1000) {
            stage.obey(kind, operand);
            met[stage.hidden() as usize] += 1;
        }
        stage.ends();
    }
    assert!(met[..6].iter().all(|&times| times > 100), "{met:?}");
}
