//! What keeps two takes apart, and what does not.

use super::{Stage, ROOMY};
use crate::bench::SinceTake;
use crate::outcome::Outcome::{Abort, Early, Empty, End, Full, Moved, Place, Stored, Task, Wait};
use crate::sizes::Sizes;

/// Room for a few calls without a drain, and a margin that is enough for it.
fn spaced(spacing: u32) -> Sizes {
    Sizes {
        spacing,
        buffer: 8,
        margin: 0,
        ..ROOMY
    }
}

/// A stage on which a first take has found nothing.
fn after_a_take(sizes: Sizes) -> Stage {
    let mut stage = Stage::new(sizes);
    assert_eq!(stage.take_with_drains(), Empty);
    stage
}

impl Stage {
    /// The stores that keep the next take apart from the one before, which
    /// there must have been.
    fn stores(&self) -> u32 {
        let SinceTake { begun, stores } = self.bench.since_take();
        assert!(begun);
        stores
    }
}

#[test]
fn only_stores_after_a_take_count_for_the_spacing() {
    let mut stage = Stage::new(Sizes {
        buffer: 4,
        ..spaced(1)
    });
    assert_eq!(stage.client_store(), Moved);
    assert_eq!(stage.client_store(), Moved);
    assert_eq!(stage.take_with_drains(), Empty);
    assert_eq!(stage.begin_take(), Early, "earlier stores are no savings");
    assert_eq!(stage.put(1), Stored);
    assert_eq!(stage.client_store(), Moved);
    assert_eq!(stage.client_store(), Moved);
    assert_eq!(stage.client_store(), Wait, "the buffer is full");
    assert_eq!(stage.begin_take(), Moved);
    assert_eq!(
        stage.begin_take(),
        Place,
        "a running call is looked at first"
    );
    stage.drain_all();
    assert_eq!(stage.worker_goes_on(), Task(1));
    assert_eq!(
        stage.begin_take(),
        Early,
        "a take uses up all stores before it"
    );
    stage.ends_well();
}

#[test]
fn a_client_store_that_waits_is_none() {
    let mut stage = after_a_take(Sizes {
        buffer: 1,
        ..spaced(2)
    });
    assert_eq!(stage.client_store(), Moved);
    assert_eq!(stage.client_store(), Wait);
    assert_eq!(stage.begin_take(), Early);
    assert_eq!(stage.drain(), Moved);
    assert_eq!(stage.client_store(), Moved);
    assert_eq!(stage.begin_take(), Moved);
    stage.ends_well();
}

#[test]
fn a_put_counts_as_two_stores() {
    for (spacing, second) in [(0, Moved), (1, Moved), (2, Moved), (3, Early), (63, Early)] {
        let mut stage = after_a_take(spaced(spacing));
        assert_eq!(stage.put(5), Stored);
        assert_eq!(stage.begin_take(), second, "spacing {spacing}");
        stage.ends_well();

        let mut stage = Stage::new(spaced(spacing));
        assert_eq!(stage.put(5), Stored);
        assert_eq!(stage.take(), Task(5));
        assert_eq!(stage.put(6), Stored);
        assert_eq!(stage.begin_take(), second, "after a TASK");
        stage.ends_well();
    }
}

#[test]
fn two_fresh_blocks_keep_takes_four_stores_apart() {
    for (spacing, second) in [(4, Moved), (5, Early)] {
        let mut stage = after_a_take(spaced(spacing));
        assert_eq!(stage.put(5), Stored);
        assert_eq!(stage.put(6), Stored);
        assert_eq!(stage.begin_take(), second, "spacing {spacing}");
        stage.ends_well();
    }
}

#[test]
fn a_store_counts_as_soon_as_it_is_pending() {
    let mut stage = after_a_take(spaced(2));
    assert_eq!(stage.begin_put(5), Moved);
    assert_eq!(stage.stores(), 0);
    stage.worker_steps(1);
    assert_eq!(stage.stores(), 0, "a load is no store");
    stage.worker_steps(1);
    assert_eq!(stage.stores(), 1);
    assert_eq!(stage.worker(), Stored);
    assert_eq!(stage.stores(), 2);
    stage.drain_all();
    assert_eq!(stage.stores(), 2, "reaching memory is nothing more");
    stage.ends_well();
}

#[test]
fn stores_of_the_client_and_of_puts_add_up() {
    let mut stage = after_a_take(spaced(6));
    for (sum, is_put) in [(1, false), (3, true), (4, false), (6, true)] {
        assert_eq!(stage.begin_take(), Early);
        if is_put {
            assert_eq!(stage.put(5), Stored);
        } else {
            assert_eq!(stage.client_store(), Moved);
        }
        assert_eq!(stage.stores(), sum);
    }
    assert_eq!(stage.begin_take(), Moved);
    assert_eq!(stage.stores(), 0, "a take uses up all stores before it");
    stage.ends_well();
}

#[test]
fn puts_before_the_first_take_count_nothing() {
    let mut stage = Stage::new(spaced(1));
    assert_eq!(stage.put(5), Stored);
    assert_eq!(stage.put(6), Stored);
    assert_eq!(stage.bench.since_take(), SinceTake::default());
    assert_eq!(stage.take(), Task(6));
    assert_eq!(stage.begin_take(), Early);
    stage.ends_well();
}

/// Two tasks in two slots: the second came in while the head was lifted.
#[test]
fn a_full_put_counts_nothing() {
    let mut stage = Stage::new(Sizes {
        slots: 2,
        ..spaced(1)
    });
    assert_eq!(stage.put(1), Stored);
    stage.drain_all();
    assert_eq!(stage.begin_steal(0), Moved);
    stage.thief_steps(0, 3);
    assert_eq!(stage.put(2), Stored);
    stage.thief_steps(0, 2);
    assert_eq!(stage.thief(0), Abort);
    assert_eq!(stage.take(), Task(2));
    assert_eq!(stage.put(3), Full);
    assert_eq!(stage.begin_take(), Early);
    assert_eq!(stage.client_store(), Moved);
    assert_eq!(stage.take(), Task(1));
    stage.ends_well();
}

#[test]
fn a_put_at_the_end_counts_nothing() {
    let mut stage = after_a_take(Sizes {
        start: 0x7fff_ffff,
        ..spaced(1)
    });
    assert_eq!(stage.put(1), End);
    assert_eq!(stage.begin_take(), Early);
    assert_eq!(stage.client_store(), Moved);
    assert_eq!(stage.begin_take(), Moved);
    stage.ends_well();
}

/// Neither the tail that a take stores first nor the one it puts back.
#[test]
fn what_a_take_stores_counts_nothing() {
    let mut stage = Stage::new(spaced(1));
    assert_eq!(stage.begin_take(), Moved);
    stage.worker_steps(2);
    assert_eq!(stage.stores(), 0);
    stage.drain_all();
    stage.worker_steps(3);
    assert_eq!(stage.indices(), (0, 0), "the tail is back");
    assert_eq!(stage.stores(), 0);
    stage.drain_all();
    assert_eq!(stage.worker(), Empty);
    assert_eq!(
        stage.begin_take(),
        Early,
        "EMPTY does not waive the spacing"
    );
    assert_eq!(stage.put(5), Stored);
    assert_eq!(stage.take(), Task(5));
    assert_eq!(stage.stores(), 0);
    assert_eq!(stage.begin_take(), Early);
    stage.ends_well();
}

#[test]
fn a_step_of_a_put_that_waits_counts_nothing() {
    let mut stage = after_a_take(Sizes {
        buffer: 1,
        ..spaced(4)
    });
    assert_eq!(stage.client_store(), Moved);
    assert_eq!(stage.begin_put(5), Moved);
    stage.worker_steps(1);
    for (stored, outcome) in [(1, Moved), (2, Stored)] {
        assert_eq!(stage.worker(), Wait);
        assert_eq!(stage.worker(), Wait);
        assert_eq!(stage.stores(), stored);
        assert_eq!(stage.drain(), Moved);
        assert_eq!(stage.worker(), outcome);
        assert_eq!(stage.stores(), stored + 1);
    }
    assert_eq!(stage.begin_take(), Early);
    assert_eq!(stage.drain(), Moved);
    assert_eq!(stage.client_store(), Moved);
    assert_eq!(stage.begin_take(), Moved);
    stage.ends_well();
}
