//! Machines out of range: every limit from both sides, and what becomes of a
//! machine that a step has led over one.

mod common;

use common::row::{Row, COUNT, HEAD, LOCK, PENDING, STORES, TAIL, THIEVES, TOP, WORKER};
use common::{Dice, SIZES};
use reference::{step_of_image, Sizes};

/// Sizes with room for everything that a test wants to put in.
const ROOMY: Sizes = Sizes {
    buffer: 3,
    thieves: 2,
    ..SIZES
};

/// Every operation must give the machine back with 7, which is a wait, and
/// tell of no pending store whatever is pending.
fn assert_out(row: &Row) {
    for kind in 0..7 {
        for operand in [0, 1, 8] {
            let (number, value, totals, hidden, machine) =
                step_of_image(&row.bytes(), [5, 6, 7], kind, operand);
            assert_eq!((number, value, totals, hidden), (7, 0, [5, 6, 8], 0));
            assert_eq!(&Row::of(&machine), row, "kind {kind}");
        }
    }
}

/// To begin a put or a steal needs nothing, so a machine in range never waits.
fn assert_in(row: &Row) {
    let free = |place| row.at(place) == 0;
    for (kind, idle) in [(2, free(WORKER)), (5, free(THIEVES))] {
        let (number, _, after) = row.step(kind, 0);
        assert_eq!(number, if idle { 0 } else { 5 }, "kind {kind}");
        assert_eq!(after == *row, !idle);
    }
}

/// Both ends of a range at one place, and the numbers just outside and far off.
fn assert_range(row: &Row, place: usize, least: i64, most: i64) {
    for good in [least, most] {
        assert_in(&row.with(place, &[good]));
    }
    for bad in [least - 1, most + 1, i64::MIN, i64::MAX] {
        assert_out(&row.with(place, &[bad]));
    }
}

#[test]
fn every_size_has_its_range() {
    let row = Row::fresh(&ROOMY);
    assert_range(&row, 0, 2, 256);
    assert_range(&row, 1, 1, 64);
    assert_range(&row, 2, 0, 63);
    assert_range(&row, 3, 0, 64);
    assert_range(&row, 4, 1, 8);
    assert_range(&row, 5, 0, 0x7fff_ffff);
}

#[test]
fn no_more_is_pending_than_the_buffer_holds() {
    for buffer in [1, 2, 63, 64] {
        let row = Row::fresh(&Sizes { buffer, ..ROOMY });
        assert_range(&row, PENDING, 0, i64::from(buffer));
    }
    let full = Row::fresh(&ROOMY).with(PENDING, &[3]);
    assert_in(&full);
    assert_out(&full.with(1, &[2]));
}

#[test]
fn the_spacing_count_has_its_range() {
    let row = Row::fresh(&ROOMY);
    for begun in [0, 1] {
        assert_range(&row.with(COUNT + 1, &[begun]), COUNT, 0, 4096);
    }
}

#[test]
fn head_and_tail_have_their_range() {
    for place in [HEAD, TAIL] {
        assert_range(&Row::fresh(&ROOMY), place, -1, TOP);
    }
}

#[test]
fn every_pending_store_has_its_range() {
    let row = Row::fresh(&ROOMY).with_pending(&[[0; 3]; 3]);
    for which in 0..3 {
        let place = STORES + 3 * which;
        assert_range(&row.with(place, &[1]), place + 1, -1, TOP);
        assert_range(&row.with(place, &[2]), place + 1, 0, TOP);
    }
}

#[test]
fn stores_past_the_pending_ones_are_not_looked_at() {
    for pending in 0..3 {
        let row = Row::fresh(&ROOMY).with_pending(&vec![[0; 3]; pending]);
        let next = STORES + 3 * pending;
        for kind in [1, 2, 99] {
            let row = row.with(next, &[kind, i64::MIN, i64::MAX]);
            assert_in(&row);
            assert_eq!(row.moved(2, 7).part(next, 3), row.part(next, 3));
        }
    }
}

#[test]
fn the_workers_index_has_its_range() {
    let row = Row::fresh(&ROOMY);
    for step in [5, 7, 8, 9] {
        assert_range(&row.with(WORKER, &[step]), WORKER + 1, -1, TOP);
    }
    for step in [6, 11, 12] {
        assert_range(&row.with(WORKER, &[step]), WORKER + 1, 0, TOP);
    }
    for step in [0, 1, 2, 3, 4, 10] {
        assert_in(&row.with(WORKER, &[step]));
    }
}

/// There are two thieves, and the calls of the other six count as well.
#[test]
fn every_thiefs_index_has_its_range() {
    let row = Row::fresh(&ROOMY);
    for thief in 0..8 {
        let place = THIEVES + 3 * thief;
        for step in [3, 4, 7] {
            assert_range(&row.with(place, &[step]), place + 1, -1, TOP);
        }
        assert_range(&row.with(place, &[5]), place + 1, 0, TOP);
        for step in [0, 1, 2, 6, 8] {
            assert_in(&row.with(place, &[step]));
        }
    }
}

#[test]
fn nobody_asks_who_has_the_lock() {
    for holder in [0, 1, 2, 9, 10, 4_294_967_297] {
        assert_in(&Row::fresh(&ROOMY).with(LOCK, &[holder]));
    }
}

#[test]
fn a_thief_that_is_not_there_waits() {
    for thieves in 1..=8 {
        let row = Row::fresh(&Sizes { thieves, ..ROOMY });
        let last = row.moved(5, thieves - 1);
        assert_eq!(last.at(THIEVES + 3 * (thieves as usize - 1)), 1);
        for thief in [thieves, 8, 9, 1 << 31, u32::MAX] {
            if thief < 8 {
                // Even its call, which would be in the way, is not looked at.
                let busy = row.with(THIEVES + 3 * thief as usize, &[1]);
                assert_eq!(busy.step(5, thief), (7, 0, busy.clone()));
                assert_eq!(busy.step(6, thief), (7, 0, busy.clone()));
            }
            assert_eq!(row.step(5, thief), (7, 0, row.clone()));
            assert_eq!(row.step(6, thief), (7, 0, row.clone()));
        }
    }
}

#[test]
fn the_range_comes_before_the_place_and_the_spacing() {
    let early = Row::fresh(&Sizes {
        spacing: 1,
        ..ROOMY
    });
    let early = early.with(COUNT, &[0, 1]);
    assert_eq!(early.step(3, 0), (6, 0, early.clone()));
    assert_out(&early.with(HEAD, &[-2]));
    let busy = early.with(WORKER, &[4]);
    assert_eq!(busy.step(3, 0), (5, 0, busy.clone()));
    assert_out(&busy.with(HEAD, &[-2]));
}

/// A step that the machine allows is made even where it leads out of range.
#[test]
fn the_worker_may_step_out_of_range() {
    let row = Row::fresh(&ROOMY);
    let low = row.with(TAIL, &[-1]).with(HEAD, &[-1]);
    let high = row.with(TAIL, &[TOP]).with(HEAD, &[TOP]);

    let after = low.with(WORKER, &[4]).moved(4, 0);
    assert_eq!(after.part(STORES, 3), [1, -2, 0]);
    assert_eq!(after.part(WORKER, 3), [5, -2, 0]);
    assert_out(&after);

    let after = low.with(WORKER, &[2, 0, 9]).moved(4, 0);
    assert_eq!(after.part(STORES, 3), [2, -1, 9]);
    assert_out(&after);

    let (number, _, after) = high.with(WORKER, &[3]).step(4, 0);
    assert_eq!(number, 16);
    assert_eq!(after.part(STORES, 3), [1, TOP + 1, 0]);
    assert_out(&after);

    let after = high.with(WORKER, &[9, TOP]).moved(4, 0);
    assert_eq!(after.part(STORES, 3), [1, TOP + 1, 0]);
    assert_out(&after);

    for (step, next) in [(5, 6), (8, 11)] {
        let after = low.with(WORKER, &[step, -1]).moved(4, 0);
        assert_eq!(after.part(WORKER, 3), [next, -1, 0]);
        assert_out(&after);
    }
}

#[test]
fn a_thief_may_step_out_of_range() {
    let row = Row::fresh(&ROOMY);
    let after = row.with(THIEVES, &[3, TOP]).moved(6, 0);
    assert_eq!(after.at(HEAD), TOP + 1);
    assert_out(&after);

    let after = row.with(TAIL, &[1]).with(THIEVES, &[4, -1]).moved(6, 0);
    assert_eq!(after.part(THIEVES, 3), [5, -1, 0]);
    assert_out(&after);
}

#[test]
fn the_spacing_count_may_run_out_of_range() {
    let row = Row::fresh(&ROOMY).with(COUNT, &[4096, 1]);
    let slot = row.with(WORKER, &[2, 0, 9]);
    let tail = row.with(WORKER, &[3]);
    for (row, kind, number) in [(&row, 1, 0), (&slot, 4, 0), (&tail, 4, 16)] {
        let (outcome, _, after) = row.step(kind, 0);
        assert_eq!((outcome, after.at(COUNT)), (number, 4097));
        assert_eq!(after.at(PENDING), 1);
        assert_out(&after);

        let (outcome, _, after) = row.with(COUNT, &[4095]).step(kind, 0);
        assert_eq!((outcome, after.at(COUNT)), (number, 4096));
        assert_in(&after);

        let (outcome, _, after) = row.with(COUNT + 1, &[0]).step(kind, 0);
        assert_eq!((outcome, after.at(COUNT)), (number, 0));
        assert_in(&after);
    }
}

/// A machine in range with one store of a take on its way and no call.
fn hiding_one() -> Row {
    let row = Row::fresh(&ROOMY).with(TAIL, &[9]);
    let row = row.with_pending(&[[1, 5, 0]]);
    for (kind, operand) in [(2, 9), (3, 0), (4, 0), (5, 0), (6, 1), (6, 2)] {
        assert_eq!(row.hidden_after(kind, operand), 1);
    }
    row
}

#[test]
fn a_machine_out_of_range_tells_of_nothing_pending() {
    let row = hiding_one();
    for place in [0, 1, 2, 3, 4, 5, HEAD, TAIL, PENDING, COUNT] {
        assert_out(&row.with(place, &[-2]));
        assert_out(&row.with(place, &[TOP + 1]));
    }
    assert_out(&row.with_pending(&[[1, 5, 0], [1, -2, 0]]));
    assert_out(&row.with(WORKER, &[12, -1]));
    assert_out(&row.with(THIEVES + 21, &[5, -1]));
}

/// Each step is made, and one like it that stays in range tells of the store.
#[test]
fn a_step_out_of_range_tells_of_nothing_pending() {
    let row = hiding_one();
    let taking = |tail| row.with_pending(&[[1, tail, 0]]).with(WORKER, &[4]);
    let storing = |tail| row.with_pending(&[[1, tail, 0]]).with(WORKER, &[2, 0, 9]);
    let raising = |tail| {
        row.with_pending(&[[1, 5, 0], [1, tail, 0]])
            .with(WORKER, &[3])
    };
    let restoring = |t| row.with(WORKER, &[9, t]);
    let loading = |t| row.with(HEAD, &[-1]).with(WORKER, &[5, t]);
    let loading_again = |t| row.with(HEAD, &[-1]).with(WORKER, &[8, t]);
    let lifting = |h| row.with(THIEVES, &[3, h]);
    let stealing = |h| row.with(THIEVES, &[4, h]);
    let counting = |count| row.with(COUNT, &[count, 1]);
    for (good, hidden, bad, kind, number) in [
        (taking(0), 2, taking(-1), 4, 0),
        (storing(0), 1, storing(-1), 4, 0),
        (raising(TOP - 1), 1, raising(TOP), 4, 16),
        (restoring(TOP - 1), 1, restoring(TOP), 4, 0),
        (loading(0), 1, loading(-1), 4, 0),
        (loading_again(0), 1, loading_again(-1), 4, 0),
        (lifting(TOP - 1), 1, lifting(TOP), 6, 0),
        (stealing(0), 1, stealing(-1), 6, 0),
        (counting(4095), 1, counting(4096), 1, 0),
    ] {
        assert_eq!(good.step(kind, 0).0, number);
        assert_eq!(good.hidden_after(kind, 0), hidden);
        assert_in(&good.step(kind, 0).2);

        let (outcome, _, after) = bad.step(kind, 0);
        assert_eq!(outcome, number);
        assert_ne!(after, bad);
        assert_eq!(bad.hidden_after(kind, 0), 0);
        assert_out(&after);
        assert_in(&bad);
    }
}

/// At its largest the count is no hindrance to what counts nothing.
#[test]
fn the_largest_spacing_count_stays_where_nothing_counts() {
    let row = Row::fresh(&ROOMY).with(COUNT, &[4096, 1]);
    let putting = row.with(WORKER, &[1, 0, 9]);
    for (row, number) in [
        (&putting, 0),
        (&putting.with(TAIL, &[3]), 20),
        (&putting.with(TAIL, &[TOP - 1]), 21),
        (&row.with(WORKER, &[4]), 0),
        (&row.with(WORKER, &[9]), 0),
        (&row.with(WORKER, &[2]).with(PENDING, &[3]), 7),
        (&row.with(WORKER, &[3]).with(PENDING, &[3]), 7),
    ] {
        let (outcome, _, after) = row.step(4, 0);
        assert_eq!((outcome, after.at(COUNT)), (number, 4096));
        assert_in(&after);
    }
    assert_eq!(row.moved(3, 0).part(COUNT, 2), [0, 1]);
}

/// A put ends at one tail only; one beyond it there is no such rule.
#[test]
fn a_tail_beyond_the_last_is_no_end() {
    let row = Row::fresh(&ROOMY).with(WORKER, &[1, 0, 9]);
    let last = row.with(HEAD, &[TOP - 1, TOP - 1]);
    assert_eq!(last.step(4, 0).0, 21);
    let beyond = row.with(HEAD, &[TOP, TOP]);
    assert_eq!(beyond.moved(4, 0).part(WORKER, 3), [2, 0, 9]);
    assert_eq!(beyond.with(HEAD, &[-1]).step(4, 0).0, 20);
}

#[test]
fn any_number_out_of_range_is_enough() {
    let mut dice = Dice::new(11);
    for _ in 0..300 {
        let row = dice.row();
        for place in [0, 1, 2, 3, 4, 5, HEAD, TAIL, PENDING, COUNT] {
            assert_out(&row.with(place, &[dice.pick(&[-2, TOP + 1])]));
        }
        let thief = dice.below(8) as usize;
        assert_out(&row.with(THIEVES + 3 * thief, &[7, -2]));
        assert_out(&row.with(WORKER, &[12, -1]));
    }
}
