//! Single steps on machines that are handed over as rows of numbers.

mod common;

use std::collections::VecDeque;

use common::row::{
    Row, BEGUN, COUNT, HEAD, LOCK, PENDING, SLOTS, STORES, TAIL, THIEVES, TOP, WORKER,
};
use common::{file, Dice, SIZES};
use reference::{fresh_image, run, step_of_image, Sizes, Summary, Totals, IMAGE_BYTES};

const ROOMY: Sizes = Sizes {
    buffer: 3,
    margin: 1,
    thieves: 2,
    ..SIZES
};

/// A schedule entry by entry, from the fresh machine, with its trace.
fn run_by_images(sizes: &Sizes, entries: &[(u8, u32)]) -> (Vec<u8>, Summary) {
    let mut machine = fresh_image(sizes);
    let mut totals = [0; 3];
    let mut most_hidden = 0;
    let mut trace = (entries.len() as u32).to_le_bytes().to_vec();
    let mut values = Vec::new();
    for &(kind, operand) in entries {
        let before = machine.clone();
        let (number, value, tally, hidden, after) = step_of_image(&machine, totals, kind, operand);
        assert!(after == before || !matches!(number, 5..=7));
        most_hidden = most_hidden.max(hidden);
        trace.push(number);
        values.extend(value.to_le_bytes());
        (totals, machine) = (tally, after);
    }
    trace.extend(values);
    let [given, aborts, waits] = totals;
    let totals = Totals {
        given,
        aborts,
        waits,
    };
    let summary = Summary {
        totals,
        hidden: most_hidden,
    };
    (trace, summary)
}

#[test]
fn schedules_go_step_by_step_as_they_run() {
    let mut dice = Dice::new(21);
    let mut met = [0; 256];
    for _ in 0..400 {
        let mut sizes = dice.sizes();
        sizes.margin = dice.pick(&[0, 1, 2, 64]);
        let count = dice.pick(&[100, 400, 1000]);
        let entries = dice.entries(&sizes, count);
        let mut trace = vec![0xee; 4 + 5 * count];
        let summary = run(&file(sizes, &entries), &mut trace).unwrap();
        assert_eq!(run_by_images(&sizes, &entries), (trace.clone(), summary));
        for &number in &trace[4..4 + count] {
            met[usize::from(number)] += 1;
        }
    }
    for number in [0, 5, 6, 7, 16, 17, 18, 19, 20, 21] {
        assert!(met[number] > 50, "{number} was met {} times", met[number]);
    }
}

#[test]
fn a_fresh_machine_is_empty() {
    let sizes = Sizes {
        start: 77,
        margin: 0,
        ..ROOMY
    };
    let bytes = fresh_image(&sizes);
    assert_eq!((bytes.len(), IMAGE_BYTES), (3896, 3896));
    let row = Row::of(&bytes);
    assert_eq!(row.part(0, 6), [4, 3, 0, 0, 2, 77]);
    assert_eq!(row.part(SLOTS, 256), [0; 256]);
    assert_eq!(row.part(HEAD, 4), [77, 77, 0, 0]);
    assert_eq!(row.part(STORES, 221), [0; 221]);
}

#[test]
fn a_put_step_by_step() {
    let row = Row::fresh(&ROOMY).moved(2, 9);
    assert_eq!(row.part(WORKER, 3), [1, 0, 9]);
    let row = row.moved(4, 0);
    assert_eq!(row.part(WORKER, 3), [2, 0, 9]);
    let row = row.moved(4, 0);
    assert_eq!(row.part(WORKER, 3), [3, 0, 0]);
    assert_eq!(row.part(PENDING, 4), [1, 2, 0, 9]);
    let (number, value, row) = row.step(4, 0);
    assert_eq!((number, value), (16, 0));
    assert_eq!(row.part(WORKER, 3), [0, 0, 0]);
    assert_eq!(row.part(PENDING, 7), [2, 2, 0, 9, 1, 1, 0]);
    let row = row.moved(0, 0).moved(0, 0);
    assert_eq!(row.part(SLOTS, 4), [9, 0, 0, 0]);
    assert_eq!(row.part(HEAD, 4), [0, 1, 0, 0]);
}

/// Three slots hold 7 8 9; `tail` tells how many of them are tasks.
fn holding(tail: i64) -> Row {
    let row = Row::fresh(&ROOMY).with(SLOTS, &[7, 8, 9]);
    row.with(TAIL, &[tail])
}

#[test]
fn a_take_of_three_steps() {
    let row = holding(2).moved(3, 0);
    assert_eq!(row.part(COUNT, 5), [0, 1, 4, 0, 0]);
    let row = row.moved(4, 0);
    assert_eq!(row.part(WORKER, 3), [5, 1, 0]);
    assert_eq!(row.part(PENDING, 4), [1, 1, 1, 0]);
    let row = row.moved(4, 0);
    assert_eq!(row.part(WORKER, 3), [6, 1, 0]);
    let (number, value, row) = row.step(4, 0);
    assert_eq!((number, value), (17, 8));
    assert_eq!(row.part(WORKER, 3), [0, 0, 0]);
}

#[test]
fn a_take_that_finds_nothing() {
    let row = holding(0).moved(3, 0).moved(4, 0).moved(4, 0);
    assert_eq!(row.part(WORKER, 3), [7, -1, 0]);
    assert_eq!(row.step(4, 0).0, 7, "its store is pending");
    let row = row.moved(0, 0).moved(4, 0);
    assert_eq!(row.part(WORKER, 3), [8, -1, 0]);
    assert_eq!(row.part(HEAD, 3), [0, -1, 1]);
    let row = row.moved(4, 0);
    assert_eq!(row.part(WORKER, 3), [9, -1, 0]);
    let row = row.moved(4, 0);
    assert_eq!(row.part(WORKER, 3), [10, 0, 0]);
    let (number, _, row) = row.moved(0, 0).step(4, 0);
    assert_eq!(number, 18);
    assert_eq!(row.part(HEAD, 4), [0, 0, 0, 0]);
    assert_eq!(row.part(WORKER, 3), [0, 0, 0]);
}

#[test]
fn a_take_that_gets_its_task_under_the_lock() {
    let row = holding(1).with(HEAD, &[1]).moved(3, 0).moved(4, 0);
    let row = row.moved(4, 0).moved(0, 0);
    assert_eq!(row.part(WORKER, 3), [7, 0, 0]);
    let row = row.with(HEAD, &[0]).moved(4, 0);
    assert_eq!(row.part(WORKER, 3), [8, 0, 0]);
    let row = row.moved(4, 0);
    assert_eq!(row.part(WORKER, 3), [11, 0, 0]);
    assert_eq!(row.at(LOCK), 1);
    let row = row.moved(4, 0);
    assert_eq!(row.part(WORKER, 3), [12, 0, 0]);
    assert_eq!(row.at(LOCK), 0);
    let (number, value, _) = row.step(4, 0);
    assert_eq!((number, value), (17, 7));
}

#[test]
fn a_steal_step_by_step() {
    let thief = THIEVES + 3;
    let row = holding(2).moved(5, 1);
    assert_eq!(row.part(thief, 3), [1, 0, 0]);
    let row = row.moved(6, 1);
    assert_eq!((row.at(LOCK), row.part(thief, 3)), (3, &[2, 0, 0][..]));
    let row = row.moved(6, 1);
    assert_eq!(row.part(thief, 3), [3, 0, 0]);
    let row = row.moved(6, 1);
    assert_eq!((row.at(HEAD), row.part(thief, 3)), (1, &[4, 0, 0][..]));

    let given = row.moved(6, 1);
    assert_eq!(given.part(thief, 3), [5, 0, 0]);
    let given = given.moved(6, 1);
    assert_eq!(given.part(thief, 3), [6, 0, 7]);
    let (number, value, given) = given.step(6, 1);
    assert_eq!((number, value), (17, 7));
    assert_eq!(given.part(HEAD, 3), [1, 2, 0]);
    assert_eq!(given.part(THIEVES, 6), [0; 6]);

    let aborted = row.with(TAIL, &[1]).moved(6, 1);
    assert_eq!(aborted.part(thief, 3), [7, 0, 0]);
    let aborted = aborted.moved(6, 1);
    assert_eq!(aborted.part(thief, 3), [8, 0, 0]);
    let (number, value, aborted) = aborted.step(6, 1);
    assert_eq!((number, value), (19, 0));
    assert_eq!(aborted.part(HEAD, 3), [0, 1, 0]);
    assert_eq!(aborted.part(THIEVES, 6), [0; 6]);
}

#[test]
fn a_written_margin_of_0_is_the_buffers() {
    for (tail, next) in [(4, 5), (3, 7)] {
        let row = Row::fresh(&Sizes { margin: 0, ..ROOMY });
        let row = row.with(TAIL, &[tail]).with(THIEVES, &[4, 0]);
        assert_eq!(row.moved(6, 0).part(THIEVES, 3), [next, 0, 0]);
    }
}

#[test]
fn a_lock_keeps_everybody_out_and_anybody_may_free_it() {
    let taking = Row::fresh(&ROOMY).with(WORKER, &[7]);
    let row = taking.with(THIEVES, &[1, 0, 0, 1]);
    for holder in [1, 2, 3, 9, 300] {
        let held = row.with(LOCK, &[holder]);
        for (kind, operand) in [(4, 0), (6, 0), (6, 1)] {
            assert_eq!(held.step(kind, operand), (7, 0, held.clone()));
        }
        assert_eq!(held.with(WORKER, &[11]).moved(4, 0).at(LOCK), 0);
        assert_eq!(held.with(WORKER, &[10]).step(4, 0).2.at(LOCK), 0);
        assert_eq!(held.with(THIEVES, &[6]).step(6, 0).2.at(LOCK), 0);
        assert_eq!(held.with(THIEVES, &[8]).step(6, 0).2.at(LOCK), 0);
        assert_eq!(held.with(THIEVES, &[2]).moved(6, 0).at(LOCK), holder);
    }
    assert_eq!(row.moved(4, 0).at(LOCK), 1);
    assert_eq!(row.moved(6, 0).at(LOCK), 2);
    assert_eq!(row.moved(6, 1).at(LOCK), 3);
}

const STORES_OF_EACH_KIND: [[i64; 3]; 3] = [[2, 6, 5], [0, 0, 0], [1, 3, 0]];

#[test]
fn a_drain_moves_the_other_stores_up() {
    let past = [2, 77, 78, 1, -9, 0];
    let row = Row::fresh(&ROOMY).with_pending(&STORES_OF_EACH_KIND);
    let row = row.with(STORES + 9, &past);

    let row = row.moved(0, 0);
    assert_eq!(row.part(SLOTS, 4), [0, 0, 5, 0], "6 lies in slot 2 of 4");
    assert_eq!(row.part(PENDING, 10), [2, 0, 0, 0, 1, 3, 0, 0, 0, 0]);
    let row = row.moved(0, 0);
    assert_eq!(row.part(PENDING, 10), [1, 1, 3, 0, 0, 0, 0, 0, 0, 0]);
    assert_eq!(row.part(HEAD, 2), [0, 0]);
    let row = row.moved(0, 0);
    assert_eq!(row.part(PENDING, 10), [0; 10]);
    assert_eq!(row.part(HEAD, 2), [0, 3]);
    assert_eq!(row.part(STORES + 9, 6), past);
    assert_eq!(row.step(0, 0), (7, 0, row.clone()));
}

#[test]
fn a_store_goes_behind_the_pending_ones_and_nowhere_else() {
    let row = Row::fresh(&ROOMY).with(STORES, &[2, 1, 1, 2, 2, 2, 2, 3, 3, 2, 4, 4]);
    let row = row.with(PENDING, &[1]);
    let client = row.moved(1, 0);
    assert_eq!(
        client.part(PENDING, 13),
        [2, 2, 1, 1, 0, 0, 0, 2, 3, 3, 2, 4, 4]
    );
    let tail = row.with(WORKER, &[3]).step(4, 0).2;
    assert_eq!(tail.part(PENDING, 7), [2, 2, 1, 1, 1, 1, 0]);
    let slot = row.with(WORKER, &[2, 0, 9]).moved(4, 0);
    assert_eq!(slot.part(PENDING, 7), [2, 2, 1, 1, 2, 0, 9]);
    let full = row.with(PENDING, &[3]);
    assert_eq!(full.step(1, 0), (7, 0, full.clone()));
}

#[test]
fn the_worker_loads_the_newest_store_in_the_same_slot() {
    let row = holding(0).with(WORKER, &[12, TOP]);
    let value = |stores: &[[i64; 3]]| row.with_pending(stores).step(4, 0).1;
    assert_eq!(value(&[]), 7, "the top index lies in slot 0 of 4");
    assert_eq!(value(&[[2, 4, 41], [1, 0, 0], [2, 8, 42]]), 42);
    assert_eq!(value(&[[2, TOP, 41], [2, 1, 43], [2, 7, 44]]), 41);
    let stealing = row.with(THIEVES, &[5, TOP]).with_pending(&[[2, 0, 41]]);
    assert_eq!(stealing.moved(6, 0).part(THIEVES, 3), [6, 0, 7]);
}

#[test]
fn the_largest_slot_is_touched_and_none_beyond_the_size() {
    let all: Vec<i64> = (1000..1256).collect();
    for slots in [2, 3, 255, 256] {
        let row = Row::fresh(&Sizes { slots, ..ROOMY }).with(SLOTS, &all);
        let last = i64::from(slots) - 1;
        let drained = row.with_pending(&[[2, last, 5]]).moved(0, 0);
        let mut expected = all.clone();
        expected[last as usize] = 5;
        assert_eq!(drained.part(SLOTS, 256), expected);
        let around = row.with_pending(&[[2, last + 1, 5]]).moved(0, 0);
        assert_eq!(around.part(SLOTS, 2), [5, 1001]);
    }
}

#[test]
fn no_count_runs_before_the_first_take() {
    let row = Row::fresh(&Sizes {
        spacing: 2,
        ..ROOMY
    });
    assert_eq!(row.moved(1, 0).part(COUNT, 2), [0, 0]);
    let odd = row.with(COUNT, &[1]);
    assert_eq!(odd.moved(1, 0).part(COUNT, 2), [0, 0]);
    assert_eq!(odd.moved(2, 9).part(COUNT, 2), [1, 0]);
    assert_eq!(odd.moved(3, 0).part(COUNT, 2), [0, 1]);
    for (step, count) in [(1, 1), (2, 0), (3, 0), (4, 1), (9, 1)] {
        for row in [&row, &odd] {
            let after = row.with(WORKER, &[step]).step(4, 0).2;
            let count = if row == &odd { count } else { 0 };
            assert_eq!(after.part(COUNT, 2), [count, 0], "worker's step {step}");
        }
    }
    let begun = odd.with(BEGUN, &[1]);
    assert_eq!(begun.step(3, 0), (6, 0, begun.clone()));
    assert_eq!(begun.moved(1, 0).part(COUNT, 2), [2, 1]);
    assert_eq!(begun.moved(1, 0).moved(3, 0).part(COUNT, 2), [0, 1]);
}

#[test]
fn a_put_counts_its_two_stores_as_they_become_pending() {
    let row = Row::fresh(&ROOMY).with(COUNT, &[5, 1]).moved(2, 9);
    assert_eq!(row.part(COUNT, 2), [5, 1]);
    let row = row.moved(4, 0);
    assert_eq!(row.part(COUNT, 2), [5, 1]);
    let row = row.moved(4, 0);
    assert_eq!(row.part(COUNT, 2), [6, 1]);
    let row = row.step(4, 0).2;
    assert_eq!(row.part(COUNT, 2), [7, 1]);
    assert_eq!(row.moved(0, 0).moved(0, 0).part(COUNT, 2), [7, 1]);

    for step in [2, 3] {
        let full = row.with(PENDING, &[3]).with(WORKER, &[step]);
        assert_eq!(full.step(4, 0), (7, 0, full.clone()));
    }
}

#[test]
fn a_put_that_stores_nothing_counts_nothing() {
    let row = Row::fresh(&ROOMY).with(COUNT, &[5, 1]).moved(2, 9);
    for (tail, answer) in [(3, 20), (TOP - 1, 21)] {
        let (number, _, after) = row.with(TAIL, &[tail]).step(4, 0);
        assert_eq!(number, answer);
        assert_eq!(after.part(COUNT, 2), [5, 1]);
    }
}

/// What the rule makes of the count, said once more over the row's numbers.
fn count_after(row: &Row, kind: u8, number: u8) -> [i64; 2] {
    let (count, begun) = (row.at(COUNT), row.at(BEGUN));
    let stores = match kind {
        1 => true,
        4 => matches!(row.at(WORKER), 2 | 3),
        _ => false,
    };
    match (kind, begun) {
        _ if matches!(number, 5..=7) => [count, begun],
        (3, _) => [0, 1],
        (_, 0) if stores => [0, 0],
        _ if stores => [count + 1, begun],
        _ => [count, begun],
    }
}

#[test]
fn any_machine_counts_by_the_rule() {
    let mut dice = Dice::new(23);
    let mut counted = [0; 2];
    for _ in 0..20_000 {
        let row = dice.row();
        let kind = dice.pick(&[0, 1, 2, 3, 4, 4, 4, 4, 5, 6]);
        let (number, _, after) = row.step(kind, 0);
        assert_eq!(after.part(COUNT, 2), count_after(&row, kind, number));
        if after.at(COUNT) > row.at(COUNT) {
            counted[usize::from(kind == 4)] += 1;
        }
    }
    assert!(counted.iter().all(|&times| times > 50), "{counted:?}");
}

/// A drain of a client store, so that only the other stores are told of.
fn hidden(row: &Row, stores: &[[i64; 3]]) -> u32 {
    let stores = [&[[0, 0, 0]], stores].concat();
    row.with_pending(&stores).hidden_after(0, 0)
}

#[test]
fn pending_tails_are_compared_each_with_the_one_before() {
    let row = Row::fresh(&Sizes { buffer: 8, ..ROOMY });
    let row = row.with(TAIL, &[5]);
    let tails = |tails: &[i64]| {
        let stores: Vec<[i64; 3]> = tails.iter().map(|&tail| [1, tail, 0]).collect();
        hidden(&row, &stores)
    };
    assert_eq!(tails(&[]), 0);
    for (tail, number) in [(-1, 1), (4, 1), (5, 0), (6, 0), (TOP, 0)] {
        assert_eq!(tails(&[tail]), number, "tail {tail} after 5");
    }
    assert_eq!(tails(&[4, 3, 2, 1, 0, -1]), 6);
    assert_eq!(tails(&[6, 7, 8]), 0);
    assert_eq!(tails(&[4, 4, 4]), 1, "an equal one is not below");
    assert_eq!(tails(&[4, 5, 4, 5, 4]), 3);
    assert_eq!(tails(&[6, 5, 6, 5]), 2, "though none is below memory's");
    assert_eq!(tails(&[0, 1, 2, 3]), 1, "though all are below memory's");
    assert_eq!(tails(&[TOP, -1, TOP, -1]), 2);
    let among = [[2, 9, 9], [1, 4, 0], [0, 0, 0], [2, 0, 9], [1, 3, 0]];
    assert_eq!(hidden(&row, &among), 2, "other stores have no tail");
}

#[test]
fn a_drained_tail_is_memorys_from_then_on() {
    let row = Row::fresh(&ROOMY).with(TAIL, &[5]);
    let row = row.with_pending(&[[1, 4, 0], [1, 3, 0], [1, 4, 0]]);
    assert_eq!(row.hidden_after(1, 0), 2, "a wait");
    assert_eq!(row.hidden_after(0, 0), 1);
    let row = row.moved(0, 0);
    assert_eq!(row.hidden_after(0, 0), 0);
    let row = row.moved(0, 0);
    assert_eq!(row.hidden_after(0, 0), 0);
}

#[test]
fn a_refused_entry_tells_of_the_machine_as_it_was() {
    let row = Row::fresh(&Sizes {
        spacing: 1,
        ..ROOMY
    });
    let row = row.with(TAIL, &[2]).with(COUNT, &[0, 1]);
    let row = row.with_pending(&[[1, 1, 0], [1, 0, 0], [0, 0, 0]]);
    for (kind, operand, number) in [(4, 0, 5), (3, 0, 6), (1, 0, 7), (6, 1, 5)] {
        assert_eq!(row.step(kind, operand), (number, 0, row.clone()));
        assert_eq!(row.hidden_after(kind, operand), 2);
    }
    for (kind, nobody) in [(5, 2), (6, 2), (5, 8), (6, u32::MAX)] {
        assert_eq!(row.step(kind, nobody), (7, 0, row.clone()));
        assert_eq!(row.hidden_after(kind, nobody), 2, "thief {nobody}");
    }
}

/// Request 4's sentence, said once more over the row's numbers.
fn hidden_in(row: &Row) -> u32 {
    let stores = row.part(STORES, 3 * row.at(PENDING) as usize).chunks(3);
    let tails = stores.filter(|store| store[0] == 1).map(|store| store[1]);
    let tails: Vec<i64> = std::iter::once(row.at(TAIL)).chain(tails).collect();
    tails.windows(2).filter(|it| it[1] < it[0]).count() as u32
}

/// To begin a put needs nothing, so only a machine out of range waits.
fn is_in_range(row: &Row) -> bool {
    row.step(2, 0).0 != 7
}

#[test]
fn any_machine_tells_its_number() {
    let mut dice = Dice::new(24);
    let (mut told, mut not_told) = (0, 0);
    for _ in 0..40_000 {
        let row = dice.row();
        let kind = dice.pick(&[0, 1, 2, 3, 4, 4, 4, 4, 5, 6, 6]);
        let operand = dice.below(row.at(4) as u32 + 1);
        let after = row.step(kind, operand).2;
        let hidden = row.hidden_after(kind, operand);
        if is_in_range(&after) {
            assert_eq!(hidden, hidden_in(&after));
            told += u32::from(hidden > 1);
        } else {
            assert_eq!(hidden, 0);
            not_told += u32::from(hidden_in(&after) > 0);
        }
    }
    assert!(told > 1000 && not_told > 100, "{told} and {not_told}");
}

/// Who made each pending store is remembered here, and not what is in it.
#[test]
fn a_schedules_number_is_that_of_its_takes_first_stores() {
    let mut dice = Dice::new(25);
    let mut met = [0; 65];
    for _ in 0..400 {
        let sizes = Sizes {
            margin: dice.below(65),
            ..dice.sizes()
        };
        let mut row = Row::fresh(&sizes);
        let mut by_take_step_1 = VecDeque::new();
        for (kind, operand) in dice.entries(&sizes, 400) {
            let hidden = row.hidden_after(kind, operand);
            let after = row.step(kind, operand).2;
            match after.at(PENDING) - row.at(PENDING) {
                1 => by_take_step_1.push_back(kind == 4 && row.at(WORKER) == 4),
                -1 => drop(by_take_step_1.pop_front()),
                _ => {}
            }
            let pending = by_take_step_1.iter().filter(|&&it| it).count();
            assert_eq!(hidden as usize, pending);
            met[pending] += 1;
            row = after;
        }
    }
    assert!(met[..4].iter().all(|&times| times > 100), "{met:?}");
}

#[test]
fn the_operand_is_of_no_account_where_it_names_nobody() {
    let taking = Row::fresh(&ROOMY).with(WORKER, &[4]);
    let idle = Row::fresh(&ROOMY).with_pending(&[[1, 1, 0]]);
    for (row, kind) in [(&idle, 0), (&idle, 1), (&idle, 3), (&taking, 4)] {
        assert_eq!(row.step(kind, u32::MAX), row.step(kind, 0));
        assert_eq!(row.step(kind, 8).0, 0);
    }
    assert_eq!(idle.moved(2, u32::MAX).part(WORKER, 3), [1, 0, 0xffff_ffff]);
}

#[test]
fn a_total_at_its_largest_stays_there() {
    let row = Row::fresh(&ROOMY).with(WORKER, &[12]);
    let row = row.with(THIEVES, &[6, 0, 1, 8]);
    let tally = |totals, kind, thief| step_of_image(&row.bytes(), totals, kind, thief).2;
    const MOST: u32 = u32::MAX;
    for (start, kind, thief, end) in [
        ([1, 2, 3], 4, 0, [2, 2, 3]),
        ([1, 2, 3], 6, 0, [2, 2, 3]),
        ([1, 2, 3], 6, 1, [1, 3, 3]),
        ([1, 2, 3], 0, 0, [1, 2, 4]),
        ([1, 2, 3], 6, 2, [1, 2, 4]),
        ([1, 2, 3], 2, 0, [1, 2, 3]),
        ([MOST - 1, MOST, MOST], 4, 0, [MOST; 3]),
        ([MOST, MOST - 1, MOST], 6, 1, [MOST; 3]),
        ([MOST, MOST, MOST - 1], 0, 0, [MOST; 3]),
        ([MOST, 0, 0], 4, 0, [MOST, 0, 0]),
        ([0, MOST, 0], 6, 1, [0, MOST, 0]),
        ([0, 0, MOST], 0, 0, [0, 0, MOST]),
    ] {
        assert_eq!(tally(start, kind, thief), end);
    }
    let out = row.with(HEAD, &[-2]).bytes();
    assert_eq!(step_of_image(&out, [MOST; 3], 4, 0).2, [MOST; 3]);
}

/// The places that no operation on these sizes may touch, nor depend on.
fn out_of_use(row: &Row) -> Vec<usize> {
    let slots = SLOTS + row.at(0) as usize..SLOTS + 256;
    let stores = STORES + 3 * (row.at(PENDING) as usize + 1)..COUNT;
    let thieves = THIEVES + 3 * row.at(4) as usize..487;
    slots.chain(stores).chain(thieves).collect()
}

/// Machines that no schedule leads to: a refused entry changes nothing, and
/// what is out of use comes back and changes nothing either.
#[test]
fn any_machine_keeps_what_is_not_in_use() {
    let mut dice = Dice::new(22);
    for _ in 0..20_000 {
        let (row, other) = (dice.row(), dice.row());
        let out_of_use = out_of_use(&row);
        let changed = row.with_places_of(&other, &out_of_use);
        let kind = dice.below(7) as u8;
        let operand = dice.below(row.at(4) as u32 + 1);
        let (number, value, after) = row.step(kind, operand);
        assert!(!matches!(number, 5..=7) || after == row);
        assert_eq!(after.with_places_of(&row, &out_of_use), after);
        let after = after.with_places_of(&other, &out_of_use);
        assert_eq!(changed.step(kind, operand), (number, value, after));
    }
}

#[test]
#[should_panic(expected = "a machine has 487 numbers")]
fn a_machine_has_one_length() {
    step_of_image(&[0; IMAGE_BYTES - 8], [0; 3], 0, 0);
}

#[test]
#[should_panic(expected = "a kind is 0 to 6")]
fn there_is_no_seventh_kind() {
    step_of_image(&fresh_image(&ROOMY), [0; 3], 7, 0);
}
