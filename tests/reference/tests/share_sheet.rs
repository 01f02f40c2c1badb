//! Share sheets: what stands in them byte by byte, what is refused, in which
//! order, and which bytes are left alone.

mod common;

use common::{file, refusal, Dice, SHORT, SIZES};
use reference::{needed_margin, run, share_sheet, Refusal, Sizes};

const MARGIN: Refusal = refusal(9, 3);
const ROOM: Refusal = refusal(8, 0);
const COUNT: Refusal = refusal(1, 7);

/// Room for the largest sheet there is.
const LARGEST: usize = 1 + 5 * 255;

/// Slots and thieves enough for a few calls; a store must be drained at once.
const ROOMY: Sizes = Sizes {
    slots: 8,
    thieves: 8,
    ..SIZES
};

type Entries = Vec<(u8, u32)>;

/// Six entries, after which the block is in memory.
fn put(block: u32) -> Entries {
    vec![(2, block), (4, 0), (4, 0), (0, 0), (4, 0), (0, 0)]
}

/// Four entries, the last of which answers where no thief is near.
fn take() -> Entries {
    vec![(3, 0), (4, 0), (4, 0), (4, 0)]
}

/// Seven entries, the last of which answers.
fn steal(thief: u32) -> Entries {
    [vec![(5, thief)], vec![(6, thief); 6]].concat()
}

/// Entries that only wait once nothing is pending.
fn drains(entries: usize) -> Entries {
    vec![(0, 0); entries]
}

/// The sheet of a file that is accepted; bytes beyond it must stay.
fn sheet(file: &[u8], count: u32) -> Vec<u8> {
    let length = 1 + 5 * count as usize;
    let mut sheet = vec![0xee; length + 3];
    assert_eq!(share_sheet(file, count, &mut sheet), Ok(length));
    assert_eq!(sheet.split_off(length), [0xee; 3]);
    sheet
}

/// Party and entry of each block, from first to last.
fn shares(sizes: Sizes, entries: &[(u8, u32)], count: u32) -> Vec<(u8, u32)> {
    let sheet = sheet(&file(sizes, entries), count);
    assert_eq!(u32::from(sheet[0]), count);
    let (parties, places) = sheet[1..].split_at(count as usize);
    let places = places.chunks(4).map(|it| it.try_into().unwrap());
    let places = places.map(u32::from_le_bytes);
    parties.iter().copied().zip(places).collect()
}

const NOT_GIVEN: (u8, u32) = (255, 0);

/// Room for the sheet comes last of all, so no other refusal depends on it.
fn assert_refused(file: &[u8], count: u32, expected: Refusal) {
    for room in [0, 1, LARGEST] {
        let mut sheet = vec![0xee; room];
        assert_eq!(share_sheet(file, count, &mut sheet), Err(expected));
        assert!(sheet.iter().all(|&byte| byte == 0xee));
    }
}

fn assert_no_room(file: &[u8], count: u32, room: usize) {
    let mut sheet = vec![0xee; room];
    assert_eq!(share_sheet(file, count, &mut sheet), Err(ROOM));
    assert!(sheet.iter().all(|&byte| byte == 0xee));
}

#[test]
fn a_sheet_byte_by_byte() {
    let entries = [put(3), put(1), put(5), steal(1), take()].concat();
    let expected = [
        &[5][..],
        &[255, 255, 2, 255, 0],
        &[0, 0, 0, 0], // stored and not given
        &[0, 0, 0, 0], // never put
        &[24, 0, 0, 0],
        &[0, 0, 0, 0], // never put
        &[28, 0, 0, 0],
    ];
    assert_eq!(sheet(&file(ROOMY, &entries), 5), expected.concat());
}

#[test]
fn without_entries_nothing_is_given() {
    let file = file(SIZES, &[]);
    assert_eq!(sheet(&file, 1), [1, 255, 0, 0, 0, 0]);
    let expected = [&[255][..], &[255; 255], &[0; 1020]].concat();
    assert_eq!(sheet(&file, 255), expected);
}

#[test]
fn every_thief_is_a_party() {
    for thief in 0..8 {
        let entries = [put(1), put(2), steal(thief), take()].concat();
        let party = 1 + thief as u8;
        assert_eq!(shares(ROOMY, &entries, 2), [(party, 18), (0, 22)]);
    }
}

#[test]
fn an_entry_number_has_four_bytes() {
    for entry in [9, 255, 256, 0x0102, 4095] {
        let entries = [drains(entry - 9), put(1), take()].concat();
        assert_eq!(entries.len(), entry + 1);
        let [low, high, ..] = entry.to_le_bytes();
        let expected = [1, 0, low, high, 0, 0];
        assert_eq!(sheet(&file(SIZES, &entries), 1), expected);
    }
}

#[test]
fn a_steal_gives_where_it_answers() {
    let entries = [put(1), put(2), steal(1)].concat();
    let (before, after) = entries.split_at(17);
    assert_eq!(
        shares(ROOMY, &entries[..18], 2),
        [NOT_GIVEN; 2],
        "it has the block and has not said so"
    );
    let held_up = [before, &drains(300), after].concat();
    assert_eq!(shares(ROOMY, &held_up, 2), [(2, 318), NOT_GIVEN]);
}

/// The take meets a lifted head, so it loads its block only after an unlock.
#[test]
fn a_long_take_gives_with_its_last_step() {
    let lifted = [(5, 3), (6, 3), (6, 3), (6, 3)];
    let take_waits = [(3, 0), (4, 0), (4, 0), (0, 0), (4, 0)];
    let aborted = [(6, 3); 3];
    let take_goes_on = [(4, 0); 4];
    let entries = [
        &put(1)[..],
        &lifted,
        &take_waits,
        &aborted,
        &take_goes_on[..3],
    ]
    .concat();
    assert_eq!(shares(ROOMY, &entries, 1), [NOT_GIVEN]);
    let entries = [&entries[..], &take_goes_on[3..]].concat();
    assert_eq!(shares(ROOMY, &entries, 1), [(0, 21)]);
}

#[test]
fn all_blocks_that_a_sheet_can_have() {
    let sizes = Sizes {
        slots: 256,
        ..ROOMY
    };
    let puts = (1..=255).rev().flat_map(put);
    let steals = (0..254).flat_map(|which| steal(which % 8));
    let entries: Entries = puts.chain(steals).chain(take()).collect();
    // The oldest block is the highest, and the worker gets the newest.
    let stolen = |which: u32| (1 + (which % 8) as u8, 6 * 255 + 7 * which + 6);
    let mut expected = vec![(0, 6 * 255 + 7 * 254 + 3)];
    expected.extend((0..254).rev().map(stolen));
    assert_eq!(shares(sizes, &entries, 255), expected);
}

const TWO_SLOTS: Sizes = Sizes { slots: 2, ..ROOMY };
const AT_THE_END: Sizes = Sizes {
    start: 0x7fff_ffff,
    ..ROOMY
};

fn outcome(sizes: Sizes, entries: &[(u8, u32)], place: usize) -> u8 {
    let mut trace = vec![0; 4 + 5 * entries.len()];
    run(&file(sizes, entries), &mut trace).unwrap();
    trace[4 + place]
}

#[test]
fn a_put_that_stores_nothing_has_nothing_to_give() {
    let out_of_place = [&[(2, 1)], &[(2, 2)], &put(1)[1..], &take()].concat();
    assert_eq!(outcome(ROOMY, &out_of_place, 1), 5);
    assert_eq!(shares(ROOMY, &out_of_place, 2), [(0, 10), NOT_GIVEN]);
    let full = [&put(1)[..], &[(2, 2), (4, 0)], &take()].concat();
    assert_eq!(outcome(TWO_SLOTS, &full, 7), 20);
    assert_eq!(shares(TWO_SLOTS, &full, 2), [(0, 11), NOT_GIVEN]);
    let end = [(2, 1), (4, 0)];
    assert_eq!(outcome(AT_THE_END, &end, 1), 21);
    assert_eq!(shares(AT_THE_END, &end, 1), [NOT_GIVEN]);
}

#[test]
fn a_count_is_1_to_255() {
    let file = file(SIZES, &[]);
    for bad in [0, 256, 257, 0x0100_0001, u32::MAX] {
        assert_refused(&file, bad, COUNT);
    }
    for good in [1, 2, 254, 255] {
        assert_eq!(u32::from(sheet(&file, good)[0]), good);
    }
}

#[test]
fn the_margin_in_use_must_be_enough() {
    for (buffer, spacing) in [(2, 0), (33, 1), (64, 0), (64, 63), (5, 3)] {
        let with_margin = |margin| {
            let sizes = Sizes {
                buffer,
                spacing,
                margin,
                ..SIZES
            };
            file(sizes, &[])
        };
        let needed = needed_margin(buffer, spacing);
        for short in 1..needed {
            assert_refused(&with_margin(short), 1, MARGIN);
        }
        for enough in (needed..=64).chain([0]) {
            assert_eq!(sheet(&with_margin(enough), 1), [1, 255, 0, 0, 0, 0]);
        }
    }
}

#[test]
fn a_block_is_one_of_the_count() {
    for (count, bad) in [
        (1, 0),
        (1, 2),
        (5, 6),
        (5, 257),
        (5, 0x0001_0001),
        (5, u32::MAX),
        (255, 0),
        (255, 256),
    ] {
        assert_refused(&file(SIZES, &[(2, bad)]), count, refusal(10, 0));
        let later = [&put(1)[..], &drains(300), &[(2, bad)]].concat();
        assert_refused(&file(SIZES, &later), count, refusal(10, 306));
    }
    for (count, good) in [(1, 1), (5, 1), (5, 5), (255, 255)] {
        sheet(&file(SIZES, &[(2, good)]), count);
    }
}

#[test]
fn the_first_bad_block_is_named() {
    let twice = [put(1), put(2), put(1), put(2)].concat();
    assert_refused(&file(ROOMY, &twice), 2, refusal(10, 12));
    let after_it_was_given = [put(1), take(), drains(1), put(1)].concat();
    assert_refused(&file(ROOMY, &after_it_was_given), 2, refusal(10, 11));
    for first in [0, 1, 2, 3, u32::MAX] {
        for later in [0, 1, 2, 3, u32::MAX] {
            let entries = [put(1), put(2), put(first), put(later)].concat();
            assert_refused(&file(ROOMY, &entries), 2, refusal(10, 12));
        }
    }
}

/// The operands of other kinds are no blocks.
#[test]
fn only_begin_puts_name_blocks() {
    let entries = [put(1), put(2), steal(0), steal(1), steal(7)].concat();
    assert_eq!(shares(ROOMY, &entries, 2), [(1, 18), NOT_GIVEN]);
}

#[test]
fn a_begin_put_counts_out_of_place() {
    for bad in [0, 1, 3] {
        let entries = [(2, 1), (2, bad)];
        assert_eq!(outcome(ROOMY, &entries, 1), 5);
        assert_refused(&file(ROOMY, &entries), 2, refusal(10, 1));
    }
    let used = [&[(2, 1)], &[(2, 2)], &put(1)[1..], &put(2)].concat();
    assert_eq!(outcome(ROOMY, &used, 1), 5);
    assert_refused(&file(ROOMY, &used), 2, refusal(10, 7));
}

#[test]
fn a_begin_put_counts_where_its_put_stores_nothing() {
    for bad in [0, 1, 3] {
        let full = [&put(1)[..], &[(2, bad), (4, 0)]].concat();
        assert_eq!(outcome(TWO_SLOTS, &full, 7), 20);
        assert_refused(&file(TWO_SLOTS, &full), 2, refusal(10, 6));
    }
    let full = [&put(1)[..], &[(2, 2), (4, 0)], &take()].concat();
    let used = [full, drains(1), put(2)].concat();
    assert_eq!(outcome(TWO_SLOTS, &used, 7), 20);
    assert_refused(&file(TWO_SLOTS, &used), 2, refusal(10, 13));

    let end_twice = [(2, 1), (4, 0), (2, 1), (4, 0)];
    assert_eq!(outcome(AT_THE_END, &end_twice, 1), 21);
    assert_refused(&file(AT_THE_END, &end_twice), 2, refusal(10, 2));
}

/// A bad block at the end turns all of the schedule away.
#[test]
fn blocks_are_judged_before_anything_is_given() {
    let entries = [put(1), put(2), steal(0), take(), drains(1), put(0)].concat();
    assert_refused(&file(ROOMY, &entries), 2, refusal(10, 24));
}

#[test]
fn a_sheet_takes_what_it_needs_and_no_more() {
    let entries = [put(1), put(2), steal(0), take()].concat();
    let file = file(SIZES, &entries);
    for count in [2, 3, 255] {
        let length = 1 + 5 * count as usize;
        for room in [0, 1, length - 5, length - 1] {
            assert_no_room(&file, count, room);
        }
        let mut just = vec![0xee; length];
        assert_eq!(share_sheet(&file, count, &mut just), Ok(length));
        assert_eq!(just, sheet(&file, count));
    }
}

/// One file with every fault, mended one after the other.
#[test]
fn refusals_come_in_their_order() {
    let bad_size = Sizes {
        slots: 1,
        buffer: 4,
        ..SIZES
    };
    let short_margin = Sizes {
        slots: 4,
        ..bad_size
    };
    let faulty = [(2, 3), (7, 0), (0, 1)];
    assert_refused(&file(bad_size, &faulty)[..27], 0, SHORT);
    assert_refused(&file(bad_size, &faulty)[..42], 0, refusal(1, 0));
    assert_refused(&file(short_margin, &faulty)[..42], 0, SHORT);
    assert_refused(&file(short_margin, &faulty), 0, refusal(3, 1));
    let faulty = [(2, 3), (0, 0), (0, 1)];
    assert_refused(&file(short_margin, &faulty), 0, refusal(4, 2));
    let bad_block = file(short_margin, &[(2, 3), (0, 0), (0, 0)]);
    assert_refused(&bad_block, 0, COUNT);
    assert_refused(&bad_block, 256, COUNT);
    assert_refused(&bad_block, 2, MARGIN);
    let enough = Sizes {
        margin: 0,
        ..short_margin
    };
    let third_block = file(enough, &[(2, 3), (0, 0), (0, 0)]);
    assert_refused(&third_block, 2, refusal(10, 0));
    assert_no_room(&third_block, 3, 15);
    assert_eq!(share_sheet(&third_block, 3, &mut [0; 16]), Ok(16));
}

/// A bad block stands before a bad entry, but the file is looked at first.
#[test]
fn the_file_is_judged_before_its_blocks() {
    let entries = [(2, 0), (2, 0), (6, 1)];
    assert_refused(&file(SIZES, &entries), 1, refusal(4, 2));
    assert_refused(&file(SIZES, &entries[..2]), 1, refusal(10, 0));
}

/// The sheet that a trace comes to: every TASK stands in it, and nothing else.
fn sheet_of_trace(entries: &[(u8, u32)], trace: &[u8], count: u32) -> Vec<u8> {
    let (outcomes, values) = trace[4..].split_at(entries.len());
    let mut parties = vec![255; count as usize];
    let mut places = vec![0; 4 * count as usize];
    for (place, &(kind, operand)) in entries.iter().enumerate() {
        if outcomes[place] != 17 {
            continue;
        }
        assert_eq!(values[4 * place + 1..][..3], [0; 3]);
        let block = usize::from(values[4 * place]) - 1;
        assert_eq!(parties[block], 255, "given to one party at most");
        parties[block] = if kind == 6 { 1 + operand as u8 } else { 0 };
        places[4 * block..][..4].copy_from_slice(&(place as u32).to_le_bytes());
    }
    [vec![count as u8], parties, places].concat()
}

/// Gives each begin put a block of its own, in any order, and leaves out those
/// for which there is none.
fn name_blocks(dice: &mut Dice, entries: &mut Entries, count: u32) {
    let mut blocks: Vec<u32> = (1..=count).collect();
    for entry in entries.iter_mut().filter(|(kind, _)| *kind == 2) {
        *entry = match blocks.len() as u32 {
            0 => (0, 0),
            left => (2, blocks.swap_remove(dice.below(left) as usize)),
        };
    }
}

#[test]
fn sheets_say_what_traces_say() {
    let mut dice = Dice::new(31);
    let (mut taken, mut stolen) = (0, 0);
    for _ in 0..4000 {
        let mut sizes = dice.sizes();
        let needed = needed_margin(sizes.buffer, sizes.spacing);
        sizes.margin = dice.pick(&[0, needed, needed]);
        let count = dice.pick(&[1, 3, 20, 254, 255]);
        let length = dice.pick(&[100, 400, 2000]);
        let mut entries = dice.entries(&sizes, length);
        name_blocks(&mut dice, &mut entries, count);

        let file = file(sizes, &entries);
        let mut trace = vec![0; 4 + 5 * length];
        run(&file, &mut trace).unwrap();
        let sheet = sheet(&file, count);
        assert_eq!(sheet, sheet_of_trace(&entries, &trace, count));
        let parties = &sheet[1..=count as usize];
        taken += parties.iter().filter(|&&party| party == 0).count();
        stolen += parties
            .iter()
            .filter(|party| (1..=8).contains(*party))
            .count();
    }
    assert!(taken > 5000 && stolen > 1000, "{taken} and {stolen}");
}
