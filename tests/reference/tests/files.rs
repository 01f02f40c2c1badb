//! Schedule files and trace buffers: what is accepted, what is refused, in
//! which order, and which bytes are left alone.

mod common;

use common::{file, refusal, Dice, SHORT, SIZES};
use reference::plain_queue::{judge, judge_cas};
use reference::{
    alike, entry_at, lines, lines_cas, parts, read, run, run_cas, share_sheet, write, Refusal,
    Sizes, Summary, Totals,
};

const ROOM: Refusal = refusal(8, 0);

/// Every operation on a file must refuse it alike and touch nothing.
fn assert_refused(file: &[u8], expected: Refusal) {
    let mut trace = [0xee; 64];
    assert_eq!(read(file), Err(expected));
    for run in [run, run_cas] {
        assert_eq!(run(file, &mut trace), Err(expected));
        assert_eq!(run(file, &mut []), Err(expected), "ROOM comes last");
        assert_eq!(trace, [0xee; 64]);
    }
    assert_eq!(share_sheet(file, 1, &mut trace), Err(expected));
    assert_eq!(trace, [0xee; 64]);
    assert_eq!(judge(file), Err(expected));
    assert_eq!(judge_cas(file), Err(expected));
    assert_eq!(parts(file), (&[][..], &[][..]));
    let line = format!("refused {} place {}\n", expected.number, expected.place);
    assert_eq!(lines(file), line);
    assert_eq!(lines_cas(file), line);

    let good = common::file(SIZES, &[]);
    assert_eq!(alike(file, &good), Err(expected));
    assert_eq!(alike(&good, file), Err(expected));
    assert_eq!(
        alike(file, &[]),
        Err(expected),
        "the first file's comes first"
    );
}

fn with_size(place: usize, value: u32) -> Vec<u8> {
    let mut file = file(SIZES, &[]);
    file[4 * place..4 * place + 4].copy_from_slice(&value.to_le_bytes());
    file
}

#[test]
fn the_smallest_file_has_no_entries() {
    let file = file(SIZES, &[]);
    assert_eq!(file.len(), 28);
    let schedule = read(&file).unwrap();
    assert_eq!(
        (
            schedule.sizes,
            schedule.kinds.len(),
            schedule.operands.len()
        ),
        (SIZES, 0, 0)
    );
    let nothing = Summary {
        totals: Totals {
            given: 0,
            aborts: 0,
            waits: 0,
        },
        hidden: 0,
    };
    for run in [run, run_cas] {
        let mut trace = [0xee; 6];
        assert_eq!(run(&file, &mut trace), Ok(nothing));
        assert_eq!(trace, [0, 0, 0, 0, 0xee, 0xee]);
        assert_eq!(run(&file, &mut [0; 3]), Err(ROOM));
    }
}

#[test]
fn a_header_cut_short_is_short_whatever_it_says() {
    assert_refused(&[], SHORT);
    assert_refused(&file(SIZES, &[])[..27], SHORT);
    assert_refused(&[0xff; 27], SHORT);
    assert_refused(&[0xff; 28], refusal(1, 0));
}

#[test]
fn every_size_has_its_range() {
    let ranges = [
        (2, 256),
        (1, 64),
        (0, 63),
        (0, 64),
        (1, 8),
        (0, 0x7fff_ffff),
    ];
    for (place, (least, most)) in ranges.into_iter().enumerate() {
        for good in [least, most] {
            assert!(read(&with_size(place, good)).is_ok());
        }
        for bad in [most + 1, u32::MAX]
            .into_iter()
            .chain(u32::checked_sub(least, 1))
        {
            assert_refused(&with_size(place, bad), refusal(1, place as u32));
        }
    }
}

#[test]
fn the_number_of_entries_is_a_size_before_it_is_a_length() {
    assert_refused(&with_size(6, 4096), SHORT);
    for bad in [4097, 0x3333_3334, u32::MAX] {
        assert_refused(&with_size(6, bad), refusal(1, 6));
    }
    let longest = file(SIZES, &[(0, 0); 4096]);
    assert!(read(&longest).is_ok());
    assert_refused(&file(SIZES, &[(0, 0); 4097]), refusal(1, 6));
}

#[test]
fn the_lowest_bad_size_is_named_and_before_the_length() {
    let bad = Sizes {
        buffer: 65,
        thieves: 9,
        ..SIZES
    };
    assert_refused(&file(bad, &[(9, 9)]), refusal(1, 1));
    assert_refused(&file(bad, &[(9, 9)])[..30], refusal(1, 1));
}

#[test]
fn a_length_off_by_one_is_short() {
    let mut file = file(SIZES, &[(9, 0)]);
    assert_refused(&file[..32], SHORT);
    file.push(0);
    assert_refused(&file, SHORT);
}

#[test]
fn the_first_faulty_entry_is_named() {
    assert_refused(&file(SIZES, &[(0, 0), (0, 1), (7, 0)]), refusal(4, 1));
    assert_refused(&file(SIZES, &[(0, 0), (7, 1), (0, 1)]), refusal(3, 1));
    assert_refused(&file(SIZES, &[(255, 0)]), refusal(3, 0));
}

#[test]
fn operands_belong_to_their_kind() {
    let sizes = Sizes {
        thieves: 3,
        ..SIZES
    };
    let verdict = |kind, operand| read(&file(sizes, &[(kind, operand)])).err();
    for kind in [0, 1, 3, 4] {
        assert_eq!(verdict(kind, 0), None);
        assert_eq!(verdict(kind, 1), Some(refusal(4, 0)));
        assert_eq!(verdict(kind, 1 << 31), Some(refusal(4, 0)));
    }
    assert_eq!(verdict(2, u32::MAX), None);
    for kind in [5, 6] {
        assert_eq!(verdict(kind, 2), None);
        assert_eq!(verdict(kind, 3), Some(refusal(4, 0)));
    }
    for kind in 7..=255 {
        assert_eq!(verdict(kind, 1), Some(refusal(3, 0)));
    }
}

#[test]
fn a_trace_takes_what_it_needs_and_no_more() {
    let file = file(SIZES, &[(2, 0x0102_0304), (4, 0), (6, 0)]);
    for run in [run, run_cas] {
        let mut small = [0xee; 18];
        assert_eq!(run(&file, &mut small), Err(ROOM));
        assert_eq!(small, [0xee; 18]);
        let mut trace = [0xee; 21];
        assert!(run(&file, &mut trace).is_ok());
        assert_eq!(trace[..7], [3, 0, 0, 0, 0, 0, 5]);
        assert_eq!(trace[7..19], [0; 12]);
        assert_eq!(trace[19..], [0xee; 2]);
    }
}

#[test]
fn a_task_number_comes_out_with_its_least_byte_first() {
    let give = [(2, 0x0102_0304), (4, 0), (4, 0), (0, 0), (4, 0), (0, 0)];
    let take = [(3, 0), (4, 0), (4, 0), (4, 0)];
    let file = file(SIZES, &[&give[..], &take].concat());
    let mut trace = [0xee; 54];
    let summary = run(&file, &mut trace).unwrap();
    assert_eq!(trace[4..14], [0, 0, 0, 0, 16, 0, 0, 0, 0, 17]);
    assert_eq!(trace[50..], [4, 3, 2, 1]);
    let totals = Totals {
        given: 1,
        aborts: 0,
        waits: 0,
    };
    assert_eq!(summary, Summary { totals, hidden: 1 });
}

/// The same entries and four more: with compare-and-swap a take of the last
/// task stores the tail twice, and its swap needs both stores drained.
#[test]
fn a_task_won_by_a_swap_comes_out_likewise() {
    let give = [(2, 0x0102_0304), (4, 0), (4, 0), (0, 0), (4, 0), (0, 0)];
    let take = [
        (3, 0),
        (4, 0),
        (4, 0),
        (4, 0),
        (0, 0),
        (4, 0),
        (4, 0),
        (0, 0),
        (4, 0),
        (4, 0),
    ];
    let file = file(SIZES, &[&give[..], &take].concat());
    let mut trace = [0xee; 84];
    let summary = run_cas(&file, &mut trace).unwrap();
    assert_eq!(trace[4..10], [0, 0, 0, 0, 16, 0]);
    assert_eq!(trace[10..20], [0, 0, 0, 7, 0, 0, 7, 0, 0, 17]);
    assert_eq!(trace[20..80], [0; 60]);
    assert_eq!(trace[80..], [4, 3, 2, 1]);
    let totals = Totals {
        given: 1,
        aborts: 0,
        waits: 2,
    };
    assert_eq!(summary, Summary { totals, hidden: 1 });
}

#[test]
fn what_is_written_is_read_again() {
    let mut dice = Dice::new(1);
    for _ in 0..200 {
        let mut sizes = dice.sizes();
        sizes.margin = dice.below(65);
        let count = dice.below(40) as usize;
        let entries = dice.entries(&sizes, count);
        let (kinds, operands): (Vec<u8>, Vec<u32>) = entries.iter().copied().unzip();
        let by_hand = file(sizes, &entries);

        let mut written = vec![0xee; by_hand.len() + 3];
        assert_eq!(
            write(&sizes, &kinds, &operands, &mut written),
            Ok(by_hand.len())
        );
        assert_eq!(written[..by_hand.len()], by_hand);
        assert_eq!(written[by_hand.len()..], [0xee; 3]);
        let (kind_part, operand_part) = parts(&by_hand);
        assert_eq!(kind_part, &by_hand[28..28 + count]);
        assert_eq!(operand_part, &by_hand[28 + count..]);
        let schedule = read(&by_hand).unwrap();
        assert_eq!(schedule.sizes, sizes);
        assert_eq!((schedule.kinds, schedule.operands), (kinds, operands));
    }
}

#[test]
fn the_writer_refuses_in_the_readers_order() {
    let write = |sizes: &Sizes, kinds: &[u8], operands: &[u32], room: usize| {
        let mut file = vec![0xee; room];
        let refused = reference::write(sizes, kinds, operands, &mut file).unwrap_err();
        assert!(file.iter().all(|&byte| byte == 0xee));
        refused
    };
    let bad = Sizes {
        start: 1 << 31,
        ..SIZES
    };
    assert_eq!(write(&bad, &[0; 4097], &[], 0), refusal(1, 5));
    assert_eq!(write(&SIZES, &[0; 4097], &[], 0), refusal(1, 6));
    assert_eq!(write(&SIZES, &[9], &[], 0), SHORT);
    assert_eq!(write(&SIZES, &[], &[0], 28), SHORT);
    assert_eq!(write(&SIZES, &[0, 9], &[0, 0], 0), refusal(3, 1));
    assert_eq!(write(&SIZES, &[0, 6, 9], &[0, 1, 0], 0), refusal(4, 1));
    assert_eq!(write(&SIZES, &[0, 6], &[0, 0], 37), ROOM);
    assert_eq!(write(&SIZES, &[], &[], 27), ROOM);
}

#[test]
fn parts_stand_in_the_file_itself() {
    let file = file(SIZES, &[(2, 0x0102_0304), (4, 0), (6, 0)]);
    let (kinds, operands) = parts(&file);
    assert_eq!(kinds, [2, 4, 6]);
    assert_eq!(operands, [4, 3, 2, 1, 0, 0, 0, 0, 0, 0, 0, 0]);
    assert_eq!(kinds.as_ptr(), file[28..].as_ptr());
    assert_eq!(operands.as_ptr(), file[31..].as_ptr());
    assert_eq!(parts(&common::file(SIZES, &[])), (&[][..], &[][..]));
}

#[test]
fn an_entry_stands_in_both_arrays() {
    let operands = [4, 3, 2, 1, 1, 0, 0, 0, 9];
    let at = |kinds: &[u8], length: usize, place| entry_at(kinds, &operands[..length], 2, place);
    assert_eq!(at(&[2, 6], 8, 0), Ok((2, 0x0102_0304)));
    assert_eq!(at(&[2, 6], 8, 1), Ok((6, 1)));
    assert_eq!(at(&[2, 6], 8, 2), Err(SHORT));
    assert_eq!(at(&[2, 6, 0], 8, 2), Err(SHORT));
    assert_eq!(at(&[2, 6, 9], 9, 2), Err(SHORT), "a third of one byte");
    assert_eq!(at(&[2, 6], 7, 1), Err(SHORT), "a second of three bytes");
    assert_eq!(at(&[2, 6], 7, 0), Ok((2, 0x0102_0304)));
    assert_eq!(at(&[2], 8, 1), Err(SHORT));
    assert_eq!(at(&[], 8, 0), Err(SHORT));
    assert_eq!(at(&[2], 0, 0), Err(SHORT));
    assert_eq!(at(&[2, 6], 8, u32::MAX), Err(SHORT));
}

#[test]
fn an_entry_is_judged_by_itself() {
    let at = |kind: u8, operand: u32, thieves, place: u32| {
        let kinds = [&vec![9; place as usize][..], &[kind]].concat();
        let operands = [&vec![0xff; 4 * place as usize][..], &operand.to_le_bytes()].concat();
        entry_at(&kinds, &operands, thieves, place)
    };
    for place in [0, 1, 5000] {
        for kind in [0, 1, 3, 4] {
            assert_eq!(at(kind, 0, 1, place), Ok((kind, 0)));
            assert_eq!(at(kind, 1 << 24, 1, place), Err(refusal(4, place)));
        }
        assert_eq!(at(2, u32::MAX, 0, place), Ok((2, u32::MAX)));
        for kind in [5, 6] {
            for thieves in [1, 8, 9, u32::MAX] {
                let last = thieves - 1;
                assert_eq!(at(kind, last, thieves, place), Ok((kind, last)));
                assert_eq!(at(kind, thieves, thieves, place), Err(refusal(4, place)));
            }
            assert_eq!(at(kind, 0, 0, place), Err(refusal(4, place)));
        }
        for kind in 7..=255 {
            assert_eq!(at(kind, 1, 1, place), Err(refusal(3, place)));
        }
    }
}
