//! The check of the entries, which is lent sizes and two arrays and sees
//! nothing else of a file.

mod common;

use common::{file, refusal, Dice, SHORT, SIZES};
use reference::{check_entries, entry_at, lines, read, Refusal, Sizes};

type Checked = Result<(), Refusal>;

/// The two arrays of kind/operand pairs, put together without the writer.
fn arrays(entries: &[(u8, u32)]) -> (Vec<u8>, Vec<u8>) {
    let kinds = entries.iter().map(|&(kind, _)| kind);
    let operands = entries
        .iter()
        .flat_map(|(_, operand)| operand.to_le_bytes());
    (kinds.collect(), operands.collect())
}

fn check(sizes: &Sizes, entries: &[(u8, u32)]) -> Checked {
    let (kinds, operands) = arrays(entries);
    check_entries(sizes, &kinds, &operands)
}

fn with_thieves(thieves: u32) -> Sizes {
    Sizes { thieves, ..SIZES }
}

const KIND: (u8, u32) = (7, 0);
const WHO: (u8, u32) = (6, 1);

#[test]
fn good_entries_pass() {
    assert_eq!(check(&SIZES, &[]), Ok(()));
    let one_of_each = [
        (0, 0),
        (1, 0),
        (2, u32::MAX),
        (3, 0),
        (4, 0),
        (5, 0),
        (6, 0),
    ];
    assert_eq!(check(&SIZES, &one_of_each), Ok(()));
}

#[test]
fn the_first_of_several_faults_is_named() {
    for (fault, number) in [(KIND, 3), (WHO, 4)] {
        for later in [KIND, WHO, (0, 1), (255, u32::MAX)] {
            for place in 0..6 {
                let good = vec![(0, 0); place as usize];
                let next = [&good[..], &[fault, later]].concat();
                let apart = [&good[..], &[fault, (2, 9), later, (4, 0), later]].concat();
                assert_eq!(check(&SIZES, &next), Err(refusal(number, place)));
                assert_eq!(check(&SIZES, &apart), Err(refusal(number, place)));
            }
        }
    }
}

/// The arrays say how many entries there are, also where no file has so many.
#[test]
fn a_fault_at_the_last_entry_is_found() {
    for last in [0, 1, 2, 4095, 4096, 70_000] {
        let mut entries = vec![(2, 0xffff_ff07); last as usize];
        assert_eq!(check(&SIZES, &entries), Ok(()));
        entries.push((0, 0));
        assert_eq!(check(&SIZES, &entries), Ok(()));
        for (fault, number) in [(KIND, 3), (WHO, 4)] {
            entries[last as usize] = fault;
            assert_eq!(check(&SIZES, &entries), Err(refusal(number, last)));
        }
    }
}

#[test]
fn within_an_entry_the_kind_comes_first() {
    for thieves in [0, 1, u32::MAX] {
        for kind in 7..=255 {
            for operand in [0, 1, thieves, u32::MAX] {
                let entries = [(0, 0), (kind, operand), (0, 1)];
                let checked = check(&with_thieves(thieves), &entries);
                assert_eq!(checked, Err(refusal(3, 1)));
            }
        }
    }
}

#[test]
fn an_operand_counts_with_all_its_bytes() {
    for bit in 0..32 {
        for kind in [0, 1, 3, 4, 5, 6] {
            let entries = [(2, 1 << bit), (kind, 1 << bit)];
            assert_eq!(check(&SIZES, &entries), Err(refusal(4, 1)));
        }
    }
    let many = with_thieves(0x0102_0304);
    assert_eq!(check_entries(&many, &[6], &[3, 3, 2, 1]), Ok(()));
    assert_eq!(
        check_entries(&many, &[6], &[4, 3, 2, 1]),
        Err(refusal(4, 0))
    );
    assert_eq!(
        check_entries(&many, &[6], &[1, 2, 3, 4]),
        Err(refusal(4, 0))
    );
}

#[test]
fn thieves_are_judged_by_the_sizes_lent() {
    for kind in [5, 6] {
        let thief = |thieves, thief| check(&with_thieves(thieves), &[(0, 0), (kind, thief)]);
        for thieves in [1, 2, 8, 9, 256, 1 << 31, u32::MAX] {
            assert_eq!(thief(thieves, 0), Ok(()));
            assert_eq!(thief(thieves, thieves - 1), Ok(()));
            assert_eq!(thief(thieves, thieves), Err(refusal(4, 1)));
            assert_eq!(
                thief(thieves, u32::MAX),
                Err(refusal(4, 1)),
                "of {thieves} thieves"
            );
        }
        for nobody in [0, 1, u32::MAX] {
            assert_eq!(thief(0, nobody), Err(refusal(4, 1)));
        }
    }
}

/// Where there are no thieves at all, or more than anywhere, a drain still
/// has no operand and a put still has any.
#[test]
fn only_thieves_are_judged_by_the_sizes() {
    for size in [0, 1, 9, u32::MAX] {
        let sizes = Sizes {
            slots: size,
            buffer: size,
            spacing: size,
            margin: size,
            thieves: size,
            start: size,
        };
        assert_eq!(check(&sizes, &[(2, u32::MAX), (2, 0)]), Ok(()));
        for kind in [0, 1, 3, 4] {
            assert_eq!(check(&sizes, &[(kind, 0)]), Ok(()));
            assert_eq!(check(&sizes, &[(kind, 1)]), Err(refusal(4, 0)));
        }
        let others_in_range = with_thieves(size);
        for thief in [0, 1, 8, 9, u32::MAX] {
            let entries = [(5, thief)];
            assert_eq!(check(&sizes, &entries), check(&others_in_range, &entries));
        }
    }
}

#[test]
fn arrays_that_are_not_parallel_are_short() {
    for fill in [0, 7, 0xff] {
        for count in 0..20 {
            let kinds = vec![fill; count];
            for length in (0..100).filter(|&length| length != 4 * count) {
                let operands = vec![fill; length];
                let checked = check_entries(&SIZES, &kinds, &operands);
                assert_eq!(checked, Err(SHORT), "{count} kinds, {length} bytes");
            }
        }
    }
}

#[test]
fn a_length_off_by_one_byte_is_short() {
    for entries in [[(0, 0), (4, 0)], [KIND, WHO], [(0, 0), WHO]] {
        let (kinds, mut operands) = arrays(&entries);
        assert_eq!(check_entries(&SIZES, &kinds, &operands[..7]), Err(SHORT));
        assert_eq!(check_entries(&SIZES, &kinds[..1], &operands), Err(SHORT));
        operands.push(0);
        assert_eq!(check_entries(&SIZES, &kinds, &operands), Err(SHORT));
    }
}

#[test]
fn one_empty_array_is_short() {
    for sizes in [SIZES, with_thieves(0), with_thieves(u32::MAX)] {
        for length in [1, 3, 4, 5, 8] {
            assert_eq!(check_entries(&sizes, &[], &vec![0; length]), Err(SHORT));
            assert_eq!(check_entries(&sizes, &vec![0; length], &[]), Err(SHORT));
            assert_eq!(check_entries(&sizes, &vec![7; length], &[]), Err(SHORT));
        }
        assert_eq!(check_entries(&sizes, &[], &[]), Ok(()));
    }
}

/// A good list with a few bytes of its arrays changed.
fn damaged(dice: &mut Dice, sizes: &Sizes) -> Vec<(u8, u32)> {
    let count = 1 + dice.below(12);
    let mut entries = dice.entries(sizes, count as usize);
    for _ in 0..dice.below(4) {
        let (kind, operand) = &mut entries[dice.below(count) as usize];
        *kind = dice.pick(&[*kind, *kind, 5, 6, 7, 255]);
        *operand = dice.pick(&[*operand, 0, 1, sizes.thieves, 1 << 24]);
    }
    entries
}

/// Sizes that are in range leave nothing else to refuse in such a file.
#[test]
fn a_file_is_refused_by_this_check() {
    let mut dice = Dice::new(21);
    let mut refused = [0; 5];
    for _ in 0..20_000 {
        let sizes = dice.sizes();
        let entries = damaged(&mut dice, &sizes);
        let file = file(sizes, &entries);
        let checked = check(&sizes, &entries);
        assert_eq!(read(&file).map(drop), checked);
        let accepted = !lines(&file).starts_with("refused");
        assert_eq!(accepted, checked.is_ok());
        refused[checked.map_or_else(|it| it.number as usize, |()| 0)] += 1;
    }
    assert!(refused[0] > 1000, "{refused:?}");
    assert!(refused[3] > 1000 && refused[4] > 1000, "{refused:?}");
}

#[test]
fn the_check_is_that_of_each_entry_in_turn() {
    let mut dice = Dice::new(22);
    for _ in 0..20_000 {
        let sizes = dice.sizes();
        let entries = damaged(&mut dice, &sizes);
        let (kinds, operands) = arrays(&entries);
        let thieves = dice.pick(&[0, 1, sizes.thieves, 9, u32::MAX]);
        let mut places = 0..entries.len() as u32;
        let in_turn =
            places.try_for_each(|place| entry_at(&kinds, &operands, thieves, place).map(drop));
        assert_eq!(
            check_entries(&with_thieves(thieves), &kinds, &operands),
            in_turn
        );
    }
}
