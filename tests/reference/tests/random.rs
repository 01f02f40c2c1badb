//! Random schedules before the judge: nothing to find where the margin is
//! enough, and something to find now and then where it is short.

mod common;

use common::{file, Dice};
use reference::plain_queue::{judge, judge_cas, Verdict};
use reference::{needed_margin, read, run, run_cas, Refusal, Sizes, Summary};

type Run = fn(&[u8], &mut [u8]) -> Result<Summary, Refusal>;
type Judge = fn(&[u8]) -> Result<Verdict, Refusal>;

/// The queue with a lock, and the one with compare-and-swap.
const QUEUES: [(Run, Judge); 2] = [(run, judge), (run_cas, judge_cas)];

const NOTHING: Verdict = Verdict {
    given_twice: 0,
    lost: 0,
    first_difference: None,
};

#[test]
fn enough_margin_leaves_nothing_to_find() {
    let mut dice = Dice::new(2);
    for _ in 0..6000 {
        let mut sizes = dice.sizes();
        let needed = needed_margin(sizes.buffer, sizes.spacing);
        sizes.margin = dice.pick(&[0, needed, needed, 64]);
        let count = dice.pick(&[100, 400, 1000]);
        let file = file(sizes, &dice.entries(&sizes, count));
        for (_, judge) in QUEUES {
            assert_eq!(judge(&file), Ok(NOTHING), "{:?}", read(&file));
        }
    }
}

/// How many takes began but for the first, whose spacing nobody asks for.
fn later_takes(run: Run, file: &[u8], entries: &[(u8, u32)]) -> usize {
    let mut trace = vec![0; 4 + 5 * entries.len()];
    run(file, &mut trace).unwrap();
    let outcomes = &trace[4..4 + entries.len()];
    let begun = entries.iter().zip(outcomes);
    let begun = begun.filter(|&(&(kind, _), &outcome)| kind == 3 && outcome == 0);
    begun.count().saturating_sub(1)
}

/// Without a client store only puts keep takes apart, and the needed margin
/// is no other for that.
#[test]
fn puts_alone_keep_takes_apart() {
    let mut dice = Dice::new(5);
    let mut takes = [0; 2];
    for _ in 0..4000 {
        let mut sizes = Sizes {
            spacing: dice.pick(&[1, 1, 2, 3, 4]),
            ..dice.sizes()
        };
        sizes.margin = needed_margin(sizes.buffer, sizes.spacing);
        let mut entries = dice.entries(&sizes, 1000);
        entries.retain(|&(kind, _)| kind != 1);
        let file = file(sizes, &entries);
        for ((run, judge), takes) in QUEUES.into_iter().zip(&mut takes) {
            assert_eq!(judge(&file), Ok(NOTHING), "{:?}", read(&file));
            *takes += later_takes(run, &file, &entries);
        }
    }
    assert!(
        takes.iter().all(|&takes| takes > 10_000),
        "{takes:?} takes after the first"
    );
}

#[test]
fn a_short_margin_is_found_out() {
    for (_, judge) in QUEUES {
        let mut dice = Dice::new(3);
        let (mut twice, mut lost) = (0, 0);
        for _ in 0..2000 {
            let sizes = Sizes {
                slots: 8,
                buffer: 7,
                spacing: 0,
                margin: 1,
                ..dice.sizes()
            };
            let verdict = judge(&file(sizes, &dice.entries(&sizes, 1000))).unwrap();
            let harmed = verdict.given_twice > 0 || verdict.lost > 0;
            assert!(!harmed || verdict.first_difference.is_some());
            twice += usize::from(verdict.given_twice > 0);
            lost += usize::from(verdict.lost > 0);
        }
        assert!(twice > 0 && lost > 0, "twice {twice}, lost {lost}");
    }
}

/// Whichever margin the file sets, short or not.
#[test]
fn no_more_takes_are_hidden_than_the_needed_margin() {
    let mut dice = Dice::new(6);
    let mut reached = [0; 2];
    for _ in 0..6000 {
        let mut sizes = dice.sizes();
        let needed = needed_margin(sizes.buffer, sizes.spacing);
        let any = dice.below(65);
        sizes.margin = dice.pick(&[0, 1, needed, 64, any]);
        let entries = dice.entries(&sizes, 1000);
        let file = file(sizes, &entries);
        let mut trace = vec![0; 4 + 5 * entries.len()];
        for ((run, _), reached) in QUEUES.into_iter().zip(&mut reached) {
            let hidden = run(&file, &mut trace).unwrap().hidden;
            assert!(hidden <= needed, "{hidden} hidden under {sizes:?}");
            *reached += u32::from(hidden == needed && needed > 1);
        }
    }
    assert!(
        reached.iter().all(|&reached| reached > 400),
        "{reached:?} reached"
    );
}

/// Damaged files must be refused or obeyed, and never anything else.
#[test]
fn damage_is_refused_alike_everywhere() {
    let mut dice = Dice::new(4);
    let mut accepted = 0;
    for _ in 0..20000 {
        let sizes = dice.sizes();
        let count = dice.below(12) as usize;
        let mut file = file(sizes, &dice.entries(&sizes, count));
        for _ in 0..dice.below(3) {
            let at = dice.below(file.len() as u32) as usize;
            file[at] = dice.pick(&[0, 1, 7, 8, 0x80, 0xff]);
        }
        file.truncate(file.len() - dice.pick(&[0, 0, 0, 0, 1]));

        for (run, judge) in QUEUES {
            let mut trace = [0xee; 4 + 5 * 12];
            let ran = run(&file, &mut trace);
            assert_eq!(ran.err(), read(&file).err());
            assert_eq!(ran.err(), judge(&file).err());
            let used = ran.map_or(0, |_| 4 + 5 * count);
            assert!(trace[used..].iter().all(|&byte| byte == 0xee));
        }
        accepted += usize::from(read(&file).is_ok());
    }
    assert!(accepted > 5000, "{accepted} accepted");
}
