//! The program's lines, and schedules that are alike.

mod common;

use common::{file, Dice, SIZES};
use reference::{alike, lines, lines_cas, run, run_cas, Sizes};

const EXAMPLE: [(u8, u32); 6] = [(2, 7), (4, 0), (4, 0), (4, 0), (0, 0), (4, 0)];

/// What both programs print for the example, up to the end of the last line.
const EXAMPLE_LINES: &str = "\
4 1 0 1 1 0 enough
0 0 0
1 0 0
2 0 0
3 7 0
4 0 0
5 16 0
given 0 aborts 0 waits 1";

#[test]
fn the_example_prints_its_lines() {
    assert_eq!(
        lines(&file(SIZES, &EXAMPLE)),
        format!("{EXAMPLE_LINES} hidden 0\n")
    );
}

#[test]
fn the_first_line_has_the_margin_in_use() {
    let first = |buffer, spacing, margin| {
        let sizes = Sizes {
            buffer,
            spacing,
            margin,
            ..SIZES
        };
        lines(&file(sizes, &[]))
            .lines()
            .next()
            .map(str::to_owned)
            .unwrap()
    };
    assert_eq!(first(33, 1, 0), "4 33 1 33 1 0 enough");
    assert_eq!(first(33, 1, 17), "4 33 1 17 1 0 enough");
    assert_eq!(first(33, 1, 16), "4 33 1 16 1 0 short");
}

#[test]
fn the_last_line_has_the_totals() {
    let put = [(2, 9), (4, 0), (4, 0), (0, 0), (4, 0), (0, 0)];
    let steal = [(5, 0), (6, 0), (6, 0), (6, 0), (6, 0), (6, 0), (6, 0)];
    let wait = [(0, 0)];
    let file = file(SIZES, &[&put[..], &put, &steal, &steal, &wait].concat());
    assert_eq!(
        lines(&file).lines().last(),
        Some("given 1 aborts 1 waits 1 hidden 0")
    );
}

/// Three tasks in memory; then takes by twos and ones, drained or not.
#[test]
fn the_last_line_ends_with_the_largest_hidden() {
    let put = [put(9), vec![(0, 0), (0, 0)]].concat();
    let take = [(3, 0), (4, 0), (4, 0), (4, 0)];
    let drain = [(0, 0)];
    let last = |parts: &[&[(u8, u32)]]| {
        let entries = [&[&put[..], &put, &put], parts].concat().concat();
        let lines = lines(&file(TWO_THIEVES, &entries));
        lines.lines().last().map(str::to_owned).unwrap()
    };
    for (parts, line) in [
        (&[][..], "given 0 aborts 0 waits 0 hidden 0"),
        (&[&take[..1]], "given 0 aborts 0 waits 0 hidden 0"),
        (&[&take[..2]], "given 0 aborts 0 waits 0 hidden 1"),
        (&[&take], "given 1 aborts 0 waits 0 hidden 1"),
        (&[&take, &drain], "given 1 aborts 0 waits 0 hidden 1"),
        (&[&take, &drain, &take], "given 2 aborts 0 waits 0 hidden 1"),
        (&[&take, &take, &drain], "given 2 aborts 0 waits 0 hidden 2"),
        (
            &[&take, &take, &drain, &drain, &take, &drain, &drain],
            "given 3 aborts 0 waits 1 hidden 2",
        ),
        (
            &[&take, &take, &take, &drain, &drain],
            "given 3 aborts 0 waits 0 hidden 3",
        ),
    ] {
        assert_eq!(last(parts), line);
    }
}

#[test]
fn an_empty_schedule_prints_two_lines() {
    assert_eq!(
        lines(&file(SIZES, &[])),
        "4 1 0 1 1 0 enough\ngiven 0 aborts 0 waits 0 hidden 0\n"
    );
}

/// The program of the queue with compare-and-swap says nothing of hidden stores.
#[test]
fn with_swaps_the_example_prints_its_lines_as_they_stand() {
    assert_eq!(
        lines_cas(&file(SIZES, &EXAMPLE)),
        format!("{EXAMPLE_LINES}\n")
    );
    assert_eq!(
        lines_cas(&file(SIZES, &[])),
        "4 1 0 1 1 0 enough\ngiven 0 aborts 0 waits 0\n"
    );
}

/// Two tasks, one stolen, the other not; it is taken by a swap, which the
/// queue with a lock knows nothing of.
#[test]
fn with_swaps_a_story_prints_its_lines() {
    let put = |task| vec![(2, task), (4, 0), (4, 0), (4, 0), (0, 0), (0, 0)];
    let steal = |steps| [vec![(5, 0)], vec![(6, 0); steps]].concat();
    let take = vec![
        (3, 0),
        (4, 0),
        (4, 0),
        (4, 0),
        (0, 0),
        (0, 0),
        (4, 0),
        (4, 0),
    ];
    let sizes = Sizes {
        slots: 2,
        buffer: 3,
        spacing: 2,
        ..SIZES
    };
    let entries = [put(8), put(9), steal(4), steal(2), take, steal(2)].concat();
    let expected = "\
2 3 2 1 1 0 enough
0 0 0
1 0 0
2 0 0
3 16 0
4 0 0
5 0 0
6 0 0
7 0 0
8 0 0
9 16 0
10 0 0
11 0 0
12 0 0
13 0 0
14 0 0
15 0 0
16 17 8
17 0 0
18 0 0
19 19 0
20 0 0
21 0 0
22 0 0
23 0 0
24 0 0
25 0 0
26 0 0
27 17 9
28 0 0
29 0 0
30 18 0
given 2 aborts 1 waits 0
";
    assert_eq!(lines_cas(&file(sizes, &entries)), expected);
}

/// Whichever queue it is, the lines are the trace in words.
#[test]
fn the_lines_say_what_the_trace_says() {
    let mut dice = Dice::new(41);
    for _ in 0..300 {
        let sizes = Sizes {
            margin: dice.below(65),
            ..dice.sizes()
        };
        let file = file(sizes, &dice.entries(&sizes, 300));
        let mut trace = vec![0; 4 + 5 * 300];
        let hidden = run(&file, &mut trace).unwrap().hidden;
        let end = format!(" hidden {hidden}");
        assert_eq!(entries_and_totals(&lines(&file)), in_words(&trace, &end));
        run_cas(&file, &mut trace).unwrap();
        assert_eq!(entries_and_totals(&lines_cas(&file)), in_words(&trace, ""));
    }
}

/// All lines but the first.
fn entries_and_totals(lines: &str) -> Vec<String> {
    lines.lines().skip(1).map(str::to_owned).collect()
}

/// A line for each entry of a trace, and one with the totals and `end`.
fn in_words(trace: &[u8], end: &str) -> Vec<String> {
    let (numbers, values) = trace[4..].split_at((trace.len() - 4) / 5);
    let values = values.chunks(4).map(|it| it.try_into().unwrap());
    let values = values.map(u32::from_le_bytes);
    let entries = numbers.iter().zip(values).enumerate();
    let mut words: Vec<String> = entries
        .map(|(place, (number, value))| format!("{place} {number} {value}"))
        .collect();
    let total = |wanted| numbers.iter().filter(|&&number| number == wanted).count();
    words.push(format!(
        "given {} aborts {} waits {}{end}",
        total(17),
        total(19),
        total(7)
    ));
    words
}

const TWO_THIEVES: Sizes = Sizes {
    slots: 8,
    buffer: 4,
    margin: 4,
    thieves: 2,
    ..SIZES
};

fn aborted_steal(thief: u32) -> Vec<(u8, u32)> {
    [vec![(5, thief)], vec![(6, thief); 6]].concat()
}

fn put(task: u32) -> Vec<(u8, u32)> {
    vec![(2, task), (4, 0), (4, 0), (4, 0)]
}

#[test]
fn the_order_between_parties_does_not_matter() {
    let first = file(
        TWO_THIEVES,
        &[put(1), aborted_steal(0), aborted_steal(1)].concat(),
    );
    let second = file(
        TWO_THIEVES,
        &[aborted_steal(1), put(1), vec![(0, 0)], aborted_steal(0)].concat(),
    );
    assert_eq!(alike(&first, &second), Ok(true));
}

#[test]
fn the_order_within_a_party_does() {
    let drained_take = vec![
        (0, 0),
        (0, 0),
        (0, 0),
        (0, 0),
        (3, 0),
        (4, 0),
        (4, 0),
        (4, 0),
    ];
    let two_on_top = file(
        TWO_THIEVES,
        &[put(1), put(2), drained_take.clone()].concat(),
    );
    let one_on_top = file(TWO_THIEVES, &[put(2), put(1), drained_take].concat());
    assert_eq!(alike(&two_on_top, &two_on_top), Ok(true));
    assert_eq!(alike(&two_on_top, &one_on_top), Ok(false));
}

#[test]
fn who_is_answered_matters() {
    let first = file(TWO_THIEVES, &aborted_steal(0));
    let second = file(TWO_THIEVES, &aborted_steal(1));
    let none = file(TWO_THIEVES, &aborted_steal(0)[..6]);
    assert_eq!(alike(&first, &second), Ok(false));
    assert_eq!(alike(&first, &none), Ok(false));
}

#[test]
fn sizes_are_compared_as_written() {
    let in_use_alike = file(
        Sizes {
            margin: 0,
            ..TWO_THIEVES
        },
        &[],
    );
    assert_eq!(alike(&file(TWO_THIEVES, &[]), &in_use_alike), Ok(false));
    let other_length = file(TWO_THIEVES, &[(0, 0)]);
    assert_eq!(alike(&file(TWO_THIEVES, &[]), &other_length), Ok(true));
}
