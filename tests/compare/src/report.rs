//! What is printed: the table at the end, or the disagreement that came first.

use std::fmt::Write as _;
use std::fs;
use std::path::PathBuf;

use crate::checks::Disagreement;
use crate::queue::{Queue, QUEUES};
use crate::tally::{
    Count, Seen, Shown, Tally, HANDED_ON, HIDDEN, JUDGED, MACHINES, OUTCOMES, REFUSALS, SHEETS,
    SWAPS,
};

/// Files up to this length are printed whole.
const PRINTED: usize = 512;

/// One line of the table: what was compared, and how many cases of it.
pub struct Part {
    pub name: &'static str,
    pub cases: u64,
    pub seconds: f64,
}

const KINDS: [(&str, Count); 4] = [
    ("sound schedules", Count::SoundFiles),
    ("damaged files", Count::DamagedFiles),
    ("designs", Count::Designs),
    ("calls of the writer", Count::WriterCalls),
];

const PAIRS: [(&str, Count); 3] = [
    ("alike", Count::Alike),
    ("not alike", Count::NotAlike),
    ("one refused", Count::AlikeRefused),
];

/// Single steps are left out where none was made.
pub fn print_table(parts: &[Part], steps: Option<&Tally>, random: &Tally) {
    println!("compared{:>50}{:>12}", "cases", "seconds");
    for part in parts {
        println!(
            "  {:<44}{:>12}{:>12.1}",
            part.name, part.cases, part.seconds
        );
    }
    if let Some(steps) = steps {
        println!("single steps");
        rows(&MACHINES, steps);
        rows(&HANDED_ON, steps);
        outcomes(steps, &[Queue::Locking]);
    }
    println!("random cases, by kind");
    rows(&KINDS, random);
    println!("refusals in random cases");
    for (number, name) in REFUSALS {
        let seen = random.refusal_seen(number);
        row(&format!("{number:2} {name}"), &[seen]);
    }
    println!("pairs of files, in random cases");
    rows(&PAIRS, random);
    println!("share sheets, in random cases");
    rows(&SHEETS, random);
    let [locking, swapping] = QUEUES.map(Queue::name);
    println!("{:<46}{locking:>12}{swapping:>12}", "random runs, by queue");
    outcomes(random, &QUEUES);
    run_rows(&HIDDEN, random, &QUEUES);
    println!("the plain queue beside them");
    run_rows(&JUDGED, random, &QUEUES);
    println!("calls of {swapping}");
    run_rows(&SWAPS, random, &[Queue::Swapping]);
}

fn outcomes(seen: &Tally, queues: &[Queue]) {
    for (outcome, name) in OUTCOMES {
        let name = format!("{outcome:2} {name}");
        run_row(&name, seen, queues, |runs| runs.outcome_seen(outcome));
    }
    run_row("entries run", seen, queues, Seen::entries_run);
}

fn run_rows(rows: &[(&str, Shown)], seen: &Tally, queues: &[Queue]) {
    for &(name, what) in rows {
        run_row(name, seen, queues, |runs| runs.of(what));
    }
}

/// A row with a column for each queue.
fn run_row(name: &str, seen: &Tally, queues: &[Queue], count: impl Fn(&Seen) -> u64) {
    let counts = queues.iter().map(|&queue| count(&seen.runs[queue]));
    row(name, &counts.collect::<Vec<_>>());
}

fn rows(rows: &[(&str, Count)], seen: &Tally) {
    for &(name, count) in rows {
        row(name, &[seen.of(count)]);
    }
}

fn row(name: &str, counts: &[u64]) {
    print!("  {name:<44}");
    for count in counts {
        print!("{count:>12}");
    }
    println!();
}

/// Prints a disagreement with the files and the way to it.
pub fn print_failure(part: &str, again: &str, found: &Disagreement) {
    println!("DISAGREEMENT in {part}");
    println!("  {}", found.what);
    for (number, file) in found.files.iter().enumerate() {
        println!("  file of {} bytes", file.len());
        if file.len() <= PRINTED {
            println!("    hex {}", hex(file));
        }
        match keep(file, number) {
            Ok(path) => println!("    kept as {}", path.display()),
            Err(error) => println!("    not kept: {error}"),
        }
    }
    println!("  again: {again}");
}

fn keep(file: &[u8], number: usize) -> std::io::Result<PathBuf> {
    let name = format!("disagreement-{}-{number}.schedule", std::process::id());
    let path = std::env::temp_dir().join(name);
    fs::write(&path, file)?;
    Ok(path)
}

fn hex(bytes: &[u8]) -> String {
    let mut text = String::with_capacity(2 * bytes.len());
    for byte in bytes {
        write!(text, "{byte:02x}").expect("a string takes every byte");
    }
    text
}
