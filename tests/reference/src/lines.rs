//! The lines that each queue's program prints for a schedule file.

use std::fmt::{self, Write};

use crate::bench::Bench;
use crate::calls::{Locking, Queue, Swapping};
use crate::entry::Entry;
use crate::format::decode;
use crate::outcome::{Summary, Totals};
use crate::sizes::Sizes;

/// Everything the program prints for `file`, each line with its line end.
pub fn lines(file: &[u8]) -> String {
    lines_on::<Locking>(file, |summary| format!(" hidden {}", summary.hidden))
}

/// Like [`lines`], for the compare-and-swap queue and its program, which says
/// nothing of hidden stores.
pub fn lines_cas(file: &[u8]) -> String {
    lines_on::<Swapping>(file, |_| String::new())
}

/// The lines with what the program has to say at the end of the last one.
fn lines_on<Q: Queue>(file: &[u8], at_the_end: fn(Summary) -> String) -> String {
    let mut text = String::new();
    let written = match decode(file) {
        Ok((sizes, entries)) => write_schedule::<Q>(&mut text, &sizes, &entries, at_the_end),
        Err(refusal) => writeln!(text, "refused {} place {}", refusal.number, refusal.place),
    };
    written.expect("a string takes all that is written to it");
    text
}

fn write_schedule<Q: Queue>(
    text: &mut String,
    sizes: &Sizes,
    entries: &[Entry<u32>],
    at_the_end: fn(Summary) -> String,
) -> fmt::Result {
    let in_use = Sizes {
        margin: sizes.margin_in_use(),
        ..*sizes
    };
    for size in in_use.in_file_order() {
        write!(text, "{size} ")?;
    }
    let margin = if sizes.has_enough_margin() {
        "enough"
    } else {
        "short"
    };
    writeln!(text, "{margin}")?;

    let mut bench = Bench::<Q, u32>::new(sizes);
    let mut summary = Summary::default();
    for (place, &entry) in entries.iter().enumerate() {
        let outcome = bench.obey(entry);
        writeln!(text, "{place} {} {}", outcome.number(), outcome.value())?;
        summary.count(&outcome, bench.machine().hidden());
    }
    let Totals {
        given,
        aborts,
        waits,
    } = summary.totals;
    let end = at_the_end(summary);
    writeln!(text, "given {given} aborts {aborts} waits {waits}{end}")
}
