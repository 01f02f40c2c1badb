//! Whether two schedules come to the same for everybody who takes part.

use crate::bench::Bench;
use crate::calls::Locking;
use crate::entry::Entry;
use crate::format::decode;
use crate::outcome::Outcome;
use crate::refusal::Refusal;
use crate::sizes::Sizes;

/// Whether two files have equal written sizes, entries aside, and give the
/// worker and every thief the same answers in the same order.
///
/// Both files must be acceptable before anything is compared, so a refusal of
/// the second is reported even where the sizes differ.
pub fn alike(first: &[u8], second: &[u8]) -> Result<bool, Refusal> {
    let (first_sizes, first_entries) = decode(first)?;
    let (second_sizes, second_entries) = decode(second)?;
    if first_sizes != second_sizes {
        return Ok(false);
    }
    Ok(answers(&first_sizes, &first_entries) == answers(&second_sizes, &second_entries))
}

/// The answers by party: the worker first, then the thieves in their order.
fn answers(sizes: &Sizes, entries: &[Entry<u32>]) -> Vec<Vec<Outcome<u32>>> {
    let mut answers = vec![Vec::new(); 1 + sizes.thieves as usize];
    let mut bench = Bench::<Locking, u32>::new(sizes);
    for &entry in entries {
        let outcome = bench.obey(entry);
        if outcome.is_answer() {
            answers[entry.party()].push(outcome);
        }
    }
    answers
}
