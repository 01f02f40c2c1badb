//! Running a schedule file into a lent trace buffer.

use crate::bench::Bench;
use crate::calls::{Locking, Queue, Swapping};
use crate::format::decode;
use crate::outcome::Summary;
use crate::refusal::Refusal;

/// Obeys the schedule, writes its trace at the start of `trace` and sums it up.
///
/// The room is measured before anything is written, and only after the file
/// itself has been accepted.
pub fn run(file: &[u8], trace: &mut [u8]) -> Result<Summary, Refusal> {
    run_on::<Locking>(file, trace)
}

/// Like [`run`], with the compare-and-swap queue.
pub fn run_cas(file: &[u8], trace: &mut [u8]) -> Result<Summary, Refusal> {
    run_on::<Swapping>(file, trace)
}

pub(crate) fn run_on<Q: Queue>(file: &[u8], trace: &mut [u8]) -> Result<Summary, Refusal> {
    let (sizes, entries) = decode(file)?;
    let count = entries.len();
    let trace = trace.get_mut(..4 + 5 * count).ok_or(Refusal::ROOM)?;
    let (header, arrays) = trace.split_at_mut(4);
    let (numbers, values) = arrays.split_at_mut(count);
    let (values, _) = values.as_chunks_mut::<4>();

    header.copy_from_slice(&(count as u32).to_le_bytes());
    let mut bench = Bench::<Q, u32>::new(&sizes);
    let mut summary = Summary::default();
    for ((entry, number), value) in entries.into_iter().zip(numbers).zip(values) {
        let outcome = bench.obey(entry);
        *number = outcome.number();
        *value = outcome.value().to_le_bytes();
        summary.count(&outcome, bench.machine().hidden());
    }
    Ok(summary)
}
