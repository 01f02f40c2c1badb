//! The schedule file: reading it, writing it, and the order of its refusals.

use std::array::from_fn;

use crate::entry::Entry;
use crate::refusal::Refusal;
use crate::sizes::Sizes;

/// Bytes of the seven sizes in front of the two arrays.
const HEADER: usize = 28;
/// Bytes of one entry: its kind, and its operand in the other array.
const PER_ENTRY: usize = 5;

/// An accepted schedule, its arrays as they stand in the file.
#[derive(Debug, Clone, PartialEq, Eq)]
pub struct Schedule {
    pub sizes: Sizes,
    pub kinds: Vec<u8>,
    pub operands: Vec<u32>,
}

/// Reads a schedule file, or says why it is none.
pub fn read(file: &[u8]) -> Result<Schedule, Refusal> {
    let (sizes, kinds, operands) = accept(file)?;
    Ok(Schedule {
        sizes,
        kinds: kinds.to_vec(),
        operands: words(operands).collect(),
    })
}

/// Writes a schedule file at the start of `file` and gives its length.
///
/// Nothing is written before everything has been checked, so a refusal leaves
/// `file` as it was; bytes behind the schedule are never touched.
pub fn write(
    sizes: &Sizes,
    kinds: &[u8],
    operands: &[u32],
    file: &mut [u8],
) -> Result<usize, Refusal> {
    sizes.check(kinds.len())?;
    // In the form they have in a file, so that the reader's check is also the
    // writer's.
    let operands = bytes(operands.iter().copied());
    check_entries(sizes, kinds, &operands)?;
    let length = HEADER + PER_ENTRY * kinds.len();
    let file = file.get_mut(..length).ok_or(Refusal::ROOM)?;

    let (header, arrays) = file.split_at_mut(HEADER);
    let (kind_part, operand_part) = arrays.split_at_mut(kinds.len());
    let entries = kinds.len() as u32;
    header.copy_from_slice(&bytes(sizes.in_file_order().into_iter().chain([entries])));
    kind_part.copy_from_slice(kinds);
    operand_part.copy_from_slice(&operands);
    Ok(length)
}

/// The kind bytes and the operand bytes of a schedule file, as they stand in
/// it; of a file that [`read`] refuses, two empty parts.
pub fn parts(file: &[u8]) -> (&[u8], &[u8]) {
    let accepted = accept(file).map(|(_, kinds, operands)| (kinds, operands));
    accepted.unwrap_or_default()
}

/// Whether every entry of two parallel arrays is allowed, the operands as four
/// bytes each; if not, what is wrong with the first that is not.
///
/// The sizes are taken as they are, in range or not: to judge them is up to
/// whoever decoded them, and entries only ask how many thieves there are. For
/// arrays that are not parallel the papers have no answer; here they are SHORT
/// whatever stands in them, as a file would be that ended with them.
pub fn check_entries(sizes: &Sizes, kinds: &[u8], operands: &[u8]) -> Result<(), Refusal> {
    let (operands, rest) = operands.as_chunks::<4>();
    if operands.len() != kinds.len() || !rest.is_empty() {
        return Err(Refusal::SHORT);
    }
    for (place, (&kind, &operand)) in (0..).zip(kinds.iter().zip(operands)) {
        Entry::check(place, kind, u32::from_le_bytes(operand), sizes.thieves)?;
    }
    Ok(())
}

/// The kind and the operand at a place of two parallel arrays, the operands
/// as four bytes each, or what is wrong there.
///
/// The arrays may have any lengths, and they need not be the same: a place
/// that is not in both is SHORT.
pub fn entry_at(
    kinds: &[u8],
    operands: &[u8],
    thieves: u32,
    place: u32,
) -> Result<(u8, u32), Refusal> {
    let kind = *kinds.get(place as usize).ok_or(Refusal::SHORT)?;
    let (operands, _) = operands.as_chunks::<4>();
    let operand = *operands.get(place as usize).ok_or(Refusal::SHORT)?;
    let operand = u32::from_le_bytes(operand);
    Entry::check(place, kind, operand, thieves)?;
    Ok((kind, operand))
}

/// Reads a schedule file into the orders it gives.
pub(crate) fn decode(file: &[u8]) -> Result<(Sizes, Vec<Entry<u32>>), Refusal> {
    let (sizes, kinds, operands) = accept(file)?;
    let entries = kinds.iter().zip(words(operands));
    let orders = entries.map(|(&kind, operand)| {
        Entry::of_kind(kind, operand).expect("an accepted file has no other kinds")
    });
    Ok((sizes, orders.collect()))
}

/// The one way into a file: decodes its sizes, checks all there is to check,
/// and hands on the sizes, the kinds and the operands. What comes after it
/// has nothing left to judge.
fn accept(file: &[u8]) -> Result<(Sizes, &[u8], &[u8]), Refusal> {
    let (header, arrays) = file.split_first_chunk::<HEADER>().ok_or(Refusal::SHORT)?;
    let word = |place| u32::from_le_bytes(from_fn(|byte| header[4 * place + byte]));
    let sizes = Sizes::from_file_order(from_fn(word));
    let entries = word(6) as usize;
    sizes.check(entries)?;
    // With as many kinds as there are entries, the file has the right length
    // exactly when the arrays are parallel, which the check of the entries
    // looks at first.
    let (kinds, operands) = arrays.split_at_checked(entries).ok_or(Refusal::SHORT)?;
    check_entries(&sizes, kinds, operands)?;
    Ok((sizes, kinds, operands))
}

fn words(bytes: &[u8]) -> impl Iterator<Item = u32> + '_ {
    let (words, _) = bytes.as_chunks::<4>();
    words.iter().map(|word| u32::from_le_bytes(*word))
}

fn bytes(words: impl Iterator<Item = u32>) -> Vec<u8> {
    words.flat_map(u32::to_le_bytes).collect()
}
