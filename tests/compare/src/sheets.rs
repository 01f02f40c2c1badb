//! Share sheets: both sides write them for every file with some counts of
//! blocks, and each that is written is held against the trace of its run.

use std::collections::BTreeSet;

use crate::checks::{Case, Disagreement, Ran, Verdict, NO_ROOM};
use crate::schedule::{number_at, Draft, Entry, BEGIN_PUT, TASK, THIEF_STEP};
use crate::sides::Answer;
use crate::tally::{Count, Tally};

/// The refusals that only share sheets have.
pub const COUNT: Answer = Answer::refused(1, 7);
pub const MARGIN: Answer = Answer::refused(9, 3);
pub const BLOCK: u32 = 10;

/// The most blocks that a sheet can have.
pub const MOST_BLOCKS: u32 = 255;
/// The party of a block that is not given.
const NOBODY: u8 = 255;

/// What a sheet says of a block: its party, and the entry that answered TASK.
pub type Share = (u8, u32);
pub const NOT_GIVEN: Share = (NOBODY, 0);

/// A sheet's bytes, or how it is refused.
pub type Given = Result<Vec<u8>, Answer>;

/// The refusal of a begin put.
pub const fn bad_block(place: usize) -> Answer {
    Answer::refused(BLOCK, place as u32)
}

/// The bytes of a sheet.
pub const fn sheet_room(count: u32) -> usize {
    1 + 5 * count as usize
}

/// The bytes of a sheet with these shares.
pub fn assemble(shares: &[Share]) -> Vec<u8> {
    let mut sheet = vec![u8::try_from(shares.len()).expect("a byte counts the blocks")];
    sheet.extend(shares.iter().map(|share| share.0));
    sheet.extend(shares.iter().flat_map(|share| share.1.to_le_bytes()));
    sheet
}

/// The shares in a sheet of the length that its count asks for.
fn shares(sheet: &[u8]) -> Vec<Share> {
    let (parties, entries) = sheet[1..].split_at(usize::from(sheet[0]));
    let entries = entries.chunks_exact(4).map(number_at);
    parties.iter().copied().zip(entries).collect()
}

/// A refused file is refused alike, whatever the count and the room.
pub fn refused(case: &Case, read: Answer, tally: &mut Tally) -> Verdict {
    for (count, room) in questions(case, 7) {
        let refusal = ask(case, count, room, tally)?.err();
        case.hold("a share sheet's refusal", Some(read), refusal)?;
    }
    Ok(())
}

/// An accepted file, whose puts need not be the blocks of a design.
pub fn accepted(case: &Case, draft: &Draft, ran: &Ran, tally: &mut Tally) -> Verdict {
    let puts = draft.entries.iter().filter(|entry| entry.0 == BEGIN_PUT);
    let largest = puts.map(|entry| entry.1).max().unwrap_or(0);
    for (count, room) in questions(case, largest.clamp(1, MOST_BLOCKS)) {
        if let Ok(sheet) = ask(case, count, room, tally)? {
            hold_sheet(case, &sheet, draft, ran, tally)?;
        }
    }
    Ok(())
}

/// Counts in range and out of it, each with the room that it asks for, some
/// bytes more or one less.
fn questions(case: &Case, fitting: u32) -> [(u32, usize); 7] {
    let small = 2 + (case.pattern % 9) as u32;
    let mut turn = case.pattern / 9;
    [0, 1, small, fitting, 255, 256, u32::MAX].map(|count| {
        // Nobody lends what the largest number would ask for.
        let needed = sheet_room(count.min(MOST_BLOCKS + 1));
        turn += 1;
        let room = match turn % 4 {
            0 => needed - 1,
            1 => needed + (turn % 41) as usize,
            _ => needed,
        };
        (count, room)
    })
}

/// Asks both sides for a sheet. Gives it, or its refusal.
pub fn ask(case: &Case, count: u32, room: usize, tally: &mut Tally) -> Result<Given, Disagreement> {
    let asked = checked(case, count, room);
    let given = asked.map_err(|found| found.of(&asked_for(count, room)))?;
    tally.count(match given {
        Ok(_) => Count::SheetsWritten,
        Err(COUNT) => Count::SheetCount,
        Err(MARGIN) => Count::SheetMargin,
        Err(NO_ROOM) => Count::SheetRoom,
        Err(Answer { number: BLOCK, .. }) => Count::SheetBlock,
        Err(_) => Count::SheetFile,
    });
    Ok(given)
}

/// Bytes beyond the sheet stay as they were, and all of them where it is refused.
fn checked(case: &Case, count: u32, room: usize) -> Result<Given, Disagreement> {
    let (answer, lent) = case.sheet(count, room)?;
    if answer.is_refused() {
        case.hold("a refused sheet leaves its memory", true, lent.untouched())?;
        return Ok(Err(answer));
    }
    let needed = sheet_room(count);
    case.hold("length of the sheet", needed, answer.low as usize)?;
    case.hold("sheet beyond", true, lent.untouched_beyond(needed))?;
    let sheet = lent.content()[..needed].to_vec();
    case.hold("count in the sheet", count, u32::from(sheet[0]))?;
    Ok(Ok(sheet))
}

/// Both sides against the shares or the refusal that are told.
pub fn hold(
    case: &Case,
    count: u32,
    room: usize,
    told: Result<&[Share], Answer>,
    tally: &mut Tally,
) -> Verdict {
    let given = ask(case, count, room, tally)?;
    let held = case.hold("as told", told.map(assemble), given);
    held.map_err(|found| found.of(&asked_for(count, room)))
}

fn asked_for(count: u32, room: usize) -> String {
    format!("share sheet of {count} blocks in {room} bytes")
}

/// A sheet that was written, against the run of its schedule.
pub fn hold_sheet(
    case: &Case,
    sheet: &[u8],
    draft: &Draft,
    ran: &Ran,
    tally: &mut Tally,
) -> Verdict {
    let shares = shares(sheet);
    let puts = own_blocks(case, draft, shares.len());
    let held = puts.and_then(|puts| {
        hold_shares(case, &shares, draft, ran)?;
        count_shares(&shares, &puts, tally);
        Ok(())
    });
    held.map_err(|found| found.of(&format!("share sheet of {} blocks", shares.len())))
}

/// Every begin put has a block of its own. Tells which blocks have one.
fn own_blocks(case: &Case, draft: &Draft, blocks: usize) -> Result<Vec<bool>, Disagreement> {
    let mut used = vec![false; blocks];
    for (place, entry) in draft.entries.iter().enumerate() {
        if entry.0 == BEGIN_PUT {
            let block = used.get_mut((entry.1 as usize).wrapping_sub(1));
            let fresh = block.is_some_and(|used| !std::mem::replace(used, true));
            let bad = (!fresh).then_some(place);
            case.hold("bad block in a sheet that is written", None, bad)?;
        }
    }
    Ok(used)
}

/// Every TASK stands in the sheet with its party and its entry, a block that is
/// given has no other, and a block that is not given has none.
fn hold_shares(case: &Case, shares: &[Share], draft: &Draft, ran: &Ran) -> Verdict {
    let mut tasks = vec![0; shares.len()];
    for (place, &entry) in draft.entries.iter().enumerate() {
        if ran.outcomes[place] == TASK {
            let block = (ran.values[place] as usize).wrapping_sub(1);
            let share = shares.get(block).copied();
            let expected = Some((party(entry), place as u32));
            case.hold("share of a TASK", expected, share)?;
            tasks[block] += 1;
        }
    }
    let expected = shares.iter().map(|&share| u32::from(share != NOT_GIVEN));
    let wrong = expected.zip(&tasks).position(|(one, two)| one != *two);
    let wrong = wrong.map(|block| (block + 1, shares[block], tasks[block]));
    case.hold("block, share and TASKs that don't fit", None, wrong)
}

/// 0 for the worker, thieves from 1 on.
fn party((kind, operand): Entry) -> u8 {
    match kind {
        THIEF_STEP => 1 + operand as u8,
        _ => 0,
    }
}

fn count_shares(shares: &[Share], puts: &[bool], tally: &mut Tally) {
    let mut parties = BTreeSet::new();
    for (&(party, _), &put) in shares.iter().zip(puts) {
        parties.insert(party);
        tally.count(match party {
            0 => Count::GivenToWorker,
            NOBODY if put => Count::PutNotGiven,
            NOBODY => Count::NeverPut,
            _ => Count::GivenToThief,
        });
    }
    let thieves = parties.range(1..NOBODY).count();
    let taken_and_left = parties.contains(&0) && parties.contains(&NOBODY);
    if taken_and_left && thieves > 0 {
        tally.count(Count::SheetsOfAll);
    }
    if thieves > 1 {
        tally.count(Count::SheetsOfThieves);
    }
}
