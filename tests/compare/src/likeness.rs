//! Whether two schedules are alike, where the answer is known and where only
//! the two sides can tell.

use crate::checks::{Case, Ran, Verdict};
use crate::damage::damaged;
use crate::random::Random;
use crate::schedule::{
    Draft, Entry, BEGIN_PUT, BEGIN_STEAL, BEGIN_TAKE, BUFFER, CLIENT_STORE, EARLY, PLACE, RANGES,
    THIEF_STEP, WAIT,
};
use crate::sides::{Answer, PROVED, REFERENCE, SIZES_ROOM};
use crate::tally::{Count, Tally};

const ALIKE: Answer = Answer::value(1);
const NOT_ALIKE: Answer = Answer::value(0);

/// The file beside itself and beside another made from it.
pub fn examine(file: &[u8], ran: &Ran, random: &mut Random, tally: &mut Tally) -> Verdict {
    ask(file, file, Some(ALIKE), tally)?;
    let draft = Draft::of_accepted(file);
    let (other, expected) = match random.below(6) {
        0 => (swapped(&draft, random), Some(ALIKE)),
        1 => (swept(&draft, ran), Some(ALIKE)),
        2 | 3 => (disturbed(&draft, random), None),
        4 => {
            let place = random.place(6);
            let number = random.pick(&other_sizes(&draft, place));
            return hold_resized(&resized(&draft, place, number), tally);
        }
        _ => return with_damage(file, random, tally),
    };
    let other = other.bytes();
    ask(file, &other, expected, tally)?;
    ask(&other, file, expected, tally)
}

/// A damaged file on either side, or on both.
pub fn with_damage(file: &[u8], random: &mut Random, tally: &mut Tally) -> Verdict {
    let other = damaged(file, random);
    let third = damaged(file, random);
    for (first, second) in [(file, &other[..]), (&other, file), (&other, &third)] {
        ask(first, second, refusal(first, second), tally)?;
    }
    Ok(())
}

/// A file, and the same with another size, which may be out of range.
pub type Resized = [Vec<u8>; 2];

/// The schedule beside itself with each size changed in turn.
pub fn all_resized(draft: &Draft) -> Vec<Resized> {
    let mut pairs = Vec::new();
    for place in 0..6 {
        for number in other_sizes(draft, place) {
            pairs.push(resized(draft, place, number));
        }
    }
    pairs
}

/// With another size a file is never alike, though most run the same.
pub fn hold_resized([file, other]: &Resized, tally: &mut Tally) -> Verdict {
    for (first, second) in [(file, other), (other, file)] {
        let expected = refusal(first, second).unwrap_or(NOT_ALIKE);
        ask(first, second, Some(expected), tally)?;
    }
    Ok(())
}

fn resized(draft: &Draft, place: usize, number: u32) -> Resized {
    let mut other = draft.clone();
    other.sizes[place] = number;
    [draft.bytes(), other.bytes()]
}

/// Both ends of a size's range, one past them, and its neighbours. The buffer
/// size is for the margin: written out, it is another size than 0, though both
/// run alike.
fn other_sizes(draft: &Draft, place: usize) -> Vec<u32> {
    let (low, high) = RANGES[place];
    let size = draft.sizes[place];
    let mut numbers = vec![low, high, low.wrapping_sub(1), high + 1];
    numbers.extend([size.wrapping_sub(1), size + 1, draft.sizes[BUFFER]]);
    numbers.retain(|&number| number != size);
    numbers
}

/// The first file's refusal is told first, then the second's.
fn refusal(first: &[u8], second: &[u8]) -> Option<Answer> {
    let reads = [first, second].map(|file| (PROVED.read)(file, &mut [0; SIZES_ROOM]));
    reads.into_iter().find(|read| read.is_refused())
}

/// Asks both sides, and holds the answer where it is known.
fn ask(first: &[u8], second: &[u8], expected: Option<Answer>, tally: &mut Tally) -> Verdict {
    let given = (PROVED.alike)(first, second);
    let other = (REFERENCE.alike)(first, second);
    let case = Case::new(first, 0);
    let held = case.same("alike", given, other);
    let held = held.and_then(|()| case.hold("alike", expected.unwrap_or(given), given));
    held.map_err(|mut found| {
        found.files.push(second.to_vec());
        found
    })?;
    tally.count(match given {
        ALIKE => Count::Alike,
        NOT_ALIKE => Count::NotAlike,
        _ => Count::AlikeRefused,
    });
    Ok(())
}

/// Neighbours changed about where neither can notice the other.
fn swapped(draft: &Draft, random: &mut Random) -> Draft {
    let mut other = draft.clone();
    for place in 1..other.entries.len() {
        if independent(other.entries[place - 1], other.entries[place]) && random.chance(500) {
            other.entries.swap(place - 1, place);
        }
    }
    other
}

/// Entries of two parties, one of which touches nothing that the other uses: a
/// begin touches only its own party's call, and what the worker's begins and
/// client stores touch is hidden from thieves.
fn independent(one: Entry, two: Entry) -> bool {
    let quiet = |entry: Entry| matches!(entry.0, BEGIN_PUT | BEGIN_TAKE | CLIENT_STORE);
    let of_thief = |entry: Entry| matches!(entry.0, BEGIN_STEAL | THIEF_STEP);
    let apart = |begin: Entry, other: Entry| {
        begin.0 == BEGIN_STEAL && !(of_thief(other) && other.1 == begin.1)
    };
    (quiet(one) && of_thief(two))
        || (of_thief(one) && quiet(two))
        || apart(one, two)
        || apart(two, one)
}

/// Without the entries that left the machine as it was.
fn swept(draft: &Draft, ran: &Ran) -> Draft {
    let mut other = draft.clone();
    let mut outcomes = ran.outcomes.iter();
    let idle = |outcome| matches!(outcome, Some(&(PLACE | EARLY | WAIT)));
    other.entries.retain(|_| !idle(outcomes.next()));
    other
}

/// Something changed that may or may not be noticed: entries changed about,
/// left out, or left out at the end; another task.
fn disturbed(draft: &Draft, random: &mut Random) -> Draft {
    let mut other = draft.clone();
    let length = other.entries.len();
    if length < 2 {
        return other;
    }
    let place = 1 + random.place(length - 1);
    match random.below(4) {
        0 => other
            .entries
            .truncate(length.saturating_sub(random.place(8))),
        1 if other.entries[place].0 == BEGIN_PUT => other.entries[place].1 ^= 1,
        1 => drop(other.entries.remove(place)),
        _ => other.entries.swap(place - 1, place),
    }
    other
}
