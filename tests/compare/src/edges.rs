//! Files at the edges of every range, each with the answer it must get.

use crate::checks::{Case, Verdict};
use crate::queue::Queue;
use crate::schedule::{
    assemble, Draft, Entry, BEGIN_PUT, BEGIN_STEAL, BEGIN_TAKE, CLIENT_STORE, DRAIN, HEADER,
    MOST_ENTRIES, RANGES, THIEF_STEP, THIEVES, WORKER_STEP,
};
use crate::sides::Answer;
use crate::tally::Tally;

/// Sizes in range, with two thieves.
pub const SIZES: [u32; 6] = [4, 2, 0, 1, 2, 0];
/// Three allowed entries.
const ENTRIES: [Entry; 3] = [(BEGIN_PUT, 9), (BEGIN_STEAL, 1), (WORKER_STEP, 0)];
/// Numbers with one byte set, beside the largest: a reader that leaves out a
/// byte takes one of them for 0.
const WIDE: [u32; 5] = [1, 1 << 8, 1 << 16, 1 << 24, u32::MAX];

pub const SHORT: Answer = Answer::refused(2, 0);

/// A file and how it must be read.
pub struct Edge {
    name: String,
    pub file: Vec<u8>,
    read: Answer,
}

impl Edge {
    fn new(name: impl Into<String>, file: Vec<u8>, read: Answer) -> Self {
        let name = name.into();
        Edge { name, file, read }
    }

    pub fn hold(&self, tally: &mut Tally) -> Verdict {
        let case = Case::new(&self.file, 3 * self.file.len() as u64 + 1);
        let held = case.examine(tally).and_then(|given| {
            let read = match given {
                Ok(runs) => Answer::value(runs[Queue::Locking].outcomes.len() as u32),
                Err(refusal) => refusal,
            };
            case.hold("read", self.read, read)
        });
        held.map_err(|found| found.of(&self.name))
    }
}

/// Every edge that is a file.
pub fn files() -> Vec<Edge> {
    let mut edges = too_short();
    edges.extend(sizes());
    edges.extend(entry_counts());
    edges.extend(lengths());
    edges.extend(entries());
    edges.extend(thieves());
    edges.extend(several_sizes());
    edges.extend(several_faults());
    edges
}

/// A file of nothing but drains.
pub fn drains(count: usize) -> Vec<u8> {
    let operands = vec![0; count];
    assemble(&SIZES, count as u32, &vec![DRAIN; count], &operands)
}

fn with_entries(entries: &[Entry]) -> Vec<u8> {
    Draft::with(SIZES, entries).bytes()
}

fn too_short() -> Vec<Edge> {
    let whole = drains(0);
    let mut edges = Vec::new();
    for length in 0..HEADER {
        let name = format!("{length} bytes");
        edges.push(Edge::new(&name, whole[..length].to_vec(), SHORT));
        edges.push(Edge::new(name + " of 255", vec![255; length], SHORT));
    }
    edges.push(Edge::new("28 bytes", whole, Answer::value(0)));
    edges
}

/// Both ends of a size's range, past them, and far outside; and whether each
/// number is in range.
fn around(place: usize) -> Vec<(u32, bool)> {
    let (low, high) = RANGES[place];
    let mut numbers = vec![low, high, high + 1, 0, 1 << 31, low.wrapping_sub(1)];
    numbers.extend(WIDE.map(|wide| low.wrapping_add(wide)));
    numbers.extend(WIDE);
    let within = |number| (number, (low..=high).contains(&number));
    numbers.into_iter().map(within).collect()
}

fn sizes() -> Vec<Edge> {
    let mut edges = Vec::new();
    for place in 0..6 {
        for (number, within) in around(place) {
            let entries = [(BEGIN_PUT, 9), (BEGIN_STEAL, 0), (THIEF_STEP, 0)];
            let mut draft = Draft::with(SIZES, &entries);
            draft.sizes[place] = number;
            let refused = Answer::refused(1, place as u32);
            let read = if within { Answer::value(3) } else { refused };
            let name = format!("size {place} is {number}");
            edges.push(Edge::new(name, draft.bytes(), read));
        }
    }
    edges
}

/// A count has its array behind it where that is of a bearable length, so that
/// only the count can be at fault.
fn entry_counts() -> Vec<Edge> {
    let mut edges = Vec::new();
    for (number, within) in around(6) {
        let mut file = drains((number as usize).min(MOST_ENTRIES + 1));
        file[24..28].copy_from_slice(&number.to_le_bytes());
        let (fits, refused) = (Answer::value(number), Answer::refused(1, 6));
        let read = if within { fits } else { refused };
        edges.push(Edge::new(format!("{number} entries"), file, read));
    }
    edges
}

/// Lengths that miss 28 + 5 × entries, and those that hit it.
fn lengths() -> Vec<Edge> {
    let mut edges = Vec::new();
    for count in [0, 1, 3, 4, MOST_ENTRIES] {
        let exact = drains(count).len();
        for change in [-5, -4, -1, 0, 1, 4, 5, 256, 65_536] {
            let length = exact.saturating_add_signed(change);
            if length < HEADER {
                continue;
            }
            let mut file = drains(count);
            file.resize(length, 0);
            let fits = Answer::value(count as u32);
            let read = if change == 0 { fits } else { SHORT };
            let name = format!("{count} entries, {length} bytes");
            edges.push(Edge::new(name, file, read));
        }
    }
    edges
}

/// Every kind byte, and operands of the worker's kinds and of a drain, at the
/// first, a middle and the last entry; then the last entry of the largest file.
fn entries() -> Vec<Edge> {
    let mut entries: Vec<Entry> = (0..=255).map(|kind| (kind, 0)).collect();
    for kind in [DRAIN, CLIENT_STORE, BEGIN_PUT, BEGIN_TAKE, WORKER_STEP] {
        let operands = WIDE.into_iter().chain([255, 1 << 31]);
        entries.extend(operands.map(|operand| (kind, operand)));
    }
    let mut edges = Vec::new();
    for entry in entries {
        edges.extend((0..3).map(|place| one_entry(2, &ENTRIES, place, entry)));
    }
    let largest = vec![(DRAIN, 0); MOST_ENTRIES];
    for kind in 0..=8 {
        let last = |operand| one_entry(2, &largest, MOST_ENTRIES - 1, (kind, operand));
        edges.extend((0..=2).map(last));
    }
    edges
}

/// Thief numbers around every count of thieves.
fn thieves() -> Vec<Edge> {
    let mut edges = Vec::new();
    for thieves in 1..=8 {
        let near = [0, thieves - 1, thieves, thieves + 1, 8, 255];
        for thief in near.into_iter().chain(WIDE) {
            for kind in [BEGIN_STEAL, THIEF_STEP] {
                let sound = [(BEGIN_STEAL, 0); 2];
                edges.push(one_entry(thieves, &sound, 1, (kind, thief)));
            }
        }
    }
    edges
}

/// Sound entries with another in the place of one of them.
fn one_entry(thieves: u32, sound: &[Entry], place: usize, entry: Entry) -> Edge {
    let mut draft = Draft::with(SIZES, sound);
    draft.sizes[THIEVES] = thieves;
    draft.entries[place] = entry;
    let (kind, operand) = entry;
    let allowed = match kind {
        BEGIN_PUT => true,
        BEGIN_STEAL | THIEF_STEP => operand < thieves,
        _ => operand == 0,
    };
    let read = match kind {
        7.. => Answer::refused(3, place as u32),
        _ if allowed => Answer::value(sound.len() as u32),
        _ => Answer::refused(4, place as u32),
    };
    let name = format!("kind {kind} with {operand} at entry {place}, {thieves} thieves");
    Edge::new(name, draft.bytes(), read)
}

/// From each place on every size is out of range: the lowest place is told,
/// whatever the length.
fn several_sizes() -> Vec<Edge> {
    let mut edges = Vec::new();
    for lowest in 0..RANGES.len() {
        for (bytes, kind) in [(HEADER, DRAIN), (HEADER + 5, 255), (HEADER + 7, 255)] {
            let mut file = drains(0);
            for place in lowest..RANGES.len() {
                let past = RANGES[place].1 + 1;
                file[4 * place..4 * place + 4].copy_from_slice(&past.to_le_bytes());
            }
            file.resize(bytes, kind);
            let name = format!("sizes {lowest} to 6 out of range, {bytes} bytes");
            edges.push(Edge::new(name, file, Answer::refused(1, lowest as u32)));
        }
    }
    edges
}

/// Files with more than one fault in their entries or their length.
fn several_faults() -> Vec<Edge> {
    let entries = |name: &str, entries: &[Entry], number, place| {
        Edge::new(name, with_entries(entries), Answer::refused(number, place))
    };
    let sound = (DRAIN, 0);
    let mut short_wild = with_entries(&[(255, 255), (255, 255)]);
    let mut long_wild = short_wild.clone();
    short_wild.pop();
    long_wild.push(0);
    vec![
        Edge::new("a byte missing, wild entries", short_wild, SHORT),
        Edge::new("a byte too many, wild entries", long_wild, SHORT),
        entries("kind before operand in one entry", &[sound, (7, 1)], 3, 1),
        entries("operand fault first", &[sound, (DRAIN, 1), (7, 0)], 4, 1),
        entries("kind fault first", &[sound, (7, 0), (DRAIN, 1)], 3, 1),
        entries("thief fault first", &[(THIEF_STEP, 2), (255, 0)], 4, 0),
        entries("two kind faults", &[sound, (9, 0), (8, 0)], 3, 1),
        entries("two operand faults", &[(WORKER_STEP, 3), (DRAIN, 1)], 4, 0),
    ]
}
