//! The writer: its edges, and random calls with none, one or two faults.

use crate::checks::{Case, Verdict, NO_ROOM};
use crate::edges::{SHORT, SIZES};
use crate::generate;
use crate::random::Random;
use crate::schedule::{
    assemble, Entry, BEGIN_PUT, BEGIN_STEAL, BEGIN_TAKE, DRAIN, HEADER, MOST_ENTRIES, RANGES,
};
use crate::sides::Answer;
use crate::tally::{Count, Tally};

/// A call of the writer and its answer.
pub struct Written {
    name: &'static str,
    sizes: [u32; 6],
    kinds: Vec<u8>,
    operands: Vec<u32>,
    room: usize,
    answer: Answer,
}

impl Written {
    pub fn hold(&self, _: &mut Tally) -> Verdict {
        let file = as_file(&self.sizes, &self.kinds, &self.operands);
        let case = Case::new(&file, self.room as u64);
        let (answer, file) = case.written(&self.sizes, &self.kinds, &self.operands, self.room)?;
        case.hold(self.name, self.answer, answer)?;
        let used = if answer.is_refused() { 0 } else { answer.low };
        case.hold(self.name, true, file.untouched_beyond(used as usize))
    }
}

/// The writer's refusals, alone and in their order.
pub fn edges() -> Vec<Written> {
    let mut calls = edge_lengths();
    calls.extend(edge_order());
    calls.extend(edge_sizes());
    calls
}

/// A call that writes nothing but drains.
fn drains(
    name: &'static str,
    kinds: usize,
    operands: usize,
    room: usize,
    answer: Answer,
) -> Written {
    Written {
        name,
        sizes: SIZES,
        kinds: vec![DRAIN; kinds],
        operands: vec![0; operands],
        room,
        answer,
    }
}

fn edge_lengths() -> Vec<Written> {
    let (full, over) = (MOST_ENTRIES, MOST_ENTRIES + 1);
    let most = HEADER + 5 * full;
    let whole = Answer::value(most as u32);
    let too_many = Answer::refused(1, 6);
    vec![
        drains("the largest file", full, full, most, whole),
        drains("its room one short", full, full, most - 1, NO_ROOM),
        drains("one kind too many", over, over, most + 5, too_many),
        drains("too many, and lengths differ", over, 0, 0, too_many),
        drains("twice too many", 2 * full, full, 0, too_many),
        drains("one operand too many", full, over, most, SHORT),
        drains("no kinds, one operand", 0, 1, 99, SHORT),
        drains("one kind, no operands", 1, 0, 99, SHORT),
        drains("lengths differ, no room", 2, 3, 0, SHORT),
        drains("no entries", 0, 0, HEADER, Answer::value(28)),
        drains("no entries, one short", 0, 0, HEADER - 1, NO_ROOM),
        drains("no entries, no room", 0, 0, 0, NO_ROOM),
        drains("some bytes left", 3, 3, 60, Answer::value(43)),
    ]
}

/// Faulty arrays, with the room too short as well.
fn edge_order() -> Vec<Written> {
    let faulty = |name, entries: &[Entry], more_operands, answer| {
        let mut call = drains(name, 0, 0, 0, answer);
        call.kinds = entries.iter().map(|entry| entry.0).collect();
        call.operands = entries.iter().map(|entry| entry.1).collect();
        call.operands.extend(vec![0; more_operands]);
        call
    };
    let kind = (7, 0);
    let operand = (BEGIN_TAKE, 1);
    let sound = (BEGIN_PUT, u32::MAX);
    vec![
        faulty("a kind", &[sound, kind], 0, Answer::refused(3, 1)),
        faulty("an operand", &[sound, operand], 0, Answer::refused(4, 1)),
        faulty("kind first", &[kind, operand], 0, Answer::refused(3, 0)),
        faulty("operand first", &[operand, kind], 0, Answer::refused(4, 0)),
        faulty("both in one", &[sound, (255, 5)], 0, Answer::refused(3, 1)),
        faulty("a thief", &[(BEGIN_STEAL, 2)], 0, Answer::refused(4, 0)),
        faulty("lengths before kinds", &[kind, kind], 1, SHORT),
        faulty("only the room", &[sound, sound], 0, NO_ROOM),
    ]
}

/// Every size past its range, with the arrays at fault as well.
fn edge_sizes() -> Vec<Written> {
    let mut calls = Vec::new();
    for (place, (low, high)) in RANGES.into_iter().take(6).enumerate() {
        for number in [high + 1, u32::MAX, low.wrapping_sub(1)] {
            if (low..=high).contains(&number) {
                continue;
            }
            let refused = Answer::refused(1, place as u32);
            for (kinds, operands) in [(1, 1), (2, 1), (MOST_ENTRIES + 1, 0)] {
                let mut call = drains("a size out of range", kinds, operands, 99, refused);
                call.sizes[place..].fill(u32::MAX);
                call.sizes[place] = number;
                calls.push(call);
            }
        }
    }
    calls
}

/// A call of the writer with sizes and arrays that may be wrong.
pub fn random_call(length: usize, random: &mut Random, tally: &mut Tally) -> Verdict {
    tally.count(Count::WriterCalls);
    let draft = generate::schedule(length, random);
    let mut sizes = draft.sizes;
    let (mut kinds, mut operands) = (draft.kinds(), draft.operands());
    spoil(&mut sizes, &mut kinds, &mut operands, random);
    let exact = HEADER + 5 * kinds.len();
    let room = match random.below(3) {
        0 => exact - 1,
        1 => exact,
        _ => exact + random.place(40),
    };
    let meant = as_file(&sizes, &kinds, &operands);
    let context = Case::new(&meant, random.word());
    let (answer, file) = context.written(&sizes, &kinds, &operands, room)?;
    if answer.is_refused() {
        tally.refusal(answer.number);
        return context.hold("a refused file is left", true, file.untouched());
    }
    let length = answer.low as usize;
    context.hold("file beyond", true, file.untouched_beyond(length))?;
    let written = &file.content()[..length];
    Case::new(written, random.word()).accepted(tally).map(drop)
}

/// The parts of a call in a row, to show them when a call disagrees.
fn as_file(sizes: &[u32; 6], kinds: &[u8], operands: &[u32]) -> Vec<u8> {
    assemble(sizes, kinds.len() as u32, kinds, operands)
}

/// None, one or two faults.
fn spoil(sizes: &mut [u32; 6], kinds: &mut Vec<u8>, operands: &mut Vec<u32>, random: &mut Random) {
    for _ in 0..random.below(3) {
        match random.below(5) {
            0 => sizes[random.place(6)] = random.pick(&[0, 1, 65, 257, 1 << 31, u32::MAX]),
            1 => operands.push(0),
            2 => kinds.push(0),
            3 if !kinds.is_empty() => {
                let place = random.place(kinds.len());
                kinds[place] = random.below(9) as u8;
            }
            _ if !operands.is_empty() => {
                let place = random.place(operands.len());
                operands[place] = random.below(10);
            }
            _ => {}
        }
    }
}
