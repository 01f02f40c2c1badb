//! Machines to hand over: such as a schedule leads to, and any others.

use crate::generate;
use crate::image::{
    Hand, Image, HEAD, LOCK, MOST_COUNTED, MOST_SLOTS, MOST_STORES, MOST_THIEVES, PENDING, SLOTS,
    SPACING_COUNT, STORES, STORE_HANDS, TAIL, THIEF_CALLS, THIEF_HANDS, TOP, WORKER_CALL,
    WORKER_HANDS,
};
use crate::queue::Queue;
use crate::random::Random;
use crate::schedule::{Draft, BUFFER, RANGES, SPACING};
use crate::script::Script;
use crate::sides::from_file_order;

/// A machine in the middle of a random schedule. The reference leads there; an
/// error on its way could only make the machine an unlikely one.
pub fn reached(random: &mut Random) -> Image {
    let most = random.pick(&[20, 60, 200]);
    let length = random.place(most + 1);
    led_to(&generate::schedule_for(Queue::Locking, length, random))
}

/// A machine with two takes hidden, a client store between them and places left
/// in the list. Nobody has a call, so that any call and any step can be tried.
pub fn hiding() -> Image {
    let mut script = Script::new([8, 8, 1, 2, 1, 0]);
    for task in 1..=3 {
        script = script.put(task).drains(2);
    }
    let taken = script.take(3).client_stores(1).take(2);
    led_to(&taken.draft)
}

/// The machine at the end of a sound schedule.
fn led_to(draft: &Draft) -> Image {
    let mut image = reference::fresh_image(&from_file_order(&draft.sizes));
    for &(kind, operand) in &draft.entries {
        image = reference::step_of_image(&image, [0; 3], kind, operand).4;
    }
    Image::of(&image)
}

/// A machine whose numbers have little to do with one another.
pub fn any(random: &mut Random) -> Image {
    // With so many numbers hardly any machine would be in range all over.
    let past = random.pick(&[0, 0, 60]);
    let any = random.between(0, TOP as u32);
    let near = i64::from(random.pick(&[0, 1, any, TOP as u32 - 1]));
    Drawing { random, past, near }.machine()
}

struct Drawing<'a> {
    random: &'a mut Random,
    /// The share of numbers past an edge, out of a thousand.
    past: u32,
    /// Most indices are around this one, so that comparing them tells little
    /// beforehand.
    near: i64,
}

impl Drawing<'_> {
    fn machine(&mut self) -> Image {
        let mut image = Image::ZERO;
        image.set(0, &self.sizes());
        for slot in 0..MOST_SLOTS {
            image.set(SLOTS + slot, &[self.task()]);
        }
        image.set(HEAD, &[self.index(-1)]);
        image.set(TAIL, &[self.index(-1)]);
        image.set(LOCK, &[self.lock()]);
        image.set(PENDING, &[self.pending(image.at(BUFFER))]);
        for which in 0..MOST_STORES {
            image.set(STORES + 3 * which, &self.cells(&STORE_HANDS));
        }
        image.set(SPACING_COUNT, &self.spacing(image.at(SPACING)));
        image.set(WORKER_CALL, &self.cells(&WORKER_HANDS));
        for which in 0..MOST_THIEVES {
            image.set(THIEF_CALLS + 3 * which, &self.cells(&THIEF_HANDS));
        }
        image
    }

    fn sizes(&mut self) -> [i64; 6] {
        let mut sizes = generate::sizes(self.random);
        for (size, (low, high)) in sizes.iter_mut().zip(RANGES) {
            if self.random.chance(self.past / 4) {
                *size = self.random.pick(&[low.wrapping_sub(1), high + 1]);
            }
        }
        sizes.map(i64::from)
    }

    fn task(&mut self) -> i64 {
        i64::from(generate::task(self.random))
    }

    fn index(&mut self, least: i64) -> i64 {
        if self.random.chance(self.past) {
            return self.random.pick(&[i64::MIN, least - 1, TOP + 1, i64::MAX]);
        }
        let close = self.near + i64::from(self.random.below(7)) - 3;
        let close = close.clamp(least, TOP);
        self.random
            .pick(&[close, close, close, close, least, TOP - 1, TOP])
    }

    /// Nobody's, the worker's or a thief's, who need not be there.
    fn lock(&mut self) -> i64 {
        let thief = 2 + i64::from(self.random.below(9));
        let last = 2 + i64::from(u32::MAX);
        self.random.pick(&[0, 0, 0, 1, thief, thief, last])
    }

    fn pending(&mut self, buffer: i64) -> i64 {
        if self.random.chance(self.past) {
            return self.random.pick(&[-1, buffer + 1, 65, i64::MAX]);
        }
        let most = buffer.clamp(0, MOST_STORES as i64);
        let some = i64::from(self.random.between(0, most as u32));
        self.random.pick(&[0, some, some, most])
    }

    /// The count, and whether a take has begun.
    fn spacing(&mut self, spacing: i64) -> [i64; 2] {
        let begun = i64::from(self.random.below(2));
        if self.random.chance(self.past) {
            return [MOST_COUNTED + 1, begun];
        }
        let few = i64::from(self.random.below(4));
        let count = self.random.pick(&[few, spacing - 1, spacing, MOST_COUNTED]);
        [count.clamp(0, MOST_COUNTED), begun]
    }

    /// A store or a call; more often than by chance the first, a party at rest.
    fn cells(&mut self, hands: &[Hand]) -> [i64; 3] {
        let any = self.random.place(hands.len());
        let tag = self.random.pick(&[0, any, any, any]);
        let Hand { least, task } = hands[tag];
        let index = least.map_or(0, |least| self.index(least));
        let task = if task { self.task() } else { 0 };
        [tag as i64, index, task]
    }
}
