//! Files with something wrong in them.

use crate::random::Random;
use crate::schedule::{HEADER, RANGES};

/// The file with one or two kinds of damage. Now and then the damage undoes
/// itself or is harmless: what it does is for the two sides to say.
pub fn damaged(file: &[u8], random: &mut Random) -> Vec<u8> {
    let mut file = file.to_vec();
    for _ in 0..random.between(1, 2) {
        damage(&mut file, random);
    }
    file
}

fn damage(file: &mut Vec<u8>, random: &mut Random) {
    let entries = file.len().saturating_sub(HEADER) / 5;
    match random.below(9) {
        0 if file.len() >= HEADER => set_size(file, random),
        1 if entries > 0 => set_kind(file, entries, random),
        2 if entries > 0 => set_operand(file, entries, random),
        3 => cut(file, random),
        4 => extend(file, random),
        5 if !file.is_empty() => lose_byte(file, random),
        _ if !file.is_empty() => change_byte(file, random),
        _ => {}
    }
}

fn change_byte(file: &mut [u8], random: &mut Random) {
    let place = random.place(file.len());
    let byte = &mut file[place];
    let (flipped, any) = (*byte ^ (1 << random.below(8)), random.below(256) as u8);
    *byte = random.pick(&[flipped, flipped, any]);
}

fn extend(file: &mut Vec<u8>, random: &mut Random) {
    for _ in 0..random.between(1, 10) {
        file.push(random.below(256) as u8);
    }
}

/// A size at, or one past, an end of its range; or any number.
fn set_size(file: &mut [u8], random: &mut Random) {
    let place = random.place(RANGES.len());
    let (low, high) = RANGES[place];
    let any = random.number();
    let number = random.pick(&[low, low.wrapping_sub(1), high, high + 1, any, u32::MAX]);
    put(file, 4 * place, number);
}

fn set_kind(file: &mut [u8], entries: usize, random: &mut Random) {
    let any = random.below(256) as u8;
    file[HEADER + random.place(entries)] = random.pick(&[5, 6, 7, 255, any]);
}

fn set_operand(file: &mut [u8], entries: usize, random: &mut Random) {
    let at = HEADER + entries + 4 * random.place(entries);
    let any = random.number();
    put(file, at, random.pick(&[0, 1, 7, 8, u32::MAX, any]));
}

fn put(file: &mut [u8], at: usize, number: u32) {
    file[at..at + 4].copy_from_slice(&number.to_le_bytes());
}

/// Mostly a few bytes off the end, where an error by one would hide.
fn cut(file: &mut Vec<u8>, random: &mut Random) {
    let few = file.len().saturating_sub(random.place(8));
    let any = random.place(file.len() + 1);
    file.truncate(random.pick(&[few, few, any]));
}

/// A byte lost within the file moves all that follows.
fn lose_byte(file: &mut Vec<u8>, random: &mut Random) {
    file.remove(random.place(file.len()));
    if random.chance(500) {
        file.push(0);
    }
}

/// Every cut of a small file, and each of its bytes set to a few values: those
/// at the limits of most rules, and its own neighbours.
pub fn samples(file: &[u8]) -> Vec<Vec<u8>> {
    let mut samples = Vec::new();
    for (place, &byte) in file.iter().enumerate() {
        samples.push(file[..place].to_vec());
        for value in [0, 1, 7, 255, byte.wrapping_add(1), byte.wrapping_sub(1)] {
            let mut sample = file.to_vec();
            sample[place] = value;
            samples.push(sample);
        }
    }
    samples
}
