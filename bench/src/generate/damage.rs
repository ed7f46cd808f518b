//! Damaged traces: bad numbers in good places, cuts, flipped bits, lost and doubled bytes, and plain noise.

use super::{width, Script};
use crate::random::Random;
use crate::trace::{encode, Defect, NUMBER_BYTES};

/// The trace with one number spoiled, or harmed at any byte, at times more than once.
pub fn damaged(random: &mut Random, mut script: Script) -> Vec<u8> {
    if random.one_in(2) {
        spoil_a_number(random, &mut script);
        return script.bytes;
    }
    harm(random, &mut script.bytes);
    while random.one_in(4) {
        harm(random, &mut script.bytes);
    }
    script.bytes
}

/// Any bytes, of which the first few often look like the beginning of a trace.
pub fn noise(random: &mut Random) -> Vec<u8> {
    let mut bytes = match random.below(6) {
        0 => vec![],
        1 => vec![0, 0, 0],
        2 => vec![1, 8, 32, 0, 1],
        3 => vec![2, 33, 4, 4, 0],
        4 => vec![4, 33, 4, 4, 0, 1],
        _ => vec![3],
    };
    let most = random.pick(&[0x100, 0x80, 0x08, 0x04]);
    for _ in 0..random.below(60) {
        bytes.push(random.below(most) as u8);
    }
    bytes
}

/// Numbers at and just beyond the limits of kinds, configurations, privileges and lines.
const NEAR_LIMITS: [u32; 17] = [
    0, 1, 2, 3, 4, 5, 8, 9, 32, 33, 127, 128, 255, 256, 257, 1_024, 1_025,
];

fn spoil_a_number(random: &mut Random, script: &mut Script) {
    let place = random.below(script.numbers.len() as u32) as usize;
    match random.below(8) {
        0 => {
            let any_width = random.within(1, 12) as usize;
            exchange(script, place, random.word(), any_width);
        }
        1 | 2 => {
            let among_first = random.below(6) as usize % script.numbers.len();
            let value = random.pick(&NEAR_LIMITS);
            exchange(script, among_first, value, width(random));
        }
        _ => spoil(script, place, random.pick(&Defect::ALL)),
    }
}

/// Gives the number of a place in the script a defect. A missing or cut number takes all that follows with it. What is
/// there keeps the low bits of its value, so that whoever overlooks the defect plays on; where a number is cut, and
/// which bit is beyond 32, goes by its place.
pub fn spoil(script: &mut Script, place: usize, defect: Defect) {
    let at = script.numbers[place];
    match defect {
        Defect::Missing => script.bytes.truncate(at),
        Defect::Cut => {
            let value = script.value(place);
            script.bytes.truncate(at);
            encode(value, NUMBER_BYTES + 1, &mut script.bytes);
            script.bytes.truncate(at + 1 + place % NUMBER_BYTES);
        }
        Defect::TooManyBytes => replace(script, place, |value, bytes| {
            encode(value, NUMBER_BYTES + 1, bytes);
        }),
        Defect::TooManyBits => replace(script, place, |value, bytes| {
            encode(value, NUMBER_BYTES, bytes);
            bytes[NUMBER_BYTES - 1] |= 0x10 << (place % 3);
        }),
        Defect::TooManyOfBoth => replace(script, place, |value, bytes| {
            encode(value, NUMBER_BYTES + 1, bytes);
            bytes[NUMBER_BYTES] |= 0x01;
        }),
    }
}

/// Puts another number in the place of one, in so many bytes or in as many as it needs.
fn exchange(script: &mut Script, place: usize, value: u32, width: usize) {
    replace(script, place, |_, bytes| encode(value, width, bytes));
}

/// Puts other bytes where a number stood, which may depend on its value.
fn replace(script: &mut Script, place: usize, write: impl Fn(u32, &mut Vec<u8>)) {
    let at = script.numbers[place];
    let end = match script.numbers.get(place + 1) {
        Some(&next) => next,
        None => script.bytes.len(),
    };
    let mut number = Vec::new();
    write(script.value(place), &mut number);
    script.bytes.splice(at..end, number);
}

/// One harm that knows nothing of numbers.
fn harm(random: &mut Random, bytes: &mut Vec<u8>) {
    if bytes.is_empty() {
        bytes.push(random.below(256) as u8);
        return;
    }
    let at = random.below(bytes.len() as u32) as usize;
    match random.below(6) {
        0 | 1 => bytes.truncate(at),
        2 => bytes[at] ^= 1 << random.below(8),
        3 => bytes[at] = random.below(256) as u8,
        4 => drop(bytes.remove(at)),
        _ => bytes.insert(at, bytes[at]),
    }
}
