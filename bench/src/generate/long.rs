//! Long traces: at the step limit, just over it, and at the longest length that is played, of every kind.

use super::{aintc, in_any_form, tour_of, Script};
use crate::model::Kind;
use crate::random::Random;
use crate::trace::{play, LONGEST, NUMBER_BYTES, PROGRAM_LIMIT};

/// A long trace of any kind and of any of the sorts below.
pub fn long(random: &mut Random) -> Vec<u8> {
    let kind = random.pick(&Kind::ALL);
    let script = opening(random, kind);
    let script = in_any_form(random, script);
    match random.below(5) {
        0 => {
            let steps = PROGRAM_LIMIT - 2 + random.below(5);
            of_steps(random, script, steps)
        }
        1 => {
            let steps = PROGRAM_LIMIT;
            let mut bytes = of_steps(random, script, steps);
            bytes.push(random.below(256) as u8);
            bytes
        }
        2 => {
            let length = LONGEST - 2 + random.below(4) as usize;
            of_length(random, script, length)
        }
        3 => padded(random, kind),
        _ => wide(random, kind),
    }
}

/// Some steps of a tour, so that the rest has something to work on; few enough that 20,000 steps fit in all.
fn opening(random: &mut Random, kind: Kind) -> Script {
    let steps = match kind {
        Kind::Aintc => 60,
        _ => 200,
    };
    tour_of(random, kind, steps)
}

/// Fills up to a number of steps with steps of two to four bytes; those that are there are counted by playing them.
pub fn of_steps(random: &mut Random, mut script: Script, steps: u32) -> Vec<u8> {
    let there = play(&script.bytes, steps, &mut ()).steps;
    for _ in there..steps {
        short_step(random, &mut script);
    }
    script.bytes
}

/// Fills up to a length with short steps, so that the step limit comes first.
pub fn of_length(random: &mut Random, mut script: Script, length: usize) -> Vec<u8> {
    while script.bytes.len() + 8 < length {
        short_step(random, &mut script);
    }
    finish(script, length)
}

/// The longest trace, with so few and so wide steps that the step limit does not come first.
pub fn wide(random: &mut Random, kind: Kind) -> Vec<u8> {
    let mut script = opening(random, kind);
    while script.bytes.len() + 20 < LONGEST {
        let offset = 4 * random.below(0x520 / 4);
        let wide = 1 << 28 | random.bits() as u32;
        if random.one_in(3) {
            script.read(offset);
        }
        script.write(offset, wide);
        script.line(random.below(40), random.below(2));
    }
    finish(script, LONGEST)
}

/// The longest trace with every number in five bytes, but for the last few.
pub fn padded(random: &mut Random, kind: Kind) -> Vec<u8> {
    let mut script = opening(random, kind);
    while NUMBER_BYTES * script.numbers.len() + 30 < LONGEST {
        short_step(random, &mut script);
    }
    finish(script.rewritten(|| NUMBER_BYTES), LONGEST)
}

/// Ends on the length exactly, by reads of two or three bytes, and of up to five where they tell a privilege.
fn finish(mut script: Script, length: usize) -> Vec<u8> {
    let least = match script.tells_privilege() {
        true => 3,
        false => 2,
    };
    while script.bytes.len() + 2 * least <= length {
        script.read(0);
    }
    match length - script.bytes.len() - least {
        0 => script.read(0),
        1 => script.read(0x80),
        _ => script.read(0x4000),
    }
    script.bytes
}

fn short_step(random: &mut Random, script: &mut Script) {
    if script.tells_privilege() {
        aintc::short_step(random, script);
        return;
    }
    match random.below(4) {
        0 => script.line(random.below(40), random.below(2)),
        1 => script.read(4 * random.below(0x140 / 4)),
        2 => script.write(4 * random.below(0x40 / 4), random.below(0x80)),
        _ => script.read(4 * random.below(0x60 / 4)),
    }
}
