//! Tours of a CoreInterrupt of any size.

use super::played::Played;
use super::Script;
use crate::model::core::CoreInterrupt;
use crate::random::Random;

const END: u32 = 0x30;
const LINES: u32 = 40;

/// A sound CoreInterrupt trace of so many steps.
pub fn tour(random: &mut Random, steps: u32) -> Script {
    let fiqs = random.pick(&[0, 0, 1, 1, 3, 7, 8, 8]);
    let irqs = random.pick(&[0, 0, 1, 2, 16, 31, 32, 32]);
    let levels = [random.below(2), random.below(2)];
    let script = Script::new(1, &[fiqs, irqs, levels[0], levels[1]]);
    let core = CoreInterrupt::new(fiqs, irqs, levels[0] == 1, levels[1] == 1);
    let mut at = Played::new(random, script, core);
    for _ in 0..steps {
        match at.random.below(20) {
            0..=7 => {
                let line = line(at.random, fiqs, irqs);
                let level = at.random.below(2);
                at.line(line, level);
            }
            8..=12 => {
                let register = at.random.below(END / 4);
                at.read(4 * register);
            }
            13..=17 => {
                let offset = at.random.pick(&[0x00, 0x04, 0x08, 0x08, 0x0C]);
                let (value, group) = (value(at.random), at.random.below(2));
                at.write(offset + 0x18 * group, value);
            }
            18 => at.odd_access(END),
            _ if at.random.one_in(3) => at.bad_line(LINES),
            _ => {
                let register = at.random.below(END / 4);
                at.write_word(4 * register);
            }
        }
    }
    at.script
}

/// Mostly an input that is configured, at times one that is not.
fn line(random: &mut Random, fiqs: u32, irqs: u32) -> u32 {
    match random.below(4) {
        0 if fiqs > 0 => 32 + random.below(fiqs),
        1 | 2 if irqs > 0 => random.below(irqs),
        _ => random.below(LINES),
    }
}

/// Few low bits, so that both sides meet, or any word.
fn value(random: &mut Random) -> u32 {
    if random.one_in(3) {
        random.word()
    } else {
        random.below(16)
    }
}
