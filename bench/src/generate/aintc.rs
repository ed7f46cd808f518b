//! Tours of an AINTC, which keep to few inputs and few priorities, so that ties and thresholds bite. A tour plays along
//! on the model, to know which inputs are chosen and to work on them.

use super::played::{odd_offset, weights, Played};
use super::{Script, AINTC};
use crate::model::aintc::{has, Aintc, Chosen, Side, INPUTS};
use crate::model::{Recorded, Step, PRIVILEGED};
use crate::random::Random;

pub const SYSCONFIG: u32 = 0x010;
pub const SIR: [u32; 2] = [0x040, 0x044];
pub const CONTROL: u32 = 0x048;
pub const PROTECTION: u32 = 0x04C;
pub const PRIORITY: [u32; 2] = [0x060, 0x064];
pub const THRESHOLD: u32 = 0x068;
pub const ITR: u32 = 0x080;
pub const MIR: u32 = 0x084;
pub const MIR_CLEAR: u32 = 0x088;
pub const MIR_SET: u32 = 0x08C;
pub const ISR_SET: u32 = 0x090;
pub const ISR_CLEAR: u32 = 0x094;
pub const PENDING: [u32; 2] = [0x098, 0x09C];
pub const ILR: u32 = 0x100;
pub const END: u32 = 0x300;

/// Registers that are alone, and gaps beside them.
const SINGLE: [u32; 16] = [
    0x000, 0x004, 0x010, 0x014, 0x018, 0x03C, 0x040, 0x044, 0x04C, 0x050, 0x054, 0x05C, 0x060,
    0x064, 0x068, 0x06C,
];

/// Inputs at the ends of the four banks.
const ENDS: [u32; 8] = [0, 31, 32, 63, 64, 95, 96, 127];

/// The highest priorities, the lowest, and two in the middle.
const PRIORITIES: [u32; 8] = [0, 1, 2, 3, 0x3F, 0x40, 0x7E, 0x7F];

/// How often each act comes: in a mixed tour; where many inputs become ready in one step, so that a side has something
/// to choose from; where the chosen one is left alone by nobody; and where protection goes on and off, and many
/// accesses are unprivileged.
const MIXED: &str = "20 line, 4 set, 3 clear, 4 unmask, 2 mask, 2 masks, 6 ILR, 5 threshold, \
    8 agree, 4 serve, 3 preempt, 3 better, 4 unsettle, 8 read status, 1 protect, 1 reset, \
    2 single, 2 any register, 2 odd access, 1 bad line";
const CHOOSING: &str = "10 set, 6 unmask, 3 masks, 8 ILR, 6 threshold, 14 agree, 4 line, \
    4 serve, 8 read status";
const HOLDING: &str = "16 unsettle, 8 better, 10 line, 4 set, 4 unmask, 4 threshold, 8 agree, \
    10 read status, 1 reset";
const GUARDED: &str = "6 protect, 8 line, 4 unmask, 4 set, 4 ILR, 4 agree, 8 read status, \
    8 single, 8 any register, 4 odd access";

/// A tour as it goes on, with what it is mostly about and the inputs and priorities it likes.
struct Tour<'a> {
    at: Played<'a, Aintc>,
    mood: &'static str,
    inputs: Vec<u32>,
    priorities: Vec<u32>,
}

/// A sound AINTC trace of about so many steps.
pub fn tour(random: &mut Random, steps: u32) -> Script {
    let mood = random.pick(&[MIXED, CHOOSING, HOLDING, GUARDED]);
    let inputs = favourites(random);
    let count = random.within(1, 3);
    let mut tour = Tour {
        mood,
        inputs,
        priorities: (0..count).map(|_| random.pick(&PRIORITIES)).collect(),
        at: Played::new(random, Script::new(AINTC, &[]), Aintc::new()),
    };
    if steps > 8 {
        tour.prepare();
    }
    let acts = weights(mood);
    for _ in 0..steps {
        let act = tour.at.random.weighted(&acts);
        tour.act(act);
    }
    tour.at.script
}

/// A step of three bytes, seldom four.
pub fn short_step(random: &mut Random, script: &mut Script) {
    match random.below(32) {
        0..=13 => script.line(random.below(INPUTS as u32), random.below(2)),
        14..=28 => script.read(4 * random.below(0x80 / 4)),
        29 | 30 => script.write(CONTROL, random.below(4)),
        _ => script.write(THRESHOLD, random.below(0x80)),
    }
}

/// A few inputs that the tour keeps to, most of them in one bank, so that one write reaches several.
fn favourites(random: &mut Random) -> Vec<u32> {
    let home = 32 * random.below(4);
    let count = random.pick(&[1, 2, 3, 6, 12]);
    let favourite = |_| match random.below(6) {
        0 => random.pick(&ENDS),
        1 => random.below(INPUTS as u32),
        2 => home + random.pick(&[0, 31]),
        _ => home + random.below(32),
    };
    (0..count).map(favourite).collect()
}

/// The bit of an input in its bank.
pub fn bit(input: u32) -> u32 {
    1 << (input % 32)
}

/// The offset of a register of the input's bank, from that of the first bank.
pub fn of_bank(register: u32, input: u32) -> u32 {
    register + 0x20 * (input / 32)
}

impl Tour<'_> {
    /// Gives the favourite inputs priorities and routes, and unmasks most of them.
    fn prepare(&mut self) {
        for nth in 0..self.inputs.len() {
            let input = self.inputs[nth];
            self.ilr(input);
            if !self.at.random.one_in(4) {
                self.write(of_bank(MIR_CLEAR, input), bit(input));
            }
        }
    }

    fn act(&mut self, act: &str) {
        match act {
            "line" => self.turn_line(),
            "set" => self.bank(ISR_SET),
            "clear" => self.bank(ISR_CLEAR),
            "unmask" => self.bank(MIR_CLEAR),
            "mask" => self.bank(MIR_SET),
            "masks" => self.bank(MIR),
            "ILR" => {
                let input = self.input();
                self.ilr(input);
            }
            "threshold" => self.threshold(),
            "agree" => {
                let value = self.at.random.pick(&[0, 1, 1, 2, 2, 3, 3, 0xFFFF_FFFC]);
                self.write(CONTROL, value);
            }
            "read status" => self.read_status(),
            "protect" => self.protect(),
            "reset" => self.reset(),
            "single" => {
                let offset = self.at.random.pick(&SINGLE);
                self.access(offset);
            }
            "any register" => {
                let offset = 4 * self.at.random.below(END / 4);
                self.access(offset);
            }
            "odd access" => {
                let offset = odd_offset(self.at.random, END);
                self.access(offset);
            }
            "bad line" => self.at.bad_line(INPUTS as u32),
            _ => match self.busy() {
                None => self.turn_line(),
                Some((side, chosen)) => self.disturb(act, side, chosen),
            },
        }
    }

    /// What is done while a side is busy.
    fn disturb(&mut self, act: &str, side: Side, chosen: Chosen) {
        match act {
            "serve" => self.serve(side, chosen),
            "preempt" => self.preempt(side, chosen),
            "better" => self.better(side, chosen),
            "unsettle" => self.unsettle(side, chosen),
            _ => unreachable!("{act} is no act"),
        }
    }

    /// An access by a privilege is written down and played. A refused one is a good one here, and changes nothing.
    fn read_by(&mut self, privilege: u32, offset: u32) {
        self.at.script.read_by(privilege, offset);
        let step = Step::Read { offset };
        let _ = self.at.model.recorded(Recorded { step, privilege });
    }

    fn write_by(&mut self, privilege: u32, offset: u32, value: u32) {
        self.at.script.write_by(privilege, offset, value);
        let step = Step::Write { offset, value };
        let _ = self.at.model.recorded(Recorded { step, privilege });
    }

    fn read(&mut self, offset: u32) {
        let privilege = self.privilege();
        self.read_by(privilege, offset);
    }

    fn write(&mut self, offset: u32, value: u32) {
        let privilege = self.privilege();
        self.write_by(privilege, offset, value);
    }

    /// Reads or writes whatever is at an offset.
    fn access(&mut self, offset: u32) {
        if self.at.random.one_in(2) {
            self.read(offset);
        } else {
            let value = self.at.random.word();
            self.write(offset, value);
        }
    }

    /// Mostly privileged, often not where protection is the matter, and now and then a number that is too large.
    fn privilege(&mut self) -> u32 {
        let (privileged, unprivileged) = match self.mood {
            GUARDED => (20, 18),
            _ => (60, 6),
        };
        match self.at.random.below(privileged + unprivileged + 1) {
            0 => match self.at.random.below(4) {
                0 => self.at.random.word().max(2),
                1 => 0x100 << self.at.random.below(24) | self.at.random.below(2),
                _ => 2,
            },
            other => u32::from(other <= privileged),
        }
    }

    fn input(&mut self) -> u32 {
        if self.at.random.one_in(16) {
            self.at.random.below(INPUTS as u32)
        } else {
            self.at.random.pick(&self.inputs)
        }
    }

    /// A side that is busy, and with what.
    fn busy(&mut self) -> Option<(Side, Chosen)> {
        let side = self.at.random.pick(&Side::BOTH);
        let of = |side| Some((side, self.at.model.chosen(side)?));
        of(side).or_else(|| of(side.other()))
    }

    /// Mostly turns a line round, sometimes says its level again.
    fn turn_line(&mut self) {
        let input = self.input();
        let mut level = u32::from(has(self.at.model.levels(), input as usize));
        if !self.at.random.one_in(8) {
            level ^= 1;
        }
        self.at.line(input, level);
    }

    /// Masks and soft bits: one input or two, all favourites of the bank, or any word.
    fn bank(&mut self, register: u32) {
        let input = self.input();
        let word = match self.at.random.below(8) {
            0 => self.at.random.word(),
            1..=3 => self.favourites_beside(input),
            _ => bit(input) | self.favourites_beside(input) & self.at.random.word(),
        };
        let word = match register {
            MIR => !word,
            _ => word,
        };
        self.write(of_bank(register, input), word);
    }

    /// The bits of all favourites in an input's bank.
    fn favourites_beside(&self, input: u32) -> u32 {
        let beside = self
            .inputs
            .iter()
            .filter(|&&other| other / 32 == input / 32);
        beside.fold(0, |word, &other| word | bit(other))
    }

    /// A priority in use, or seldom any, and either route; now and then with bits that are dropped.
    fn ilr(&mut self, input: u32) {
        let priority = match self.at.random.below(10) {
            0 => self.at.random.below(0x80),
            1 => self.at.random.pick(&PRIORITIES),
            _ => self.at.random.pick(&self.priorities),
        };
        let dropped = match self.at.random.below(5) {
            0 => self.at.random.word() & !0x1FD,
            _ => 0,
        };
        let route = self.at.random.below(2);
        self.write(ILR + 4 * input, priority << 2 | route | dropped);
    }

    /// A threshold at, above and below a priority in use, at the ends of what is described and beyond, or none.
    fn threshold(&mut self) {
        let priority = self.at.random.pick(&self.priorities);
        let value = match self.at.random.below(14) {
            0 => 0,
            1 => 1,
            2 => 0x7F,
            3 => 0x80,
            4 => 0xFE,
            5 => self.at.random.word(),
            6 | 7 => priority,
            8 | 9 => priority + 1,
            10 => priority.saturating_sub(1),
            _ => 0xFF,
        };
        self.write(THRESHOLD, value);
    }

    /// What a handler does: asks for the number, has the interrupt taken back or not, and agrees (000, 4.4.2).
    fn serve(&mut self, side: Side, chosen: Chosen) {
        let input = u32::from(chosen.number);
        self.read(SIR[side as usize]);
        if !self.at.random.one_in(3) {
            self.at.line(input, 0);
        }
        if !self.at.random.one_in(3) {
            self.write(of_bank(ISR_CLEAR, input), bit(input));
        }
        self.write(CONTROL, side.agreement());
    }

    /// What a handler does that can be interrupted: its priority becomes the threshold (000, 4.4.3).
    fn preempt(&mut self, side: Side, chosen: Chosen) {
        self.read(PRIORITY[side as usize]);
        self.write(THRESHOLD, u32::from(chosen.priority));
        self.write(CONTROL, side.agreement());
    }

    /// An input that would have been chosen first arrives too late.
    fn better(&mut self, side: Side, chosen: Chosen) {
        let (input, held) = (self.input(), u32::from(chosen.priority));
        let priority = self.at.random.pick(&[0, held, held.saturating_sub(1)]);
        self.write(ILR + 4 * input, priority << 2 | side as u32);
        self.write(of_bank(MIR_CLEAR, input), bit(input));
        self.at.line(input, 1);
    }

    /// The chosen one goes away, is masked, rerouted, given another priority, or the threshold falls to it.
    fn unsettle(&mut self, side: Side, chosen: Chosen) {
        let (input, held) = (u32::from(chosen.number), u32::from(chosen.priority));
        let ilr = ILR + 4 * input;
        let of_side = side as u32;
        match self.at.random.below(8) {
            0 => self.at.line(input, 0),
            1 => self.write(of_bank(ISR_CLEAR, input), bit(input)),
            2 => self.write(of_bank(MIR_SET, input), bit(input)),
            3 => self.write(of_bank(MIR, input), bit(input)),
            4 => self.write(ilr, held << 2 | (1 - of_side)),
            5 => {
                let priority = self.at.random.pick(&self.priorities);
                self.write(ilr, priority << 2 | of_side);
            }
            6 => self.write(THRESHOLD, held),
            _ => self.write(THRESHOLD, held.saturating_sub(1)),
        }
    }

    fn read_status(&mut self) {
        let input = self.input();
        let side = self.at.random.below(2);
        let offset = match self.at.random.below(9) {
            0 | 1 => SIR[side as usize],
            2 | 3 => PRIORITY[side as usize],
            4 | 5 => of_bank(PENDING[side as usize], input),
            6 => of_bank(self.at.random.pick(&[ITR, MIR, ISR_SET]), input),
            7 => ILR + 4 * input,
            _ => self
                .at
                .random
                .pick(&[0x000, SYSCONFIG, 0x014, 0x050, THRESHOLD]),
        };
        self.read(offset);
    }

    /// Mostly by who may, so that it goes on and off; other bits are dropped.
    fn protect(&mut self) {
        let value = self.at.random.pick(&[0, 1, 1, 2, 0xFFFF_FFFF]);
        match self.at.random.below(4) {
            0 => self.write(PROTECTION, value),
            1 => self.read(PROTECTION),
            _ => self.write_by(PRIVILEGED, PROTECTION, value),
        }
    }

    /// The soft reset, with and without AUTOIDLE, after which the tour mostly begins again; or AUTOIDLE alone.
    fn reset(&mut self) {
        let value = self.at.random.pick(&[2, 2, 3, 3, 0, 1, u32::MAX, !2]);
        self.write(SYSCONFIG, value);
        if value & 2 != 0 && !self.at.random.one_in(4) {
            self.prepare();
        }
    }
}
