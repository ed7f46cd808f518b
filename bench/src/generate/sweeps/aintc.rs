//! The sweeps of the AINTC: every register by every privilege, and each way to be chosen, held and released, on both
//! sides alike. Those of one side have words of their own for an input: `40:5` gives it a priority and leads it to the
//! side, `40~5` to the other side; `40u` unmasks and `40m` masks it, `40s` sets its soft bit and `40c` clears it. `A`
//! is the side's agreement and `B` that of the other; `?40` asks for all that tells of the side and of the input's
//! bank, and `!40` the same of the other side.

use crate::generate::aintc::{bit, CONTROL, END, PROTECTION, SIR, SYSCONFIG, THRESHOLD};
use crate::generate::steps::{decimal, steps};
use crate::generate::{Script, AINTC};
use crate::model::aintc::{Side, INPUTS};

pub fn situations() -> Vec<Script> {
    let mut scripts = vec![privileges(), resets()];
    for guarded in [0, 1] {
        scripts.extend((0..3).map(|privilege| every_access(guarded, privilege)));
    }
    for side in Side::BOTH {
        scripts.push(choosing(side));
        scripts.push(holding(side));
        scripts.push(releasing(side));
        scripts.push(thresholds(side));
        scripts.push(every_input(side));
    }
    scripts
}

/// Every offset of the map and some beyond, written and read by one privilege while protection stays as it is; what
/// undoes it is made good by who may. The ILRs in between are taken at their words.
fn every_access(guarded: u32, privilege: u32) -> Script {
    let mut script = Script::new(AINTC, &[]);
    script.write(PROTECTION, guarded);
    let offsets = || {
        (0..0x104)
            .chain((0x104..0x2F8).step_by(4))
            .chain(0x2F8..END + 16)
    };
    for value in [!2, 0x5A5A_5A58, u32::MAX] {
        for offset in offsets() {
            script.write_by(privilege, offset, value);
            if [SYSCONFIG, PROTECTION].contains(&offset) {
                script.write(PROTECTION, guarded);
            }
            script.read_by(privilege, offset);
        }
    }
    script
}

/// Privilege numbers that are right, too large, or right only in their low bits, at a register, beside one and at
/// none, at the protection register, and where the access itself is wrong.
fn privileges() -> Script {
    let mut script = Script::new(AINTC, &[]);
    let wrong = [2, 3, 0x80, 0x100, 0x101, 0x8000_0000, 0x8000_0001, u32::MAX];
    for guarded in [0, 1] {
        script.write(PROTECTION, guarded);
        for privilege in [0, 1].into_iter().chain(wrong) {
            for offset in [THRESHOLD, 0x069, 0x06C, PROTECTION, SIR[0], CONTROL] {
                script.read_by(privilege, offset);
                script.write_by(privilege, offset, guarded);
            }
            script.line(privilege, 1);
            script.line(3, privilege);
        }
    }
    script
}

/// A trace that is told of one side.
struct Told {
    side: Side,
    script: Script,
}

impl Told {
    fn new(side: Side, text: &str) -> Told {
        let script = Script::new(AINTC, &[]);
        let mut told = Told { side, script };
        told.steps(text);
        told
    }

    fn steps(&mut self, text: &str) {
        for word in text.split_whitespace() {
            self.step(word);
        }
    }

    fn step(&mut self, word: &str) {
        let (side, other) = (self.side as usize, self.side.other() as usize);
        let bank = |register: &str, input: &str| {
            let (bank, bit) = (decimal(input) / 32, bit(decimal(input)));
            format!("{register}{bank}={bit:x}")
        };
        let text = match (word, word.split_at(word.len() - 1)) {
            ("A", _) => format!("CONTROL={:x}", self.side.agreement()),
            ("B", _) => format!("CONTROL={:x}", self.side.other().agreement()),
            (_, (input, "u")) => bank("MIR_CLEAR", input),
            (_, (input, "m")) => bank("MIR_SET", input),
            (_, (input, "s")) => bank("ISR_SET", input),
            (_, (input, "c")) => bank("ISR_CLEAR", input),
            _ => match (word.split_once([':', '~']), word.split_at(1)) {
                (Some((input, priority)), _) => {
                    let to = if word.contains('~') { other } else { side };
                    format!("ILR{input}={:x}", decimal(priority) << 2 | to as u32)
                }
                (_, ("?", input)) => status(side, decimal(input)),
                (_, ("!", input)) => status(other, decimal(input)),
                _ => word.to_owned(),
            },
        };
        self.script.steps(&text);
    }
}

/// Reads all that tells of a side, and the bank of an input.
fn status(side: usize, input: u32) -> String {
    let (bank, pending) = (input / 32, ["PENDING_IRQ", "PENDING_FIQ"][side]);
    format!("SIR{side} PRIORITY{side} {pending}{bank} ITR{bank} ISR_SET{bank}")
}

/// Each way in which a free side comes to choose, and whom it passes over.
fn choosing(side: Side) -> Script {
    let mut told = Told::new(side, "4:2 4+ 5:3 5+ 6:2 6+ 7:9 7+ ?4 MIR_CLEAR0=F0");
    // 6 by the tie with 4, then as they go away: 4, 5, 7, none.
    told.steps("?6 A 6- A ?4 A 4- A ?5 A 5- A ?7 A 7- A");
    told.steps("5s ?5 5c A ISR_SET0=F0 MIR0=FFFFFF6F A ISR_CLEAR0=50 A");
    told.steps("MIR0=FFFFFFFF A MIR0=FFFFFFDF ?5");
    // One input that the threshold keeps out, let in by the threshold, by its priority and by its route.
    told.steps("ISR_CLEAR0=FFFFFFFF CONTROL=3 8:3 8u 9:2 9u THRESHOLD=2 8+ ?8");
    told.steps("THRESHOLD=FFFFFFFF ?8 THRESHOLD=3 A 9+ ?8 9- A 8:1 8- A");
    told.steps("8~1 8+ 8:1 SIR0 SIR1 8- CONTROL=3 SIR0 SIR1");
    told.script
}

/// One chosen, and everything done to it and beside it that must not move it.
fn holding(side: Side) -> Script {
    let mut told = Told::new(side, "40:5 40u 41:4 41u 50:5 50u 33:5 33u 52:0 52u");
    told.steps("40+ ?40 50+ ?40 33+ ?40 41+ ?40 52s 52c 50- 40- ?40 40s 40+ 40c 40s 40- 40c 40+");
    told.steps("40m ?40 40u MIR1=00000102 MIR1=FFFF0001");
    // Another priority, another route, so that the other side takes it too, and a threshold that falls to it.
    told.steps("40:9 ?40 40~9");
    for side in 0..2 {
        told.script.steps(&status(side, 40));
    }
    told.steps("40:5 B !40 THRESHOLD=6 ?40 THRESHOLD=5 ?40 THRESHOLD=0 ?40 THRESHOLD=FF ?40");
    // Agreement bits that are not its own, and its own by who may not.
    let sir = format!("SIR{}", side as usize);
    steps!(told: "CONTROL=0 {sir} CONTROL=FFFFFFFC {sir} B {sir} PROTECTION=1");
    told.script.write_by(0, CONTROL, 3);
    told.script.write_by(2, CONTROL, 3);
    steps!(told: "{sir} 41- 41+ PROTECTION=FFFFFFFE A ?40");
    told.script
}

/// Agreement with none chosen, with the same still there, with another, with nothing left, and with one that has to
/// wait for the threshold; both sides in one write.
fn releasing(side: Side) -> Script {
    let of = side as usize;
    let mut told = Told::new(side, &format!("A SIR{of} 70:7 70u 70+ 71:8 71u 71+"));
    steps!(told: "A 70- A 71- A A 70+ PRIORITY{of} THRESHOLD=7 A ?70");
    told.steps("71:6 71+ ?71 71- A THRESHOLD=FF 71~6 71+ 70m");
    for side in 0..2 {
        told.script.steps(&status(side, 70));
    }
    told.steps("CONTROL=3 CONTROL=FFFFFFFF 71- CONTROL=3");
    told.script
}

/// Thresholds and priorities on both sides of each turn of the rule, one input at a time and two at once.
fn thresholds(side: Side) -> Script {
    let mut told = Told::new(side, "9u");
    for threshold in [0, 1, 2, 3, 0x7E, 0x7F, 0x80, 0xFE, 0xFF, 0x100] {
        steps!(told: "THRESHOLD={threshold:x} THRESHOLD");
        for priority in [0, 1, 2, 3, 0x7E, 0x7F] {
            steps!(told: "9:{priority} 9+ ?9 9- A");
        }
    }
    for (threshold, [low, high]) in [(2, [3, 1]), (0, [1, 0]), (0x7F, [0x7F, 0x7E])] {
        steps!(told: "9m THRESHOLD={threshold:x} 9:{low} 10:{high}");
        told.steps("ISR_SET0=600 MIR_CLEAR0=600 ?9 ISR_CLEAR0=400 A ISR_CLEAR0=200");
        told.steps("THRESHOLD=FF A");
    }
    told.script
}

/// Every input chosen by its line and by its soft bit, while its neighbours and its own other side see nothing.
fn every_input(side: Side) -> Script {
    let mut told = Told::new(side, "");
    let other = ["PENDING_FIQ", "PENDING_IRQ"][side as usize];
    for n in 0..INPUTS as u32 {
        let bank = n / 32;
        steps!(told: "{n}:{n} {n}u {n}+ ?{n} {other}{bank} MIR{bank} ILR{n}");
        steps!(told: "{n}- A {n}s ?{n} {n}c A");
        if n % 2 == 0 {
            steps!(told: "{n}m");
        }
    }
    told.script
}

/// Everything set, then the soft reset, by 2 and by 3, under protection and not, and by who may not; all is read
/// after it, and what the lines still ask for is chosen once it is unmasked.
fn resets() -> Script {
    let mut script = Script::new(AINTC, &[]);
    let by = [
        (1, 2, 0),
        (1, 3, 0),
        (1, 2, 1),
        (0, 3, 0),
        (0, 2, 1),
        (1, u32::MAX, 1),
    ];
    for (privilege, value, guarded) in by {
        for (input, side) in [(0, 0), (31, 1), (64, 1), (127, 0)] {
            let (bank, ilr) = (input / 32, (1 + input / 2) << 2 | side);
            steps!(script: "ILR{input}={ilr:x} MIR_CLEAR{bank}={:x} {input}+", bit(input));
        }
        script.steps("ISR_SET0=2 @0=FFFFFF76 @50=FFFFFF76 THRESHOLD=FFFFFF76 SYSCONFIG=1");
        script.write(PROTECTION, guarded);
        script.write_by(privilege, SYSCONFIG, value);
        (0..END).step_by(4).for_each(|offset| script.read(offset));
        for bank in 0..4 {
            steps!(script: "MIR_CLEAR{bank}=FFFFFFFF");
        }
        script.steps("SIR0 PROTECTION=0 CONTROL=3");
    }
    script
}
