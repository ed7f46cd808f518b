//! The sweeps of the AIC's sources by level (02, 5/12): every byte of levels that have any, every highest level against
//! every last entry, every number of every level, and all that fills, empties or changes a level.

use super::marks::opening;
use crate::generate::steps::steps;
use crate::generate::Script;

pub fn situations() -> Vec<Script> {
    let mut scripts = vec![bytes(), against(), moves(), modes(), several(), masked()];
    scripts.extend((0..8).map(numbers));
    scripts.extend((0..8).map(turns));
    scripts.extend([false, true].map(beneath_eight));
    scripts
}

/// Starts the one that is ahead, and closes it again.
const START: &str = "CISR IVR EOICR=0";

/// Each of some steps, and a start behind it.
fn each_started(script: &mut Script, text: &str) {
    for step in text.split_whitespace() {
        steps!(script: "{step} {START}");
    }
}

/// Each byte: a source for each level, the higher the level the lower the number in one half and the higher in the
/// other.
fn bytes() -> Script {
    let number = |level: u32| match level % 2 {
        0 => 20 - level,
        _ => 20 + level,
    };
    let mut script = opening("");
    for level in 0..8 {
        steps!(script: "{}:R{level}", number(level));
    }
    for byte in 0..256_u32 {
        let waiting = (0..8).filter(|level| byte >> level & 1 == 1);
        let word = waiting.fold(0, |word, level| word | 1 << number(level));
        steps!(script: "SET={word:x} {START} CLEAR={word:x}");
    }
    script
}

/// Each highest level, or none, above a handler of each level, or above nothing.
fn against() -> Script {
    let mut script = opening("");
    let levels = || [None].into_iter().chain((0..8).map(Some));
    for last in levels() {
        for highest in levels() {
            if let Some(level) = last {
                steps!(script: "2:R{level} SET=4 IVR");
            }
            if let Some(level) = highest {
                steps!(script: "9:R{level} SET=200");
            }
            steps!(script: "{START} CLEAR=FFFFFFFF EOICR=0");
        }
    }
    script
}

/// Of one level each number beside the highest one, then all of them, one start after the other.
fn numbers(level: u32) -> Script {
    let mut script = opening("");
    for number in 0..32 {
        steps!(script: "{number}:R{level}");
    }
    for number in 1..31 {
        let both = 1_u32 << number | 1 << 31;
        steps!(script: "SET={both:x} {START} CLEAR=FFFFFFFF");
    }
    script.steps("SET=FFFFFFFE");
    for _ in 0..32 {
        script.steps(START);
    }
    script
}

/// Of one level all that fills it, that joins one that waits there, that leaves one behind, and that empties it.
fn turns(level: u32) -> Script {
    let mut script = opening(&format!("5:R{level} 6:R{level}"));
    script.steps("SET=20 CISR SET=40 CISR CLEAR=20 CISR CLEAR=40 CISR SET=60");
    steps!(script: "{START} {START} 5:H{level} 6:H{level}");
    each_started(&mut script, "5+ 6+ 5- 6- 5+ 6+");
    each_started(&mut script, "DISABLE=20 DISABLE=40 ENABLE=20 ENABLE=40");
    each_started(&mut script, "FFER=20 FFER=40 FFDR=20 FFDR=40");
    let other = (level + 3) % 8;
    for to in [other, level, other] {
        each_started(&mut script, &format!("5:H{to} 6:H{to}"));
    }
    script
}

/// A waiting source from each level to each, beside one that stays in the middle.
fn moves() -> Script {
    let mut script = opening("9:H3 5:H0 9+ 5+");
    for from in 0..8 {
        for to in 0..8 {
            each_started(&mut script, &format!("5:H{from} 5:H{to}"));
        }
    }
    script
}

/// Modes of a pending source that take it out of all levels and put it back, and that change nothing to see while it
/// is disabled or fast, until it is neither.
fn modes() -> Script {
    let mut script = opening("5:H2 9:H4 5+ 9+");
    each_started(&mut script, "5:R6 5:H6 5:L6 5:F6 5:L5");
    for (out, back) in [("DISABLE", "ENABLE"), ("FFER", "FFDR")] {
        for level in [1, 7] {
            steps!(script: "{out}=20 5:H{level} {START} {back}=20 {START}");
        }
    }
    script
}

/// Sources of every level at once, by each command.
fn several() -> Script {
    let mut script = opening("1:R0 2:R1 3:R2 4:R3 5:R4 6:R5 7:R6 8:R7");
    for command in ["SET", "DISABLE", "ENABLE", "FFER", "FFDR", "CLEAR"] {
        steps!(script: "{command}=1FE CISR {command}=155 {START}");
    }
    script
}

/// Levels that fill and empty under the mask.
fn masked() -> Script {
    let mut script = opening("5:H2 9:H4");
    for debug in [2, 0, 2] {
        steps!(script: "DCR={debug}");
        each_started(&mut script, "5+ 9+ 9- 9+");
        script.steps("9- 5-");
    }
    script.steps("DCR=0 CISR");
    script
}

/// Eight handlers or eight marks, and beneath them all that changes a level; then one closed, and what is left starts.
fn beneath_eight(marks: bool) -> Script {
    let mut script = opening("");
    for level in 0..8 {
        if !marks {
            let source = 16 + level;
            steps!(script: "{source}:R{level} SET={:x}", 1 << source);
        }
        script.steps("IVR");
    }
    script.steps("5:H7 6:R7 5+ IVR 5- IVR 5+ IVR");
    for change in "DISABLE ENABLE FFER FFDR".split(' ') {
        steps!(script: "{change}=20 CISR IVR");
    }
    for change in "SET=40 CLEAR=40 MODE5=41 MODE5=46".split(' ') {
        steps!(script: "{change} CISR IVR");
    }
    for _ in 0..9 {
        steps!(script: "EOICR=0 CISR {START}");
    }
    script
}
