//! The sweeps of the AIC's spurious marks: every mix with handlers, each way to open one, and what may start above it.

use crate::generate::steps::steps;
use crate::generate::Script;

pub fn situations() -> Vec<Script> {
    let mut scripts = vec![above_a_mark(), eight_marks(), modes_below()];
    scripts.extend([0, 2].map(each_hindrance));
    scripts.extend((0..4).map(|first| towers(first, READ)));
    scripts
}

/// An AIC with a spurious vector and all its sources enabled, and some steps.
pub(super) fn opening(text: &str) -> Script {
    let mut script = Script::with(0, &[0, 0], "SPU=5050 ENABLE=FFFFFFFF");
    script.steps(text);
    script
}

/// The last entry is closed.
pub(super) const CLOSE: &str = "EOICR=0 ISR";

/// What opens an entry: a read of IVR, or in protect mode a read and a write.
pub(super) const READ: &str = "IVR";
pub(super) const HANDSHAKE: &str = "IVR IVR=0";

/// Every mix of eight entries whose first two are the marks that the two bits say.
pub(super) fn towers(first: u32, open: &str) -> Script {
    let protect = match open {
        READ => "",
        _ => "DCR=1",
    };
    let mut script = opening(protect);
    script.steps("1:H0 2:H1 3:H2 4:H3 5:H4 6:H5 7:H6 8:H7 30:H7");
    for rest in 0..64 {
        tower(&mut script, rest << 2 | first, open);
    }
    script
}

/// Eight entries, marks where the bit is 1, with priority 7 waiting above them; then one close more than there are.
/// Each source stays up until its handler is closed, so that its own priority waits all the while.
fn tower(script: &mut Script, marks: u32, open: &str) {
    let is_handler = |at: u32| marks >> at & 1 == 0;
    for at in 0..8 {
        if is_handler(at) {
            script.line(1 + at, 1);
        }
        steps!(script: "{open} ISR");
    }
    steps!(script: "30+ {open} CISR");
    for at in (0..8).rev() {
        script.steps(CLOSE);
        if at == 7 {
            script.line(30, 0);
        }
        if is_handler(at) {
            script.line(1 + at, 0);
        }
    }
    script.steps(CLOSE);
}

/// Two marks, opened and closed.
const TWO_MARKS: &str = "IVR ISR IVR ISR EOICR=0 ISR EOICR=0 ISR";

/// Each thing that keeps a source from being a candidate, alone, with the mask or without: marks open all the same,
/// first with nothing below them and then on a handler. Source 0 is fast, 6 forced, 7 disabled, 8 of an equal priority
/// and 9 of a lower one.
fn each_hindrance(debug: u32) -> Script {
    let mut script = opening(&format!("DCR={debug}"));
    script.steps("3:R3 0:H7 6:H7 7:H7 8:H3 9:H2 FFER=40 DISABLE=80");
    script.steps(TWO_MARKS);
    for number in [0, 6, 7] {
        steps!(script: "{number}+ {TWO_MARKS} {number}-");
    }
    steps!(script: "SET=8 IVR {TWO_MARKS}");
    for number in [0, 6, 7, 8, 9] {
        steps!(script: "{number}+ {TWO_MARKS} {number}-");
    }
    script.steps(CLOSE);
    script
}

/// Every priority above a mark of every level and above one of none; what may not start there opens one more mark.
fn above_a_mark() -> Script {
    let mut script = opening("");
    let levels = (0..8).map(Some);
    for below in [None].into_iter().chain(levels) {
        for priority in 0..8 {
            if let Some(level) = below {
                steps!(script: "2:H{level} 2+ IVR 2-");
            }
            steps!(script: "IVR 9:H{priority} 9+ CISR IVR ISR 9-");
            steps!(script: "{CLOSE} {CLOSE} {CLOSE}");
        }
    }
    script
}

/// Eight marks on nothing and priority 7 waiting: no vector read of either side and no mask does anything, until one
/// of them is closed.
fn eight_marks() -> Script {
    let mut script = opening("30:H7");
    script.steps(&"IVR ISR ".repeat(9));
    script.steps("30+");
    for debug in [0, 2, 0] {
        steps!(script: "DCR={debug} CISR IVR FVR IVR=0");
    }
    steps!(script: "{CLOSE} CISR IVR ISR IVR 30-");
    for _ in 0..9 {
        script.steps(CLOSE);
    }
    script
}

/// A mark keeps its level, whatever becomes of the mode of the source below, or of source 0, whose number ISR answers.
fn modes_below() -> Script {
    let mut script = opening("4:R5 SET=10 IVR IVR");
    for (below, zero, priority) in [(1, 0, 3), (7, 7, 5), (7, 7, 6), (0, 7, 7)] {
        steps!(script: "4:R{below} 0:H{zero} 6:H{priority}");
        steps!(script: "6+ CISR IVR ISR 6- {CLOSE}");
    }
    script
}
