//! Traces that are the same for every seed: each source kept waiting, at each depth, each sort of ending, and figures
//! that need more than a byte.

use crate::generate::steps::steps;
use crate::generate::{Case, Script};
use crate::trace::{LONGEST, PROGRAM_LIMIT};

/// All of them.
pub fn all() -> Vec<Case> {
    let mut cases = Vec::new();
    for source in 1..32 {
        let towers = (1..=8).map(|entries| tower(source, entries));
        cases.extend(towers.map(|script| case(script.bytes, PROGRAM_LIMIT)));
        cases.push(case(kept_waiting(source, source % 13).bytes, PROGRAM_LIMIT));
    }
    cases.extend(endings());
    cases.extend(large());
    cases
}

fn case(trace: Vec<u8>, limit: u32) -> Case {
    Case::new("sweep", trace, limit)
}

/// An AIC with internal sources and low lines.
fn plain() -> Script {
    Script::new(0, &[0, 0])
}

/// So many handlers one above the other, of the source and those that follow it.
fn tower(first: u32, entries: u32) -> Script {
    let mut script = plain();
    for level in 0..entries {
        let source = (first - 1 + level) % 31 + 1;
        let (mode, bit) = (0x60 | level, 1_u32 << source);
        steps!(script: "MODE{source}={mode:x} ENABLE={bit:x} {source}+ IVR");
    }
    script
}

/// A source that waits while another one is started and closed so often; then it is started itself.
fn kept_waiting(source: u32, times: u32) -> Script {
    let other = source % 31 + 1;
    let (bit, both) = (1_u32 << other, 1 << source | 1 << other);
    let again = format!("SET={bit:x} IVR EOICR=0");
    let mut script = plain();
    steps!(script: "MODE{source}=40 MODE{other}=67 ENABLE={both:x} {source}+");
    for _ in 0..times {
        script.steps(&again);
    }
    steps!(script: "IVR {again}");
    script
}

/// The beginning of a trace of each kind.
const OPENINGS: [(u32, &[u32]); 5] = [
    (0, &[0, 0]),
    (1, &[8, 32, 0, 1]),
    (2, &[33, 4, 4, 0]),
    (3, &[]),
    (4, &[33, 4, 4, 0, 1]),
];

/// A trace of a kind with steps of which some are refused or none.
pub fn steps_of_kind(kind: usize, refused: bool) -> Script {
    let (number, configuration) = OPENINGS[kind];
    let steps = match refused {
        true => "1+ @0 2000+ @1 1-",
        false => "1+ @0 1-",
    };
    Script::with(number, configuration, steps)
}

/// Each kind with and without refused steps, whole, cut, with an unknown step, at its limit and without steps; and what
/// has no controller at all.
fn endings() -> Vec<Case> {
    let mut cases = Vec::new();
    for kind in 0..OPENINGS.len() {
        for refused in [false, true] {
            let whole = steps_of_kind(kind, refused).bytes;
            let steps = if refused { 5 } else { 3 };
            let cut = whole[..whole.len() - 1].to_vec();
            let unknown = [whole.as_slice(), &[9]].concat();
            cases.extend((0..=steps + 1).map(|limit| case(whole.clone(), limit)));
            cases.push(case(whole, u32::MAX));
            cases.extend([cut, unknown].map(|trace| case(trace, PROGRAM_LIMIT)));
        }
        let (number, configuration) = OPENINGS[kind];
        let opening = Script::new(number, configuration).bytes;
        let unknown = [opening.as_slice(), &[9]].concat();
        cases.extend([opening, unknown].map(|trace| case(trace, PROGRAM_LIMIT)));
    }
    let none: [Vec<u8>; 6] = [
        vec![],
        vec![0x80],
        vec![5],
        vec![0, 0],
        vec![1, 9, 0, 0, 0],
        vec![0; LONGEST + 1],
    ];
    cases.extend(none.map(|trace| case(trace, PROGRAM_LIMIT)));
    cases
}

/// Many handlers while a source waits, outside protect mode and in it; many refused steps; and more steps than the
/// program plays.
fn large() -> Vec<Case> {
    let mut cases = Vec::new();
    for times in [300, 6_000] {
        cases.push(case(kept_waiting(9, times).bytes, PROGRAM_LIMIT));
    }
    for kind in [2, 3] {
        let mut script = plain();
        steps!(script: "MODE3={:x} MODE2=41 ENABLE=C DCR=1 3+ 2+", kind << 5);
        script.steps(&"IVR IVR=0 EOICR=0 ".repeat(4_500));
        script.steps("FFER=4 IVR IVR=0");
        cases.push(case(script.bytes, PROGRAM_LIMIT));
    }
    let refused = [&[0, 0, 0], [1, 1].repeat(30_000).as_slice()].concat();
    for limit in [PROGRAM_LIMIT, 30_000, u32::MAX] {
        cases.push(case(refused.clone(), limit));
    }
    cases
}
