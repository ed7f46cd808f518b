//! Traces and windows whose explanations are compared: the sweeps of the listings, sweeps of what only explanations tell,
//! then random ones.

use super::Asked;
use crate::generate::aic::{DCR, ENABLE, EOICR, IVR, RISING_EDGE, SET};
use crate::generate::{random_case, Case, Script};
use crate::model::Kind;
use crate::numbered::Made;
use crate::patterns;
use crate::random::Random;
use crate::trace::{pieces, PROGRAM_LIMIT};
use crate::typed::{encode, STEPS};

impl Made for Asked {
    fn sweeps() -> Vec<Asked> {
        let of_listings = Case::sweeps().into_iter();
        let mut sweeps: Vec<Asked> = of_listings
            .map(|case| Asked { case, window: None })
            .collect();
        let own = [
            starts_and_remembers(),
            accesses_by_privilege(),
            hosts(Kind::Cic),
            hosts(Kind::Indexed),
        ];
        let own = own.into_iter().map(|script| script.bytes).chain(typed());
        sweeps.extend(own.map(|trace| of(trace, None)));
        sweeps.extend(windows());
        sweeps
    }

    /// Any trace of the listings, and of some a part.
    fn random(random: &mut Random) -> Asked {
        let case = random_case(random);
        let steps = pieces(&case.trace).len() as u32;
        let window = random.one_in(5).then(|| {
            let first = random.below(steps + 2);
            (first, random.within(1, 40))
        });
        Asked { case, window }
    }
}

fn of(trace: Vec<u8>, window: Option<(u32, u32)>) -> Asked {
    let case = Case {
        name: "sweep",
        trace,
        limit: PROGRAM_LIMIT,
        room: None,
    };
    Asked { case, window }
}

/// The typed traces: of each block the steps behind each of its controllers.
fn typed() -> Vec<Vec<u8>> {
    let mut traces = Vec::new();
    for lines in patterns::blocks(include_str!("sweeps.txt")) {
        let is_step = |line: &String| STEPS.iter().any(|(name, ..)| line.starts_with(name));
        let (steps, controllers): (Vec<String>, Vec<String>) = lines.into_iter().partition(is_step);
        for controller in controllers {
            let text = format!("{controller}\n{}", steps.join("\n"));
            traces.push(encode(text.as_bytes()).expect("it is of the form"));
        }
    }
    traces
}

/// Each source started at each level, outside protect mode and by a handshake in it; marks too.
fn starts_and_remembers() -> Script {
    let mut script = Script::new(0, &[0, 0]);
    script.write(ENABLE, u32::MAX);
    for protect in [0, 1] {
        script.write(DCR, protect);
        for source in 1..32 {
            for level in 0..8 {
                script.write(4 * source, RISING_EDGE | level);
                script.write(SET, 1 << source);
                script.read(IVR);
                script.write(IVR, 0);
                script.write(EOICR, 0);
            }
        }
        script.write(EOICR, 0);
        script.read(IVR);
        script.write(IVR, 0);
        script.write(EOICR, 0);
    }
    script
}

/// Each access of each register of an AINTC by each privilege, with protection.
fn accesses_by_privilege() -> Script {
    let mut script = Script::new(3, &[]);
    script.write(0x04C, 1);
    for offset in (0..0x300).step_by(4) {
        for privilege in [0, 1, 2, u32::MAX] {
            script.read_by(privilege, offset);
        }
        for privilege in [0, 2] {
            script.write_by(privilege, offset, 0);
        }
    }
    script
}

/// Hosts asserted and ended: one, two, several, all, and some in the place of others.
fn hosts(kind: Kind) -> Script {
    let mut script = match kind {
        Kind::Indexed => Script::new(4, &[1_024, 256, 256, 0, 1]),
        _ => Script::new(2, &[1_024, 256, 256, 0]),
    };
    for map in 0..64 {
        let bytes = [0, 1, 2, 3].map(|byte| (4 * map + byte) as u8);
        script.write(0x400 + 4 * map, u32::from_le_bytes(bytes));
        script.write(0x800 + 4 * map, u32::from_le_bytes(bytes));
    }
    for word in 0..8 {
        script.write(0x300 + 4 * word, u32::MAX);
        script.write(0x200 + 4 * word, u32::MAX);
        script.write(0x1500 + 4 * word, u32::MAX);
    }
    for enable in [1, 0, 1] {
        script.write(0x010, enable);
    }
    for host in [0, 31, 32, 255] {
        script.write(0x024, host);
        script.write(0x020, host);
    }
    for word in [0, 1, 3, 7, 0x70, 0xFFFF_FFF0, 0x8000_0001, 0] {
        script.write(0x1500, word);
    }
    script.write(0x1500, 1);
    script.write(0x800, 0x0302_0004);
    script.write(0x800, 0x0302_0100);
    script
}

/// The first step, and how many.
const WINDOWS: [(u32, u32); 8] = [
    (1, 5),
    (1, 1),
    (2, 3),
    (5, 1),
    (5, 2),
    (6, 1),
    (0, 2),
    (1, u32::MAX),
];

/// Parts of a trace of five steps and a bad end: at its ends, in the middle, beyond, and of no trace.
fn windows() -> Vec<Asked> {
    let mut script = Script::new(0, &[0, 0]);
    for source in 0..5 {
        script.line(source, 1);
    }
    script.number(9);
    let traces = [script.bytes, vec![], vec![9]];
    let windows = traces
        .iter()
        .flat_map(|trace| WINDOWS.map(|window| of(trace.clone(), Some(window))));
    windows.collect()
}
