//! The sweeps of the AIC's protect mode (02, 9/12): each thing that can come between the read of IVR and its write,
//! with a source remembered and with none; every tower of entries opened by handshakes; each level remembered against
//! each priority at the write; every write of DCR. DCR is 1 with protect mode, 2 with the mask and 3 with both.

use super::marks::{opening, towers, CLOSE, HANDSHAKE as OPEN};
use crate::generate::steps::steps;
use crate::generate::Script;

pub fn situations() -> Vec<Script> {
    let mut scripts = vec![
        debug_values(),
        looks(),
        last_room(),
        levels(),
        turns(),
        retyped(),
    ];
    for kind in ["R", "H"] {
        scripts.extend([1, 3].map(|debug| source_then(kind, debug)));
    }
    scripts.extend([1, 3].map(nobody_then));
    scripts.push(both_modes());
    scripts.extend((0..4).map(|first| towers(first, OPEN)));
    scripts
}

/// What all status registers that a start or a close can change say.
const STATUS: &str = "ISR IPR CISR";
const WRITE: &str = "IVR=0 ISR IPR CISR";
/// The read, and behind it the write.
const HANDSHAKE: &str = "IVR IVR=FFFFFFFF";

/// From each value of DCR to each other, with bits that are dropped and without, and what is remembered along the way.
fn debug_values() -> Script {
    let mut script = opening("9:R4");
    for dropped in [0_u32, 0xFFFF_FFFC, 4] {
        for was in 0..4 {
            for is in 0..4 {
                steps!(script: "DCR={was} DCR SET=200 IVR DCR={:x} DCR CISR", is | dropped);
                steps!(script: "{WRITE} DCR=1 {WRITE} DCR=0 {CLOSE}");
            }
        }
    }
    script
}

/// Looks at a source and at none, over nothing, over a handler and over a mark, by edge and by level, masked and not:
/// each several times, and nothing changes.
fn looks() -> Script {
    let look = format!("IVR {STATUS} IVR {STATUS}");
    let mut script = opening("2:R1 8:H4 9:R4 12:H6");
    for debug in [1, 3] {
        steps!(script: "DCR={debug}");
        for below in 0..3 {
            if below > 0 {
                steps!(script: "SET=4 {HANDSHAKE}");
            }
            if below > 1 {
                script.steps(HANDSHAKE);
            }
            script.steps(&look);
            for changed in ["SET=200", "8+", "12+", "12-", "8- CLEAR=200"] {
                steps!(script: "{changed} {look}");
            }
            steps!(script: "{CLOSE} {CLOSE}");
        }
    }
    script
}

/// All that can become of source 9, of what is open and of the mode between the read and the write. Source 5 is of a
/// higher priority, source 3 of the same with a lower number.
const BETWEEN: &str = "
    ; CLEAR=200; CLEAR=200 SET=200; SET=200; DISABLE=200
    ; FFER=200; FFER=200 FVR; FFER=200 FFDR=200; 9-; 9- 9+
    ; VECTOR9=B999; SPU=5151; FVR; SET=20; SET=8; EOICR=0; EOICR=0 EOICR=0
    ; IVR; SET=20 IVR; DISABLE=FFFFFFFF IVR ENABLE=FFFFFFFF
    ; DCR=1 DCR=3 DCR=1; DCR=0; DCR=2; DCR=0 DCR=1; DCR=2 DCR=3";

/// Every source as the cases want it, a handler of source 1 open at level 0 and one of source 2 above it, and DCR as
/// said; then some steps, and what follows them: the write, a second one, a handshake, and all of it outside the mode.
fn case(script: &mut Script, kind: &str, debug: u32, level: u32, between: &str) {
    script.steps("DCR=0 EOICR=0 EOICR=0 EOICR=0 EOICR=0 EOICR=0 EOICR=0 9- SPU=5050");
    steps!(script: "FFDR=FFFFFFFF 1:R0 2:R{level} 3:R4 5:R6 9:{kind}4");
    steps!(script: "CLEAR=FFFFFFFF ENABLE=FFFFFFFF DCR={debug}");
    steps!(script: "SET=2 {HANDSHAKE} SET=4 {HANDSHAKE}");
    script.steps(between);
    steps!(script: "{STATUS} {WRITE} {WRITE} {HANDSHAKE} {STATUS}");
    steps!(script: "DCR=1 {WRITE} DCR=0 {WRITE} {CLOSE} {CLOSE} {CLOSE} {CLOSE}");
}

/// Source 9 is remembered, with handlers of levels 0 and 1 open.
fn source_then(kind: &str, debug: u32) -> Script {
    let mut script = opening("");
    for between in BETWEEN.split(';') {
        case(&mut script, kind, debug, 1, &format!("9+ IVR {between}"));
    }
    script
}

/// None is remembered, with handlers of levels 0 and 4 open, while source 9 of priority 4 has to wait, by edge and by
/// level. Another step than those: source 9 is made a candidate by its mode, or is none any more.
fn nobody_then(debug: u32) -> Script {
    let mut script = opening("");
    for kind in ["R", "H"] {
        for between in BETWEEN
            .split(';')
            .chain(["MODE9=65", "MODE9=45", "MODE9=20"])
        {
            case(&mut script, kind, debug, 4, &format!("9+ IVR {between}"));
        }
    }
    script
}

/// The type of a remembered source changes, from each to each, and then its line moves or it is set.
fn retyped() -> Script {
    let mut script = opening("");
    for was in ["L", "F", "H", "R"] {
        for is in 0..4 {
            for then in ["", "SET=200", "9- 9+", "9-"] {
                let between = format!("9+ SET=200 IVR MODE9={:x} {then}", is << 5 | 4);
                case(&mut script, was, 1, 1, &between);
            }
        }
    }
    script
}

/// Up to eight entries by handshakes: the last one a handler or a mark; over them neither, and what was remembered is
/// forgotten. What is remembered with eight open opens a mark once one of them is closed.
fn last_room() -> Script {
    let mut script = opening("30:R7");
    for last in ["", "SET=40000000"] {
        script.steps("DCR=1");
        for _ in 0..7 {
            script.steps(HANDSHAKE);
        }
        steps!(script: "{last} {HANDSHAKE} {STATUS} SET=40000000 {HANDSHAKE} {WRITE}");
        steps!(script: "{CLOSE} {WRITE} CLEAR=40000000 {HANDSHAKE} IVR");
        steps!(script: "{CLOSE} {WRITE} {WRITE} IVR DCR=0 {WRITE} DCR=1 {WRITE}");
        for _ in 0..9 {
            script.steps(CLOSE);
        }
    }
    script
}

/// Each level at the read against each priority at the write: a source just at the level waits, one just above it does
/// not.
fn levels() -> Script {
    let mut script = opening("DCR=1");
    for level in 0..8 {
        for now in 0..8 {
            steps!(script: "9:R{level} SET=200 IVR 9:R{now} {WRITE}");
            for priority in level..(level + 2).min(8) {
                steps!(script: "4:R{priority} SET=10 CISR CLEAR=10");
            }
            script.steps(CLOSE);
        }
    }
    script
}

/// Of each level two that wait there: a write of IVR takes out one and leaves the other, and then empties the level.
fn turns() -> Script {
    let mut script = opening("DCR=1");
    for level in 0..8 {
        steps!(script: "5:R{level} 6:R{level} SET=60");
        for _ in 0..3 {
            steps!(script: "{HANDSHAKE} {STATUS} {CLOSE}");
        }
    }
    script
}

/// Software that is written for the mode: read, write, end of interrupt, nested; in the mode and outside it.
fn both_modes() -> Script {
    let mut script = opening("4:R2 6:R5 7:R7");
    for debug in [1, 0, 3, 2] {
        steps!(script: "DCR={debug}");
        for word in [0x10, 0x40, 0x80, 0x10] {
            steps!(script: "SET={word:x} {HANDSHAKE} {STATUS}");
        }
        for _ in 0..5 {
            steps!(script: "{CLOSE} {HANDSHAKE} {STATUS} {CLOSE}");
        }
    }
    script
}
