//! Steps as text, in which sweeps are written. A word is a register that is read (`IVR`), a register and what is
//! written there (`SET=200`), or a line that goes up or down (`9+`, `9-`); on the AIC also the type and priority of a
//! source, with a vector that tells it apart (`9:R4`). Values are hexadecimal, and so is an offset without a name
//! (`@14C`); the numbers of lines, sources and registers of an array (`VECTOR9`) are decimal.

use std::collections::HashMap;
use std::sync::LazyLock;

use super::Script;
use crate::model::Step;

/// The registers of each kind, by its number, with their offsets; of an array with the distance from one to the next.
/// Of CoreInterrupt they are of the FIQ group (0) and the IRQ group (1); of a CIC those with an I in front take the
/// number of a system or of a host; of the AINTC there are two sides, IRQ (0) and FIQ (1), four banks, and inputs.
const REGISTERS: [&str; 5] = [
    "MODE 000+4, VECTOR 080+4, IVR 100, FVR 104, ISR 108, IPR 10C, CISR 114, ENABLE 120, \
    DISABLE 124, CLEAR 128, SET 12C, EOICR 130, SPU 134, DCR 138, FFER 140, FFDR 144, FFSR 148",
    "SOFT 00+18, SOFT_CLEAR 04+18, ENABLE 08+18, ENABLE_CLEAR 0C+18, RAW 10+18, STATUS 14+18",
    CIC,
    "SYSCONFIG 010, SIR 040+4, CONTROL 048, PROTECTION 04C, PRIORITY 060+4, THRESHOLD 068, \
    ITR 080+20, MIR 084+20, MIR_CLEAR 088+20, MIR_SET 08C+20, ISR_SET 090+20, ISR_CLEAR 094+20, \
    PENDING_IRQ 098+20, PENDING_FIQ 09C+20, ILR 100+4",
    CIC,
];
const CIC: &str = "CONTROL 004, GLOBAL 010, ISET 020, ICLEAR 024, IENABLE 028, IDISABLE 02C, \
    IHOST_ON 034, IHOST_OFF 038, INDEX 080, SET 200+4, CLEAR 280+4, ENABLE 300+4, DISABLE 380+4, \
    CHANNELS 400+4, HOSTS 800+4, HOST_INDEX 900+4, HOST_ENABLE 1500+4";

/// The same, to look a name up.
static NAMES: LazyLock<[HashMap<&str, (u32, u32)>; 5]> = LazyLock::new(|| {
    let named = |register: &'static str| {
        let (name, place) = register.trim().split_once(' ').expect("an offset");
        let (first, apart) = place.split_once('+').unwrap_or((place, "0"));
        (name, (hexadecimal(first), hexadecimal(apart)))
    };
    REGISTERS.map(|registers| registers.split(',').map(named).collect())
});

/// A decimal number of a text that is written here.
pub fn decimal(word: &str) -> u32 {
    word.parse()
        .unwrap_or_else(|_| panic!("{word:?} is no number"))
}

pub fn hexadecimal(word: &str) -> u32 {
    u32::from_str_radix(word, 16).unwrap_or_else(|_| panic!("{word:?} is no value"))
}

/// Writes steps down, given as by `format!`.
macro_rules! steps {
    ($($script:ident).+: $($text:tt)*) => { $($script).+.steps(&format!($($text)*)) };
}
pub(crate) use steps;

/// The steps of a text on a controller of a kind.
pub(super) fn parsed(kind: u32, text: &str) -> Vec<Step> {
    text.split_whitespace()
        .flat_map(|word| step(kind, word))
        .collect()
}

fn step(kind: u32, word: &str) -> Vec<Step> {
    let write = |offset, value| Step::Write { offset, value };
    if let Some(line) = word.strip_suffix(['+', '-']) {
        let (line, level) = (decimal(line), u32::from(word.ends_with('+')));
        vec![Step::Line { line, level }]
    } else if let Some((source, mode)) = word.split_once(':') {
        let (source, (of, priority)) = (decimal(source), mode.split_at(1));
        let of = "LFHR".find(of).expect("a type") as u32;
        let mode = write(4 * source, of << 5 | decimal(priority));
        vec![mode, write(0x80 + 4 * source, 0xB000 + source)]
    } else if let Some((name, value)) = word.split_once('=') {
        vec![write(register(kind, name), hexadecimal(value))]
    } else {
        let offset = register(kind, word);
        vec![Step::Read { offset }]
    }
}

fn register(kind: u32, word: &str) -> u32 {
    if let Some(offset) = word.strip_prefix('@') {
        return hexadecimal(offset);
    }
    let name = word.trim_end_matches(|digit: char| digit.is_ascii_digit());
    let names = NAMES.get(kind as usize);
    let found = names.and_then(|names| names.get(name));
    let &(first, apart) = found.unwrap_or_else(|| panic!("{word:?} is no register"));
    match &word[name.len()..] {
        "" => first,
        number => first + apart * decimal(number),
    }
}

impl Script {
    /// A trace of a kind and its configuration with these steps.
    pub(crate) fn with(kind: u32, configuration: &[u32], text: &str) -> Script {
        let mut script = Script::new(kind, configuration);
        script.steps(text);
        script
    }

    /// Writes the steps of a text down.
    pub(crate) fn steps(&mut self, text: &str) {
        for step in parsed(self.kind, text) {
            self.put(step);
        }
    }
}
