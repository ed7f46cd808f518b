//! Traces made from a seed: sweeps that visit everything once, then tours, damaged ones, noise and long ones.

pub mod aic;
mod aintc;
pub mod cic;
mod core;
pub(crate) mod damage;
pub mod indexed;
mod long;
pub(crate) mod played;
pub(crate) mod steps;
mod sweeps;

use self::played::weights;
use crate::model::{Kind, Step, PRIVILEGED};
use crate::numbered::{Made, Numbered};
use crate::random::Random;
use crate::trace::{decode, encode, NUMBER_BYTES, PROGRAM_LIMIT};

/// One thing to compare: a trace, the step limit, and how much room the listing gets (none said: ample).
#[derive(Clone, Debug)]
pub struct Case {
    pub name: &'static str,
    pub trace: Vec<u8>,
    pub limit: u32,
    pub room: Option<usize>,
}

impl Case {
    /// A case with ample room.
    pub(crate) fn new(name: &'static str, trace: Vec<u8>, limit: u32) -> Case {
        Case {
            name,
            trace,
            limit,
            room: None,
        }
    }

    /// The room that the listing gets. Where none is said it is enough for any: a step has two bytes or more and makes
    /// a line of at most 35 bytes.
    pub fn ample_room(&self) -> usize {
        self.room.unwrap_or(40 + self.trace.len() / 2 * 35)
    }
}

/// Everything that can be made from one seed.
pub type Generator = Numbered<Case>;

impl Made for Case {
    fn sweeps() -> Vec<Case> {
        let case = |script: Script| Case::new("sweep", script.bytes, PROGRAM_LIMIT);
        sweeps::all().into_iter().map(case).collect()
    }

    fn random(random: &mut Random) -> Case {
        random_case(random)
    }
}

/// What a random case is like, and how often it comes.
const STYLES: &str = "1400 tour, 500 damaged, 100 noise, 2 long";

/// A case that depends on nothing but the numbers that are drawn.
pub(crate) fn random_case(random: &mut Random) -> Case {
    let style = random.weighted(&weights(STYLES));
    let trace = match style {
        "noise" => damage::noise(random),
        "long" => long::long(random),
        _ => {
            let script = tour(random);
            let script = in_any_form(random, script);
            match style {
                "tour" => script.bytes,
                _ => damage::damaged(random, script),
            }
        }
    };
    let limit = match (style, random.below(10)) {
        ("long", _) => PROGRAM_LIMIT,
        (_, 0) => random.below(4),
        (_, 1) => random.below(40),
        _ => PROGRAM_LIMIT,
    };
    let room = random.one_in(10).then(|| random.below(2_000) as usize);
    Case {
        room,
        ..Case::new(style, trace, limit)
    }
}

/// How often each kind is toured. Of all that is made the AINTC's share has to be a fifth or more, so that it is in
/// 20,000 of 100,000 traces; a test counts it.
const KINDS: [(u32, Kind); 5] = [
    (12, Kind::Aic),
    (5, Kind::Core),
    (6, Kind::Cic),
    (12, Kind::Aintc),
    (7, Kind::Indexed),
];

/// A sound trace of any kind.
fn tour(random: &mut Random) -> Script {
    let steps = match random.below(20) {
        0 => random.below(3),
        1..=9 => random.within(3, 20),
        10..=17 => random.within(20, 80),
        _ => random.within(80, 300),
    };
    let kind = random.weighted(&KINDS);
    tour_of(random, kind, steps)
}

/// A sound trace of a kind, of about so many steps.
pub(crate) fn tour_of(random: &mut Random, kind: Kind, steps: u32) -> Script {
    match kind {
        Kind::Aic => aic::tour(random, steps),
        Kind::Core => core::tour(random, steps),
        Kind::Cic => cic::tour(random, steps),
        Kind::Aintc => aintc::tour(random, steps),
        Kind::Indexed => indexed::tour(random, steps),
    }
}

/// The same trace with each number in its shortest form, each in five bytes as the recorder of 02, 1/12 writes it, or
/// each in any form.
pub(crate) fn in_any_form(random: &mut Random, script: Script) -> Script {
    match random.below(4) {
        0 => script,
        1 => script.rewritten(|| NUMBER_BYTES),
        _ => script.rewritten(|| width(random)),
    }
}

/// How many bytes a number is to have at least: one, as often as two to five together.
fn width(random: &mut Random) -> usize {
    if random.one_in(2) {
        1
    } else {
        random.within(2, NUMBER_BYTES as u32) as usize
    }
}

/// The number that names the AINTC in a trace (02, 2/12).
const AINTC: u32 = 3;
/// The number that names the CIC with prioritised indices (02, 6/12).
pub(crate) const INDEXED: u32 = 4;

/// A trace as it is written down, with the places where its numbers begin.
#[derive(Clone, Debug, Default)]
pub struct Script {
    pub bytes: Vec<u8>,
    pub numbers: Vec<usize>,
    kind: u32,
}

impl Script {
    /// A trace that begins with a kind and its configuration numbers.
    pub fn new(kind: u32, configuration: &[u32]) -> Script {
        let mut script = Script {
            kind,
            ..Script::default()
        };
        script.number(kind);
        for &number in configuration {
            script.number(number);
        }
        script
    }

    /// Whether a privilege number is written behind each offset.
    fn tells_privilege(&self) -> bool {
        self.kind == AINTC
    }

    /// Writes a number in its shortest form.
    pub fn number(&mut self, value: u32) {
        self.number_in(value, 1);
    }

    /// Writes a number in so many bytes, or in as many as it needs.
    fn number_in(&mut self, value: u32, width: usize) {
        self.numbers.push(self.bytes.len());
        encode(value, width, &mut self.bytes);
    }

    /// The same numbers, each in as many bytes as is said for it, or in as many as it needs.
    fn rewritten(&self, mut width: impl FnMut() -> usize) -> Script {
        let mut script = Script {
            kind: self.kind,
            ..Script::default()
        };
        for nth in 0..self.numbers.len() {
            script.number_in(self.value(nth), width());
        }
        script
    }

    /// The value of the nth number.
    fn value(&self, nth: usize) -> u32 {
        let number = decode(&self.bytes[self.numbers[nth]..]);
        number.expect("a script writes good numbers").0
    }

    pub(crate) fn put(&mut self, step: Step) {
        match step {
            Step::Read { offset } => self.read(offset),
            Step::Write { offset, value } => self.write(offset, value),
            Step::Line { line, level } => self.line(line, level),
        }
    }

    /// A read, privileged where the trace says it.
    pub fn read(&mut self, offset: u32) {
        self.read_by(PRIVILEGED, offset);
    }

    /// A write, privileged where the trace says it.
    pub fn write(&mut self, offset: u32, value: u32) {
        self.write_by(PRIVILEGED, offset, value);
    }

    pub(crate) fn read_by(&mut self, privilege: u32, offset: u32) {
        self.number(1);
        self.offset(offset, privilege);
    }

    pub(crate) fn write_by(&mut self, privilege: u32, offset: u32, value: u32) {
        self.number(2);
        self.offset(offset, privilege);
        self.number(value);
    }

    fn offset(&mut self, offset: u32, privilege: u32) {
        self.number(offset);
        if self.tells_privilege() {
            self.number(privilege);
        }
    }

    pub fn line(&mut self, line: u32, level: u32) {
        self.number(3);
        self.number(line);
        self.number(level);
    }
}

#[cfg(test)]
mod tests {
    use super::*;
    use crate::listing::listing;
    use crate::numbered::tests::depends_on_seed_and_number_alone;
    use crate::trace::play;

    #[test]
    fn a_case_depends_on_seed_and_number_alone() {
        depends_on_seed_and_number_alone(|case: Case| case.trace);
    }

    #[test]
    fn every_kind_has_its_share() {
        let generator = Generator::new(1);
        let (mut started, cases) = ([0; 5], 10_000);
        for number in 0..cases {
            let trace = generator.case(number).trace;
            if let Some(machine) = play(&trace, 0, &mut ()).machine {
                started[machine.kind() as usize] += 1;
            }
        }
        assert!(started[Kind::Aintc as usize] >= cases / 5, "{started:?}");
        assert!(
            started.iter().all(|&share| share >= cases / 10),
            "{started:?}"
        );
    }

    #[test]
    fn other_forms_play_the_same() {
        let random = &mut Random::new(9);
        for _ in 0..50 {
            let script = tour(random);
            let listed = listing(&script.bytes, PROGRAM_LIMIT);
            for width in 1..=NUMBER_BYTES {
                let other = script.rewritten(|| width);
                assert!(other.bytes.len() >= width * script.numbers.len());
                assert!(listing(&other.bytes, PROGRAM_LIMIT) == listed);
            }
            let other = in_any_form(random, script);
            assert!(listing(&other.bytes, PROGRAM_LIMIT) == listed);
        }
    }
}
