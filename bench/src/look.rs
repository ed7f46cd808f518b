//! What is compared of waves and pictures: traces and windows made from a seed, and what they reach.

mod heavy;
pub mod reached;

use crate::generate::damage::damaged;
use crate::generate::{in_any_form, random_case, tour_of, Case, Generator as Listed};
use crate::model::Kind;
use crate::picture::MOST_STEPS;
use crate::random::Random;
use crate::trace::{play, PROGRAM_LIMIT};

/// How many traces and windows are compared if nothing else is said.
pub const TRACES: usize = 20_000;
pub const WINDOWS: usize = 2_000;

/// A picture that is asked for: of a trace, from a first step on so many, as words.
#[derive(Clone, Debug, PartialEq, Eq)]
pub struct Window {
    pub trace: Vec<u8>,
    pub first: String,
    pub steps: String,
}

/// Everything that can be made from one seed.
pub struct Generator {
    seed: u64,
    listed: Listed,
    /// The numbers of those sweeps that are of an AIC and play some steps.
    of_aic: Vec<usize>,
    /// Traces of which the dumps are long, and such of which the pictures are large.
    long: Vec<Vec<u8>>,
    large: Vec<Vec<u8>>,
}

impl Generator {
    pub fn new(seed: u64) -> Generator {
        let listed = Listed::new(seed);
        let of_aic = |&number: &usize| {
            let report = play(&listed.case(number).trace, PROGRAM_LIMIT, &mut ());
            let machine = report.machine.map(|machine| machine.kind());
            machine == Some(Kind::Aic) && report.steps > 0
        };
        Generator {
            seed,
            of_aic: (0..listed.sweeps()).filter(of_aic).collect(),
            long: heavy::traces(),
            large: heavy::windows(),
            listed,
        }
    }

    /// The trace of a number: first the sweeps of the listings, then a few that make long dumps, then one of an AIC in
    /// every two, whole or damaged, and else any that is listed. All are played up to the program's limit.
    pub fn trace(&self, number: usize) -> Case {
        let random = &mut Random::for_item(self.seed, number as u64);
        let case = match number.checked_sub(self.listed.sweeps()) {
            None => self.listed.case(number),
            Some(nth) if nth < self.long.len() => whole("long", self.long[nth].clone()),
            Some(_) if random.one_in(2) => of_aic(random, 200),
            Some(_) => random_case(random),
        };
        Case {
            limit: PROGRAM_LIMIT,
            room: None,
            ..case
        }
    }

    /// The window of a number: first a few that make large pictures, then mostly of a tour or a sweep of an AIC, at any
    /// place of it or around its ends, of few steps or many; now and then of any trace, or one of which there is no
    /// picture.
    pub fn window(&self, number: usize) -> Window {
        match self.large.get(number) {
            Some(trace) => heavy::window(trace),
            None => self.random_window(number),
        }
    }

    fn random_window(&self, number: usize) -> Window {
        let random = &mut Random::for_item(self.seed ^ 0x5EED_0F51, number as u64);
        let trace = match random.below(24) {
            0 => random_case(random).trace,
            1..=6 => self.listed.case(random.pick(&self.of_aic)).trace,
            7..=10 => of_aic(random, 1_200).trace,
            _ => of_aic(random, 300).trace,
        };
        let played = play(&trace, PROGRAM_LIMIT, &mut ()).steps;
        let first = random_first(random, played);
        let steps = random_steps(random, (played + 1).saturating_sub(first));
        let (mut first, mut steps) = (first.to_string(), steps.to_string());
        if random.one_in(40) {
            let words: Vec<&str> = NO_NUMBERS.split('|').collect();
            let word = random.pick(&words).to_string();
            match random.one_in(2) {
                true => first = word,
                false => steps = word,
            }
        }
        Window {
            trace,
            first,
            steps,
        }
    }
}

/// A first step in a trace of so many, at an end of it or beyond.
fn random_first(random: &mut Random, played: u32) -> u32 {
    match random.below(60) {
        0 => 0,
        1 => played + 1,
        2 => played + random.within(1, 40),
        3..=6 => played,
        7..=14 => 1,
        _ => random.within(1, played.max(1)),
    }
}

/// A number of steps where so many are left, few or many or more than a window has.
fn random_steps(random: &mut Random, rest: u32) -> u32 {
    match random.below(60) {
        0 => 0,
        1 => MOST_STEPS + 1 + random.below(2) * random.below(1_000),
        2..=7 => MOST_STEPS,
        8..=11 => 1,
        12..=17 => rest.clamp(1, MOST_STEPS),
        18..=37 => random.within(1, 40),
        _ => random.within(1, MOST_STEPS),
    }
}

/// Words that are no numbers, or too large for any.
const NO_NUMBERS: &str =
    "x||-1|1x|1 2|0x10|4294967297|18446744073709551617|99999999999999999999999999999999";

/// A trace of an AIC, of at most about so many steps; one in eight is damaged.
fn of_aic(random: &mut Random, most: u32) -> Case {
    let steps = match random.below(4) {
        0 => random.within(0, 12),
        1 | 2 => random.within(12, 60),
        _ => random.within(60, most),
    };
    let script = tour_of(random, Kind::Aic, steps);
    let script = in_any_form(random, script);
    let trace = match random.one_in(8) {
        true => damaged(random, script),
        false => script.bytes,
    };
    whole("tour of an AIC", trace)
}

fn whole(name: &'static str, trace: Vec<u8>) -> Case {
    Case {
        name,
        trace,
        limit: PROGRAM_LIMIT,
        room: None,
    }
}
