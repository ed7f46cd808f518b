//! Traces whose figures are compared, made from a seed: sweeps, those of the listings' comparison, then tours in which
//! sources wait, other tours of an AIC, cut and damaged ones, and a share of all that is listed.

mod sweeps;
pub(crate) mod waits;

pub use self::sweeps::steps_of_kind;

use std::time::Duration;

use super::coverage::Coverage;
use super::history::History;
use super::text::{source_lines, trace_line};
use super::{ending, Ending, Figures};
use crate::batch::{figures_from_bytes, Request};
use crate::compare::{Outcome, Subject};
use crate::generate::damage::damaged;
use crate::generate::{in_any_form, random_case, tour_of, Case, Script};
use crate::model::Kind;
use crate::numbered::{Made, Numbered};
use crate::random::Random;
use crate::trace::{play, PROGRAM_LIMIT};

/// A trace whose figures are compared. There is always room for all of them.
#[derive(Clone, Debug)]
pub struct Counted {
    pub case: Case,
}

/// The name that the trace has in the text that is compared.
const NAME: &[u8] = b"it";

/// The figures of one trace as the report of it alone has them.
pub fn told(figures: &Figures, ending: Ending) -> Vec<u8> {
    let trace = trace_line(figures, ending, NAME);
    [trace, source_lines(&figures.sources)].concat()
}

impl Subject for Counted {
    type Coverage = Coverage;

    fn name(&self) -> &'static str {
        self.case.name
    }

    fn input(&self) -> &[u8] {
        &self.case.trace
    }

    fn by_model(&self, coverage: &mut Coverage) -> Vec<u8> {
        let mut history = History::default();
        let report = play(&self.case.trace, self.case.limit, &mut history);
        coverage.see(&history, &report, self.case.limit);
        told(&history.figures(), ending(&report))
    }

    fn request(&self) -> Request {
        Request::figures(&self.case)
    }

    fn heard(&self, reply: Vec<u8>) -> Outcome {
        match figures_from_bytes(&reply) {
            Some((figures, ending)) => Ok(told(&figures, ending)),
            None => Err(format!("{} bytes are no figures", reply.len())),
        }
    }

    #[cfg(feature = "exports")]
    fn by_library(&self) -> Outcome {
        crate::exports::figures(&self.case)
    }

    fn for_program(self) -> Counted {
        let case = self.case.for_program();
        Counted { case }
    }

    fn smaller(&self, time: Duration, mut differs: impl FnMut(&Counted) -> bool) -> Counted {
        let case = self
            .case
            .smaller(time, |case| differs(&Counted { case: case.clone() }));
        Counted { case }
    }
}

/// Everything that can be made from one seed.
pub type Generator = Numbered<Counted>;

impl Counted {
    fn new(case: Case) -> Counted {
        let room = None;
        Counted {
            case: Case { room, ..case },
        }
    }
}

impl Made for Counted {
    fn sweeps() -> Vec<Counted> {
        let cases = sweeps::all().into_iter().chain(Case::sweeps());
        cases.map(Counted::new).collect()
    }

    fn random(random: &mut Random) -> Counted {
        Counted::new(random_trace(random))
    }
}

/// What a random trace is like, and how often it comes.
const STYLES: [(u32, &str); 3] = [(12, "waits"), (4, "tour"), (4, "any")];

fn random_trace(random: &mut Random) -> Case {
    let steps = match random.below(10) {
        0..=2 => random.within(3, 20),
        3..=7 => random.within(20, 80),
        _ => random.within(80, 300),
    };
    let name = random.weighted(&STYLES);
    let script = match name {
        "any" => return random_case(random),
        "waits" => waits::tour(random, steps),
        _ => tour_of(random, Kind::Aic, steps),
    };
    let script = in_any_form(random, script);
    let (name, trace) = match random.below(8) {
        0 => ("cut", cut(random, script)),
        1 => ("damaged", damaged(random, script)),
        _ => (name, script.bytes),
    };
    let limit = limit(random, &trace);
    Case::new(name, trace, limit)
}

/// The trace up to any byte.
fn cut(random: &mut Random, mut script: Script) -> Vec<u8> {
    let length = random.below(script.bytes.len() as u32 + 1);
    script.bytes.truncate(length as usize);
    script.bytes
}

/// Mostly one that is not reached; else just the steps that there are, one more or fewer, or any below.
fn limit(random: &mut Random, trace: &[u8]) -> u32 {
    let there = || play(trace, PROGRAM_LIMIT, &mut ()).steps;
    match random.below(16) {
        0 => there(),
        1 => there().saturating_sub(1),
        2 => there() + 1,
        3 => random.below(there() + 1),
        4 => u32::MAX,
        _ => PROGRAM_LIMIT,
    }
}

#[cfg(test)]
mod tests {
    use super::*;
    use crate::numbered::tests::depends_on_seed_and_number_alone;

    #[test]
    fn a_trace_depends_on_seed_and_number_alone() {
        depends_on_seed_and_number_alone(|counted: Counted| counted.case.trace);
    }
}
