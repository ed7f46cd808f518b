//! How far an index read looks (02, 10/12), asked for after a trace: the question, its answer by the model, and what
//! counts what the questions reach.

pub mod coverage;
pub mod generate;

use std::time::Duration;

use self::coverage::Coverage;
use crate::batch::Request;
use crate::compare::{shrink, Subject};
use crate::model::Machine;
use crate::trace::{play, Report};

/// One thing to compare: a trace, the step limit, and the offset that would be read after it.
#[derive(Clone, Debug, PartialEq, Eq)]
pub struct Question {
    pub name: &'static str,
    pub trace: Vec<u8>,
    pub limit: u32,
    pub offset: u32,
}

/// The status words that a read of an offset looks at after so many steps of a trace; of any controller but a CIC with
/// prioritised indices, and where none was started, it is 0.
pub fn looked(trace: &[u8], limit: u32, offset: u32) -> u32 {
    after(&play(trace, limit, &mut ()), offset)
}

fn after(report: &Report, offset: u32) -> u32 {
    match &report.machine {
        Some(Machine::Indexed(indexed)) => indexed.looked(offset),
        _ => 0,
    }
}

/// A count with what it counts.
pub fn told(words: u32) -> Vec<u8> {
    format!("{words} words\n").into_bytes()
}

impl Subject for Question {
    type Coverage = Coverage;

    fn name(&self) -> &'static str {
        self.name
    }

    fn input(&self) -> &[u8] {
        &self.trace
    }

    fn by_model(&self, coverage: &mut Coverage) -> Vec<u8> {
        let report = play(&self.trace, self.limit, &mut ());
        coverage.see(self, &report);
        told(after(&report, self.offset))
    }

    fn request(&self) -> Request {
        Request::looked(self)
    }

    #[cfg(feature = "exports")]
    fn by_library(&self) -> crate::compare::Outcome {
        crate::exports::looked(self)
    }

    fn for_program(self) -> Question {
        self
    }

    fn smaller(&self, time: Duration, differs: impl FnMut(&Question) -> bool) -> Question {
        let with = |trace| Question {
            trace,
            ..self.clone()
        };
        shrink(self, with, time, differs)
    }
}
