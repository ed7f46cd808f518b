//! A year's traces in one report (02, 11/12): for each source of the AIC what it did and how long it waited, over all
//! traces, and for each trace the steps played and refused.
//!
//! A trace is played to its end first. Only then is anything counted, over the whole history: a wait is an interval of
//! it, found by looking for where a source began to ask and where that ended.

pub mod coverage;
pub mod folder;
pub mod generate;
pub mod history;
pub mod names;
pub mod text;
pub mod totals;

use self::history::History;
use crate::model::aic::SOURCES;
use crate::trace::{play, Report};

/// What is counted of one trace.
#[derive(Clone, Debug, PartialEq, Eq)]
pub struct Figures {
    /// Steps played, refused ones among them.
    pub steps: u32,
    /// Steps refused.
    pub refused: u32,
    pub sources: [Counts; SOURCES],
}

/// What is counted of one source.
#[derive(Clone, Copy, Debug, Default, PartialEq, Eq)]
pub struct Counts {
    /// Handlers of it that were started.
    pub started: u32,
    /// The most handlers of other sources that were started in one wait of it.
    pub waited: u32,
    /// The most entries, handlers and marks, that were open while a handler of it was among them.
    pub entries: u32,
}

/// How a trace ended: by 0, at its length, or by a refusal's number and at an offset.
pub type Ending = (u32, usize);

/// The figures of a trace that is played up to a number of steps, and how it ended.
pub fn figures(trace: &[u8], limit: u32) -> (Figures, Ending) {
    let mut history = History::default();
    let report = play(trace, limit, &mut history);
    (history.figures(), ending(&report))
}

/// How a play ended.
pub fn ending(report: &Report) -> Ending {
    match report.ending {
        Ok(length) => (0, length),
        Err(fault) => (fault.refusal.number(), fault.offset),
    }
}
