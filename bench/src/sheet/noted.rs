//! What a sheet takes from one trace.

use crate::bounds::kept::Unkept;
use crate::bounds::waits::Summary;
use crate::bounds::Records;
use crate::model::aic::{Register, SOURCES};
use crate::report::{ending, Ending, Figures};
use crate::stack::Table;
use crate::trace::{play, PROGRAM_LIMIT};

/// What is noted of one trace; of one that starts no AIC only its steps and its ending.
#[derive(Clone, Debug, PartialEq, Eq)]
pub struct Noted {
    /// Steps played and refused, and for each source the figures of a report.
    pub figures: Figures,
    /// Spurious marks that were opened.
    pub marks: u32,
    /// Ends of interrupt that found no entry open.
    pub idle: u32,
    /// Entries open after the last step.
    pub left: u32,
    pub ending: Ending,
    /// It starts an AIC.
    pub aic: bool,
    /// A bit for each source that is enabled in some record.
    pub used: u32,
    /// Where the table is not kept first.
    pub strays: Option<Unkept>,
    pub waits: [Summary; SOURCES],
}

impl Noted {
    /// What is noted of a trace for a table, played as the program plays it.
    pub fn of(trace: &[u8], table: &Table) -> Noted {
        let mut records = Records::default();
        let ending = ending(&play(trace, PROGRAM_LIMIT, &mut records));
        let moments = &records.history.moments;
        let steps = 1..moments.len();
        Noted {
            figures: records.history.figures(),
            marks: steps.clone().filter(|&at| records.opens_mark(at)).count() as u32,
            idle: steps.filter(|&at| records.ends_nothing(at)).count() as u32,
            left: moments.last().map_or(0, |last| last.entries().len() as u32),
            ending,
            aic: !moments.is_empty(),
            used: moments.iter().fold(0, |used, moment| used | moment.enabled),
            strays: records.unkept(table),
            waits: std::array::from_fn(|source| records.summary(source)),
        }
    }
}

impl Records {
    /// Whether the step to a record opened a mark: an entry more, of no source.
    fn opens_mark(&self, at: usize) -> bool {
        let (before, now) = (&self.history.moments[at - 1], &self.history.moments[at]);
        now.entries().len() > before.entries().len() && now.started.is_none()
    }

    /// Whether the step to a record was a write of EOICR with no entry open.
    fn ends_nothing(&self, at: usize) -> bool {
        let ends = matches!(self.written(at), Some((Register::Eoicr, _)));
        ends && self.history.moments[at - 1].entries().is_empty()
    }
}
