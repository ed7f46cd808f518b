//! The figures of many traces together (02, 11/12).

use super::{Counts, Figures};
use crate::model::aic::SOURCES;
use crate::model::Refusal;

/// For each source the sum of the handlers started, and the largest of the other two figures.
#[derive(Clone, Debug, Default, PartialEq, Eq)]
pub struct Totals {
    pub sources: [Counts; SOURCES],
}

impl Totals {
    /// Puts a trace's figures to them, or leaves all of the trace out, by 16: where a sum of handlers would pass
    /// 4,294,967,295, which is the largest number of 32 bits.
    pub fn add(&mut self, figures: &Figures) -> Result<(), Refusal> {
        let mut sources = self.sources;
        for (total, counts) in sources.iter_mut().zip(&figures.sources) {
            let sum = total.started.checked_add(counts.started);
            *total = Counts {
                started: sum.ok_or(Refusal::BeyondTotal)?,
                waited: total.waited.max(counts.waited),
                entries: total.entries.max(counts.entries),
            };
        }
        self.sources = sources;
        Ok(())
    }
}
