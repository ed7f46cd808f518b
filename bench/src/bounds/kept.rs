//! Whether a trace keeps a typed table: each source that is enabled has the table's numbers.

use super::Records;
use crate::model::aic::{Aic, SOURCES};
use crate::stack::Table;

/// Where a trace does not keep a table any more.
#[derive(Clone, Copy, Debug, PartialEq, Eq)]
pub struct Unkept {
    /// The step after which it does not, counted from 1; 0 is the start.
    pub step: u32,
    /// Of several sources the lowest.
    pub source: usize,
}

/// Whether a source is off, or has the table's priority, type and, but for source 0, forcing.
pub fn source_keeps(table: &Table, aic: &Aic, source: usize) -> bool {
    let (now, row) = (&aic.sources()[source], &table.rows[source]);
    let forced = table.forced >> source & 1 == 1;
    let mode = u32::from(now.priority) == row.priority && u32::from(now.kind) == row.kind;
    !now.enabled || mode && (source == 0 || now.forced == forced)
}

/// The lowest source by which a record does not keep a table.
pub fn culprit(table: &Table, aic: &Aic) -> Option<usize> {
    (0..SOURCES).find(|&source| !source_keeps(table, aic, source))
}

impl Records {
    /// Where the first record is that does not keep a table; of another kind than an AIC there is none.
    pub fn unkept(&self, table: &Table) -> Option<Unkept> {
        let culprits = self.aics.iter().map(|aic| culprit(table, aic));
        let mut found = culprits.zip(0..);
        found.find_map(|(source, step)| source.map(|source| Unkept { step, source }))
    }
}
