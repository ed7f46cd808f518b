//! What a sheet keeps of all traces: sums, largest numbers, and how many are left out.

use super::noted::Noted;
use crate::bounds::kept::Unkept;
use crate::bounds::waits::Summary;
use crate::model::aic::SOURCES;
use crate::report::totals::Totals;

/// Why a trace is left out.
#[derive(Clone, Copy, Debug, PartialEq, Eq)]
pub enum LeftOut {
    /// By 16: a sum would pass 4,294,967,295.
    Full,
    /// By 17: it cannot be opened or read.
    Unopened,
    /// By 18: it does not keep the table.
    Unkept(Unkept),
}

#[derive(Clone, Debug, Default, PartialEq, Eq)]
pub struct Sheet {
    /// Names read, and those that are left out, by 16, 17 and 18.
    pub named: u32,
    pub full: u32,
    pub unopened: u32,
    pub unkept: u32,
    pub steps: u32,
    pub refused: u32,
    pub marks: u32,
    pub idle: u32,
    pub left: u32,
    pub used: u32,
    pub totals: Totals,
    pub waits: [Summary; SOURCES],
    /// For each source the number of the name whose trace has the first wait that lost its bound.
    pub trace: [u32; SOURCES],
}

impl Sheet {
    /// Puts the next name's trace, if it could be read. One that is left out moves nothing but two counters, which stay
    /// at their largest once they are there.
    pub fn put(&mut self, noted: Option<&Noted>) -> Result<(), LeftOut> {
        self.named = self.named.saturating_add(1);
        let outcome = match noted.map(|noted| (noted.strays, self.with(noted))) {
            None => Err(LeftOut::Unopened),
            Some((Some(unkept), _)) => Err(LeftOut::Unkept(unkept)),
            Some((None, None)) => Err(LeftOut::Full),
            Some((None, Some(next))) => {
                *self = next;
                return Ok(());
            }
        };
        let counter = match outcome {
            Err(LeftOut::Full) => &mut self.full,
            Err(LeftOut::Unkept(_)) => &mut self.unkept,
            _ => &mut self.unopened,
        };
        *counter = counter.saturating_add(1);
        outcome
    }

    /// The sheet with a trace more, unless a sum passes 32 bits.
    fn with(&self, noted: &Noted) -> Option<Sheet> {
        let mut next = self.clone();
        next.totals.add(&noted.figures).ok()?;
        next.used |= noted.used;
        let of_trace = [
            (&mut next.steps, noted.figures.steps),
            (&mut next.refused, noted.figures.refused),
            (&mut next.marks, noted.marks),
            (&mut next.idle, noted.idle),
            (&mut next.left, noted.left),
        ];
        for (sum, more) in of_trace {
            *sum = sum.checked_add(more)?;
        }
        for (source, more) in noted.waits.iter().enumerate() {
            let all = &mut next.waits[source];
            all.waits = all.waits.checked_add(more.waits)?;
            all.unended = all.unended.checked_add(more.unended)?;
            all.unbounded = all.unbounded.checked_add(more.unbounded)?;
            if more.most.map(|terms| terms.sum()) > all.most.map(|terms| terms.sum()) {
                all.most = more.most;
            }
            if all.first_unbounded.is_none() && more.first_unbounded.is_some() {
                all.first_unbounded = more.first_unbounded;
                next.trace[source] = self.named;
            }
        }
        Some(next)
    }
}
