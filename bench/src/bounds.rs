//! What the waits of an AIC's sources are bounded by, and whether a trace keeps a typed table.
//!
//! A trace is played to its end first, with every record kept whole. Only then is anything looked for: a wait is an
//! interval of the records, as in a report, and each term of its bound is counted over that interval, rival by rival.

pub mod kept;
pub mod text;
pub mod waits;

use crate::model::aic::Aic;
use crate::model::{Answer, Machine, Recorded};
use crate::report::history::History;
use crate::trace::{play, Observer};

/// A trace that was played: what a report keeps of it, and the AIC at reset and after each step. A trace of another kind
/// has no AIC.
#[derive(Clone, Debug, Default, PartialEq, Eq)]
pub struct Records {
    pub history: History,
    pub aics: Vec<Aic>,
}

impl Records {
    /// Those of a trace that is played up to a number of steps.
    pub fn of(trace: &[u8], limit: u32) -> Records {
        let mut records = Records::default();
        play(trace, limit, &mut records);
        records
    }

    fn keep(&mut self, machine: &Machine) {
        if let Machine::Aic(aic) = machine {
            self.aics.push(Aic::clone(aic));
        }
    }
}

impl Observer for Records {
    fn started(&mut self, machine: &Machine) {
        self.history.started(machine);
        self.keep(machine);
    }

    fn after(&mut self, machine: &Machine, number: u32, recorded: Recorded, answer: Answer) {
        self.history.after(machine, number, recorded, answer);
        self.keep(machine);
    }
}
