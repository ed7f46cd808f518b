//! All that a report needs of a played trace, kept moment by moment, and what is then found in it.

use super::{Counts, Figures};
use crate::model::aic::{Aic, Selection, ENTRIES, SOURCES};
use crate::model::{Answer, Machine, Recorded, Step};
use crate::trace::Observer;

/// An AIC at reset or after a step.
#[derive(Clone, Copy, Debug, PartialEq, Eq)]
pub struct Moment {
    /// The step that led here, and whether it was refused; at reset there was none.
    pub step: Option<(Step, bool)>,
    /// A bit for each source that is pending, that is enabled, that is fast.
    pub pending: u32,
    pub enabled: u32,
    pub fast: u32,
    /// A bit for each source that is edge-triggered.
    pub edges: u32,
    pub masked: bool,
    pub protected: bool,
    /// The source that is remembered for a write of IVR.
    pub remembered: Option<usize>,
    /// The source of the handler that the step started.
    pub started: Option<usize>,
    /// The source of each open entry, the last one at the end; a mark has none.
    entries: [Option<u8>; ENTRIES],
    count: usize,
}

impl Moment {
    fn new(aic: &Aic, step: Option<(Step, bool)>) -> Moment {
        let mut entries = [None; ENTRIES];
        for (place, entry) in entries.iter_mut().zip(aic.entries()) {
            *place = entry.source;
        }
        Moment {
            step,
            pending: word(|n| aic.sources()[n].pending()),
            enabled: word(|n| aic.sources()[n].enabled),
            fast: word(|n| aic.fast(n)),
            edges: word(|n| aic.sources()[n].edge_triggered()),
            masked: aic.masked(),
            protected: aic.protected(),
            remembered: match aic.remembered() {
                Some(Selection::Source { number, .. }) => Some(usize::from(number)),
                _ => None,
            },
            started: None,
            entries,
            count: aic.entries().len(),
        }
    }

    /// What is open: the source of a handler, none for a mark.
    pub fn entries(&self) -> &[Option<u8>] {
        &self.entries[..self.count]
    }

    /// Whether a handler of the source is open.
    pub fn has_open(&self, source: usize) -> bool {
        self.entries().contains(&Some(source as u8))
    }

    /// The source is pending, enabled and not fast.
    pub fn asks(&self, source: usize) -> bool {
        (self.pending & self.enabled & !self.fast) >> source & 1 == 1
    }
}

fn word(holds: impl Fn(usize) -> bool) -> u32 {
    (0..SOURCES).fold(0, |word, n| word | u32::from(holds(n)) << n)
}

/// A wait of a source, by the numbers of its moments: it goes on from the one to the other, at which it ends or, if it
/// has no end, the trace does.
#[derive(Clone, Copy, Debug, PartialEq, Eq)]
pub struct Wait {
    pub source: usize,
    pub from: usize,
    pub to: usize,
    pub end: End,
}

/// How a wait ends.
#[derive(Clone, Copy, Debug, PartialEq, Eq, PartialOrd, Ord)]
pub enum End {
    /// A handler of the source was started.
    Started,
    /// The source is no longer pending, enabled and not fast.
    Over,
    /// The trace ended first.
    Never,
}

/// A trace that was played, from reset on. Only that of an AIC has moments.
#[derive(Clone, Debug, Default, PartialEq, Eq)]
pub struct History {
    pub steps: u32,
    pub refused: u32,
    pub moments: Vec<Moment>,
}

impl Observer for History {
    fn started(&mut self, machine: &Machine) {
        if let Machine::Aic(aic) = machine {
            self.moments.push(Moment::new(aic, None));
        }
    }

    fn after(&mut self, machine: &Machine, _: u32, recorded: Recorded, answer: Answer) {
        self.steps += 1;
        self.refused += u32::from(answer.is_err());
        let (Machine::Aic(aic), Some(before)) = (machine, self.moments.last()) else {
            return;
        };
        let mut moment = Moment::new(aic, Some((recorded.step, answer.is_err())));
        // A step opens at most one entry, and closes none if it does.
        if moment.count > before.count {
            moment.started = moment.entries[before.count].map(usize::from);
        }
        self.moments.push(moment);
    }
}

impl History {
    /// The waits of a source, in their order. One begins where the source begins to ask, and nowhere else: as long as
    /// it goes on asking after its own start it is served, and does not wait (02, 11/12).
    pub fn waits(&self, source: usize) -> Vec<Wait> {
        let asks = |at: usize| self.moments[at].asks(source);
        let begins = (1..self.moments.len()).filter(|&at| asks(at) && !asks(at - 1));
        begins.map(|from| self.wait(source, from)).collect()
    }

    /// The wait of a source that begins at a moment.
    fn wait(&self, source: usize, from: usize) -> Wait {
        let last = self.moments.len() - 1;
        let starts = |at: &usize| self.moments[*at].started == Some(source);
        let ends = |at: &usize| starts(at) || !self.moments[*at].asks(source);
        let (to, end) = match (from + 1..=last).find(ends) {
            Some(to) if starts(&to) => (to, End::Started),
            Some(to) => (to, End::Over),
            None => (last, End::Never),
        };
        Wait {
            source,
            from,
            to,
            end,
        }
    }

    /// The handlers of other sources that were started in a wait, behind the step that began it.
    pub fn others(&self, wait: &Wait) -> u32 {
        let during = &self.moments[wait.from + 1..=wait.to];
        let other = |moment: &&Moment| moment.started.is_some_and(|source| source != wait.source);
        during.iter().filter(other).count() as u32
    }

    pub fn counts(&self, source: usize) -> Counts {
        let starts = |moment: &&Moment| moment.started == Some(source);
        let opened = self.moments.iter().filter(|moment| moment.has_open(source));
        let waited = self
            .waits(source)
            .iter()
            .map(|wait| self.others(wait))
            .max();
        Counts {
            started: self.moments.iter().filter(starts).count() as u32,
            waited: waited.unwrap_or(0),
            entries: opened.map(|moment| moment.count as u32).max().unwrap_or(0),
        }
    }

    pub fn figures(&self) -> Figures {
        Figures {
            steps: self.steps,
            refused: self.refused,
            sources: std::array::from_fn(|source| self.counts(source)),
        }
    }
}
