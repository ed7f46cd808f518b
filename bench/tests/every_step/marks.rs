//! The spurious marks of the AIC (02, 3/12): entries are starts less closes, and sound.

use bench::generate::aic::{EOICR, IVR};
use bench::model::aic::{Aic, Entry, ENTRIES, SOURCES};
use bench::model::Step;

use super::{aic_of, each_step, sweeps};

/// Looks at every step of a trace.
#[derive(Default)]
struct Watch {
    starts: usize,
    closes: usize,
    marks: usize,
    handlers: usize,
}

impl Watch {
    /// Only a read of IVR outside protect mode, or a write in it of what was remembered, opens an entry, and only a
    /// write of EOICR closes one, while there is room and something open.
    fn counts(&mut self, before: &Aic, after: &Aic, step: Step) {
        let (were, are) = (before.entries(), after.entries());
        match step {
            Step::Read { offset: IVR } if !before.protected() && were.len() < ENTRIES => {
                self.starts += 1;
                assert_eq!(are.split_last().map(|(_, below)| below), Some(were));
                self.opened(before, are[were.len()]);
            }
            Step::Write { offset: IVR, .. }
                if before.remembered().is_some() && were.len() < ENTRIES =>
            {
                self.starts += 1;
                assert_eq!(are.split_last().map(|(_, below)| below), Some(were));
            }
            Step::Write { offset: EOICR, .. } if !were.is_empty() => {
                self.closes += 1;
                assert_eq!(were.split_last().map(|(_, below)| below), Some(are));
            }
            _ => assert_eq!(were, are),
        }
        assert_eq!(self.starts - self.closes, are.len());
    }

    /// A handler is ahead of every other source that waits; a mark opens only where none is a candidate.
    fn opened(&mut self, before: &Aic, entry: Entry) {
        let priority = |n: usize| before.sources()[n].priority;
        let mut waiting = (1..SOURCES).filter(|&n| before.normal_request(n));
        let Some(source) = entry.source.map(usize::from) else {
            self.marks += 1;
            let level = before.entries().last().and_then(|entry| entry.level);
            assert_eq!(entry.level, level);
            assert!(waiting.all(|n| level.is_some_and(|level| priority(n) <= level)));
            return;
        };
        self.handlers += 1;
        let ahead = |n: usize| {
            priority(source) > priority(n) || priority(source) == priority(n) && source < n
        };
        assert!(waiting.all(|n| n == source || ahead(n)));
    }
}

/// The rule of a sound record, in the model's own form.
pub fn is_sound(entries: &[Entry]) {
    assert!(entries.len() <= ENTRIES);
    let mut below = None;
    for entry in entries {
        match (entry.source, entry.level) {
            (None, level) => assert_eq!(level, below),
            (Some(source), Some(level)) => {
                assert!((1..=31).contains(&source) && level <= 7);
                assert!(below.is_none_or(|below| level > below));
            }
            (Some(_), None) => panic!("a handler without a level"),
        }
        below = entry.level;
    }
    let levels = entries.iter().filter(|entry| !entry.is_mark());
    let levels: Vec<_> = levels.map(|entry| entry.level).collect();
    assert!(levels.windows(2).all(|pair| pair[0] < pair[1]));
}

#[test]
fn entries_are_starts_less_closes_and_sound_after_every_step() {
    let mut watch = Watch::default();
    each_step((12, 0..sweeps() + 2_000, 4_000), aic_of, |turn| {
        if turn.number == 1 {
            (watch.starts, watch.closes) = (0, 0);
        }
        watch.counts(turn.before, turn.after, turn.step);
        is_sound(turn.after.entries());
    });
    let (marks, handlers) = (watch.marks, watch.handlers);
    assert!(marks > 1_000, "{marks} marks");
    assert!(handlers > 1_000, "{handlers} handlers");
}
