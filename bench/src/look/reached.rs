//! What the compared waves and windows have reached, found in what the model says of them; a listed item that was not
//! reached is a gap.

use std::collections::{BTreeMap, BTreeSet};

use super::Window;
use crate::model::{Kind, Machine};
use crate::patterns::items;
use crate::picture::{nesting, Bar, Nesting, MOST_STEPS};
use crate::trace::{play, PROGRAM_LIMIT};
use crate::waves::signals::{signals, NO_LEVEL};
use crate::waves::Waves;

/// Items in plain words, and how often each was reached.
#[derive(Clone, Debug, Default, PartialEq, Eq)]
pub struct Reached {
    counts: BTreeMap<String, u64>,
}

impl Reached {
    fn see(&mut self, item: impl Into<String>) {
        *self.counts.entry(item.into()).or_default() += 1;
    }

    pub fn add(&mut self, other: &Reached) {
        for (item, count) in &other.counts {
            *self.counts.entry(item.clone()).or_default() += count;
        }
    }

    /// The listed items that were not reached.
    pub fn gaps(&self, listed: &[String]) -> Vec<String> {
        let missing = |item: &&String| !self.counts.contains_key(*item);
        listed.iter().filter(missing).cloned().collect()
    }

    /// What is reached by the size of a dump and of a picture.
    pub fn see_dump(&mut self, bytes: usize) {
        self.see_all(&[(bytes > 1_600_000, "a dump of more than 1,600,000 bytes")]);
    }

    pub fn see_size(&mut self, bytes: usize) {
        self.see_all(&[(bytes > 100_000, "a picture of more than 100,000 bytes")]);
    }

    /// What the waves of a trace reach: which signals change, and how the trace ends.
    pub fn see_waves(&mut self, waves: &Waves) {
        if let Some((refusal, _)) = waves.ending {
            let told = waves.kind.map_or("no controller", Kind::told);
            self.see(format!("{told}: ends by {refusal}"));
        }
        let Some(kind) = waves.kind else {
            return;
        };
        let mut changed = BTreeSet::new();
        let mut idle = false;
        for pair in waves.ticks.windows(2) {
            let changes = (0..pair[0].len()).filter(|&nth| pair[0][nth] != pair[1][nth]);
            idle |= changes.clone().count() == 0;
            changed.extend(changes);
        }
        for nth in changed {
            self.see(format!(
                "{}: {} changes",
                kind.told(),
                signals(kind)[nth].name
            ));
        }
        let items = [
            (idle, "a tick at which nothing changes"),
            (waves.ticks.len() == 1, "a start and no step"),
            (waves.ticks.len() > 20_000, "20,000 steps"),
        ];
        self.see_all(&items);
        if kind == Kind::Aic {
            self.see_last_entry(waves);
        }
    }

    /// The last entry of an AIC: the columns are those behind the three of the step.
    fn see_last_entry(&mut self, waves: &Waves) {
        let any = |holds: fn([u32; 3]) -> bool| {
            let mut ticks = waves.ticks.iter();
            ticks.any(|tick| holds([tick[5], tick[6], tick[7]]))
        };
        let bare = any(|[entries, source, level]| entries > 0 && source == 0 && level == NO_LEVEL);
        let level = any(|[entries, source, level]| entries > 0 && source == 0 && level < 8);
        let mark = any(|[entries, source, _]| entries == 8 && source == 0);
        let handler = any(|[entries, source, _]| entries == 8 && source > 0);
        self.see_all(&[
            (bare, "a mark with no level last"),
            (level, "a mark with a level last"),
            (mark, "eight entries, a mark last"),
            (handler, "eight entries, a handler last"),
        ]);
    }

    fn see_all(&mut self, items: &[(bool, &str)]) {
        let holding = items.iter().filter(|(holds, _)| *holds);
        holding.for_each(|&(_, item)| self.see(item));
    }

    /// What a window reaches that there is a picture of.
    pub fn see_picture(&mut self, window: &Window, nesting: &Nesting) {
        let columns = &nesting.columns;
        for number in columns.iter().filter_map(|column| column.refused) {
            self.see(format!("a step refused by {number}"));
        }
        self.see_bars(nesting);
        let wanted: usize = window.steps.parse().unwrap_or(0);
        let before = open_before(window, nesting.first);
        let behind = open_in(nesting, 1);
        let items = [
            (before > 0, "entries open before the window"),
            (before > behind, "an entry closed by the first step"),
            (before < behind, "an entry opened by the first step"),
            (columns.iter().any(|column| column.irq), "IRQ active"),
            (columns.iter().any(|column| column.fiq), "FIQ active"),
            (columns.len() == 1, "one column"),
            (columns.len() == MOST_STEPS as usize, "500 columns"),
            (
                columns.len() < wanted,
                "a trace that ends before the window",
            ),
            (nesting.first > 1_000, "a first step above 1,000"),
        ];
        self.see_all(&items);
    }

    /// What the bars of a window reach.
    fn see_bars(&mut self, nesting: &Nesting) {
        let (bars, columns) = (&nesting.bars, nesting.columns.len());
        let any = |holds: &dyn Fn(&Bar) -> bool| bars.iter().any(holds);
        let whole = |bar: &Bar| bar.from == 1 && bar.to == columns + 1;
        let places: BTreeSet<usize> = bars.iter().map(|bar| bar.place).collect();
        let eight = (1..=columns).any(|nth| open_in(nesting, nth) == 8);
        let items = [
            (any(&|bar| bar.entry.is_mark()), "a bar of a mark"),
            (any(&|bar| !bar.entry.is_mark()), "a bar of a handler"),
            (any(&|bar| bar.to == bar.from + 1), "a bar of one column"),
            (any(&|bar| bar.from == columns), "a bar opened at the end"),
            (columns > 1 && any(&whole), "a bar as long as the window"),
            (any(&|bar| bar.to <= columns), "a bar closed in the window"),
            (places.len() < bars.len(), "two bars of one place"),
            (places.is_empty(), "no bar"),
            (eight, "eight bars over one another"),
        ];
        self.see_all(&items);
    }

    /// Why there is no picture of a window.
    pub fn see_none(&mut self, window: &Window) {
        let report = play(&window.trace, PROGRAM_LIMIT, &mut ());
        let (first, steps) = (window.first.parse::<u32>(), window.steps.parse::<u32>());
        self.see(match (report.machine, first, steps) {
            (_, Err(_), _) => "no picture: the first step is no number",
            (_, _, Err(_)) => "no picture: the steps are no number",
            (_, Ok(0), _) => "no picture: a first step 0",
            (_, _, Ok(0)) => "no picture: no steps",
            (_, _, Ok(steps)) if steps > MOST_STEPS => "no picture: more than 500 steps",
            (None, ..) => "no picture: nothing started",
            (Some(Machine::Aic(_)), ..) => "no picture: a first step beyond the trace",
            _ => "no picture: another controller",
        });
    }
}

/// How many bars a column has.
fn open_in(nesting: &Nesting, nth: usize) -> usize {
    let open = |bar: &&Bar| bar.from <= nth && nth < bar.to;
    nesting.bars.iter().filter(open).count()
}

/// How many entries are open before a step.
fn open_before(window: &Window, first: u32) -> usize {
    let before = nesting(&window.trace, PROGRAM_LIMIT, first - 1, 1);
    before.map_or(0, |nesting| nesting.bars.len())
}

/// All that waves should have reached.
pub fn listed_of_waves() -> Vec<String> {
    items(include_str!("waves.txt"))
}

/// All that pictures should have reached.
pub fn listed_of_pictures() -> Vec<String> {
    items(include_str!("pictures.txt"))
}
