//! What a picture has to show: the outputs and refusals of the steps of a window, and a bar for each entry that is
//! open in it.

use crate::model::aic::Entry;
use crate::model::{Answer, Machine, Recorded};
use crate::trace::{play, Observer};

use super::MOST_STEPS;

/// What a column shows of its step.
#[derive(Clone, Copy, Debug, PartialEq, Eq)]
pub struct Column {
    pub irq: bool,
    pub fiq: bool,
    /// The number of the refusal, where the step was refused.
    pub refused: Option<u32>,
}

/// An open entry. It goes from the one column up to the other, which is no longer its own.
#[derive(Clone, Copy, Debug, PartialEq, Eq)]
pub struct Bar {
    /// 0 is the lowest entry.
    pub place: usize,
    pub from: usize,
    pub to: usize,
    pub entry: Entry,
}

/// A window of a trace.
#[derive(Clone, Debug, PartialEq, Eq)]
pub struct Nesting {
    /// The number of the first step that is shown.
    pub first: u32,
    pub columns: Vec<Column>,
    /// Those open before the window first, by their places, then those opened in it in their order.
    pub bars: Vec<Bar>,
}

/// A played trace of an AIC: what each step left, and when each entry was open.
#[derive(Clone, Debug, Default)]
struct History {
    columns: Vec<Column>,
    entries: Vec<Life>,
    /// The open ones among them, the lowest first.
    open: Vec<usize>,
}

/// An entry from the step that opened it to the one that closed it, if one did.
#[derive(Clone, Copy, Debug)]
struct Life {
    place: usize,
    entry: Entry,
    opened: usize,
    closed: Option<usize>,
}

impl Observer for History {
    fn after(&mut self, machine: &Machine, number: u32, _: Recorded, answer: Answer) {
        let Machine::Aic(aic) = machine else {
            return;
        };
        self.columns.push(Column {
            irq: aic.irq(),
            fiq: aic.fiq(),
            refused: answer.err().map(|refusal| refusal.number()),
        });
        // Entries open and close at the upper end alone (02, 3/12), so that one below the shorter height has stayed.
        let entries = aic.entries();
        while self.open.len() > entries.len() {
            let last = self.open.pop().expect("it is longer");
            self.entries[last].closed = Some(number as usize);
        }
        for (place, &entry) in entries.iter().enumerate().skip(self.open.len()) {
            self.open.push(self.entries.len());
            self.entries.push(Life {
                place,
                entry,
                opened: number as usize,
                closed: None,
            });
        }
    }
}

impl Life {
    /// Its bar in a window of so many columns, if it has one: it was opened in the window, or before it and was open
    /// after the first step.
    fn bar(&self, first: usize, columns: usize) -> Option<Bar> {
        let end = columns + 1;
        let column = |step: usize| step + 1 - first;
        let to = match self.closed {
            Some(step) if step <= first => return None,
            Some(step) => end.min(column(step)),
            None => end,
        };
        let from = match self.opened {
            step if step < first => 1,
            step => column(step),
        };
        (from < end).then_some(Bar {
            place: self.place,
            from,
            to,
            entry: self.entry,
        })
    }
}

/// What the picture of so many steps from the first one on has to show. There is none of another controller, of a first
/// step that was not played, and of no steps or too many.
pub fn nesting(trace: &[u8], limit: u32, first: u32, steps: u32) -> Option<Nesting> {
    let mut history = History::default();
    play(trace, limit, &mut history);
    let played = history.columns.len();
    let begin = first as usize;
    if !(1..=MOST_STEPS).contains(&steps) || !(1..=played).contains(&begin) {
        return None;
    }
    let end = played.min(begin - 1 + steps as usize);
    let columns = history.columns[begin - 1..end].to_vec();
    let bars = history.entries.iter();
    let mut bars: Vec<Bar> = bars
        .filter_map(|entry| entry.bar(begin, columns.len()))
        .collect();
    // By the step that opens each they are in order already; of those from before the place decides.
    bars.sort_by_key(|bar| bar.from);
    Some(Nesting {
        first,
        columns,
        bars,
    })
}
