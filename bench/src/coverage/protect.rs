//! What is to be reached of the AIC's protect mode (02, 9/12): what a read of IVR remembers, what comes between it and
//! the write, and what the write then opens.

use super::aic::{marks, top};
use super::{offset, Coverage, Entered, Item, Seen, Since};
use crate::facts;
use crate::model::aic::{Aic, Register, Selection, Source, ENTRIES, SOURCES};
use crate::model::Step;
use crate::tally::each;

const LEVELS: u8 = 8;

/// Where a selection has got to.
#[derive(Clone, Copy, PartialEq, Eq)]
enum Place {
    Remembered,
    /// The mode was left, and with it the selection.
    Left,
    /// The mode was entered again after that.
    Reentered,
}

/// A read of IVR in protect mode, and what came behind it.
pub struct Looked {
    selection: Selection,
    /// Whether the source was edge-triggered then.
    edge: bool,
    /// The level of the last entry then.
    last: Option<u8>,
    place: Place,
    since: Vec<Since>,
    /// What the read took the place of.
    replaced: Option<Seen>,
}

impl Seen {
    fn of(selection: Selection) -> Seen {
        match selection {
            Selection::Source { .. } => Seen::Source,
            Selection::Nobody => Seen::Nobody,
        }
    }
}

/// The two bits of DCR.
fn debug(aic: &Aic) -> u8 {
    u8::from(aic.masked()) << 1 | u8::from(aic.protected())
}

/// The number of a selected source.
fn number(selection: Selection) -> Option<usize> {
    match selection {
        Selection::Source { number, .. } => Some(usize::from(number)),
        Selection::Nobody => None,
    }
}

/// The sources whose bits are in a word: of a selected source that one alone, else all.
fn named(selection: Selection, word: u32) -> impl Iterator<Item = usize> {
    let concerns = move |n: &usize| number(selection).is_none_or(|selected| selected == *n);
    (0..SOURCES)
        .filter(move |&n| word >> n & 1 == 1)
        .filter(concerns)
}

/// Whether another candidate is ahead of what was selected, as it was then; where nobody was, any candidate is.
fn overtaken(aic: &Aic, selection: Selection) -> bool {
    let Selection::Source { number, level, .. } = selection else {
        return aic.best().is_some();
    };
    let number = usize::from(number);
    let priority = |n: usize| aic.sources()[n].priority;
    let ahead = |n: usize| priority(n) > level || priority(n) == level && n < number;
    (1..SOURCES).any(|n| n != number && aic.candidate(n) && ahead(n))
}

facts! { FACTS;
    fn debug_written(after: &Aic, value: u32) {
        "DCR written with protect mode and bits that are dropped"
            if after.protected() && value & !3 != 0;
    }

    fn look(before: &Aic) {
        let best = number(before.selection());
        let edge = best.map(|best| before.sources()[best].edge_triggered());
        let priority = |n: usize| before.sources()[n].priority;
        let ties = |best: usize, n: usize| {
            n != best && before.candidate(n) && priority(n) == priority(best)
        };
        let other = before.remembered().and_then(number);
        "a look while masked" if before.masked();
        "a look with eight entries open" if before.is_full();
        "a look at an edge source" if edge == Some(true);
        "a look at a level source" if edge == Some(false);
        "a look breaks a tie by the number"
            if best.is_some_and(|best| (1..SOURCES).any(|n| ties(best, n)));
        "a second look at another source" if best.is_some() && other.is_some() && other != best;
    }

    fn outside(waiting: bool) {
        "IVR written outside the mode while a candidate waits" if waiting;
        "IVR written outside the mode with no candidate" if !waiting;
    }

    fn nothing_remembered(waiting: bool) {
        "IVR written with nothing remembered while a candidate waits" if waiting;
        "IVR written with nothing remembered and no candidate" if !waiting;
    }

    fn source_written(before: &Aic, now: &Source, looked: &Looked) {
        let (edge, memory) = (now.edge_triggered(), now.memory);
        let lower = top(before).0.is_some() && before.last_level() != looked.last;
        "IVR write spends an edge" if edge && memory;
        "IVR write starts an edge source that is idle" if edge && !memory;
        "IVR write starts a level source" if !edge && now.pending();
        "IVR write starts a level source that is idle" if !edge && !now.pending();
        "IVR write spends an edge of a source that went by level at the read"
            if memory && !looked.edge;
        "IVR write starts a level source that went by edge at the read" if !edge && looked.edge;
        "IVR write spends an edge of a source that is forced now" if memory && now.forced;
        "IVR write spends an edge of a source that is disabled now" if memory && !now.enabled;
        "IVR write starts while masked" if before.masked();
        "IVR write starts over a lower entry than at the read" if lower;
    }

    fn nobody_written(before: &Aic, looked: &Looked) {
        let (last, level) = (top(before).0, before.last_level());
        let (opens, over_a_mark) = (!before.is_full(), last == Some(Entered::Mark));
        "IVR write opens no mark with eight entries" if !opens;
        "IVR write opens a mark with nothing open" if opens && last.is_none();
        "IVR write opens a mark on a handler" if opens && last == Some(Entered::Handler);
        "IVR write opens a mark on a mark with a level" if opens && over_a_mark && level.is_some();
        "IVR write opens a mark on a mark without a level"
            if opens && over_a_mark && level.is_none();
        "IVR write opens a mark while masked" if opens && before.masked();
        "IVR write opens a mark at another level than that of the read"
            if opens && level != looked.last;
    }
}

impl Coverage {
    /// Counts what an accepted step on the AIC shows of protect mode.
    pub(super) fn aic_protect(&mut self, before: &Aic, after: &Aic, step: Step) {
        let register = offset(step).and_then(Register::at);
        match (step, register) {
            (Step::Read { .. }, Some(Register::Ivr)) if before.protected() => self.look(before),
            (Step::Read { .. }, Some(Register::Ivr)) => self.looked = None,
            (Step::Read { .. }, Some(Register::Dcr)) => self.reach(Item::Debug(debug(after))),
            (Step::Write { .. }, Some(Register::Ivr)) => self.ivr_written(before, after),
            (Step::Write { value, .. }, Some(Register::Dcr)) => {
                self.reach(Item::DebugTurns(debug(before), debug(after)));
                self.facts(debug_written(after, value));
                self.debug_since(before, after);
            }
            _ => self.since(before, after, step, register),
        }
    }

    /// A read of IVR in the mode.
    fn look(&mut self, before: &Aic) {
        let selection = before.selection();
        let seen = Seen::of(selection);
        let replaced = before.remembered().map(Seen::of);
        self.reach(Item::Look(seen, top(before).0));
        self.facts(look(before));
        self.looked = Some(Looked {
            selection,
            edge: number(selection).is_some_and(|n| before.sources()[n].edge_triggered()),
            last: before.last_level(),
            place: Place::Remembered,
            since: replaced.map(|_| Since::ReadAgain).into_iter().collect(),
            replaced,
        });
    }

    /// What a write of DCR does to a selection.
    fn debug_since(&mut self, before: &Aic, after: &Aic) {
        let Some(looked) = &mut self.looked else {
            return;
        };
        match (looked.place, after.protected()) {
            (Place::Remembered, true) if before.masked() != after.masked() => {
                looked.since.push(Since::Masked);
            }
            (Place::Remembered, true) => looked.since.push(Since::Stayed),
            (_, false) => looked.place = Place::Left,
            (_, true) => looked.place = Place::Reentered,
        }
    }

    /// What any other step does to a selection.
    fn since(&mut self, before: &Aic, after: &Aic, step: Step, register: Option<Register>) {
        let Some(looked) = &mut self.looked else {
            return;
        };
        let selection = looked.selection;
        let any = |word: u32, of: &dyn Fn(usize) -> bool| named(selection, word).any(of);
        let (were, are) = (before.sources(), after.sources());
        let now = match (step, register) {
            (Step::Line { line, .. }, _) => {
                let gone = |n: usize| were[n].pending() && !are[n].pending();
                any(1 << line, &gone).then_some(Since::Gone)
            }
            (Step::Read { .. }, Some(Register::Fvr)) => Some(Since::Fast),
            (Step::Write { value, .. }, Some(register)) => match register {
                Register::Clear => any(value, &|n| were[n].memory).then_some(Since::Cleared),
                Register::Set => any(value, &|n| are[n].memory).then_some(Since::Set),
                Register::Disable => any(value, &|n| were[n].enabled).then_some(Since::Disabled),
                Register::Ffer => any(value & !1, &|_| true).then_some(Since::Forced),
                Register::Vector(n) => any(1 << n, &|_| true).then_some(Since::Vector),
                Register::Spu => Some(Since::Spurious),
                Register::Eoicr => (!before.entries().is_empty()).then_some(Since::Closed),
                Register::Mode(n) => {
                    let word = 1 << n;
                    if any(word, &|n| were[n].kind != are[n].kind) {
                        looked.since.push(Since::Retyped);
                    }
                    let reordered = any(word, &|n| were[n].priority != are[n].priority);
                    reordered.then_some(Since::Reordered)
                }
                _ => None,
            },
            _ => None,
        };
        looked.since.extend(now);
    }

    /// A write of IVR, in the mode or outside it.
    fn ivr_written(&mut self, before: &Aic, after: &Aic) {
        let waiting = before.best().is_some();
        let seen = |looked: &Looked| Seen::of(looked.selection);
        if !before.protected() {
            self.facts(outside(waiting));
            if let Some(seen) = self.looked.as_ref().map(seen) {
                self.reach(Item::WrittenAfter(seen, Since::Left));
            }
            return;
        }
        let looked = self.looked.take();
        let Some(selection) = before.remembered() else {
            self.facts(nothing_remembered(waiting));
            if let Some(looked) = looked.filter(|looked| looked.place == Place::Reentered) {
                self.reach(Item::WrittenAfter(seen(&looked), Since::Reentered));
            }
            return;
        };
        let looked = looked.expect("what is remembered was looked at");
        self.written_after(before, &looked);
        match selection {
            Selection::Source { number, level, .. } => {
                let now = &before.sources()[usize::from(number)];
                self.reach(Item::LevelThen(level, now.priority));
                self.facts(source_written(before, now, &looked));
            }
            Selection::Nobody => self.facts(nobody_written(before, &looked)),
        }
        if after.entries().len() > before.entries().len() {
            let entries = after.entries();
            self.reach(Item::Handshakes(entries.len(), marks(entries)));
        }
    }

    /// What came between the read and the write, and how things stand at the write.
    fn written_after(&mut self, before: &Aic, looked: &Looked) {
        let seen = Seen::of(looked.selection);
        let mut since = looked.since.clone();
        if overtaken(before, looked.selection) {
            since.push(Since::Overtaken);
        }
        match before.entries().len() {
            ENTRIES => since.push(Since::Full),
            open if open + 1 == ENTRIES => since.push(Since::LastRoom),
            _ => {}
        }
        if since.is_empty() {
            since.push(Since::Nothing);
        }
        since.sort();
        since.dedup();
        for since in since {
            self.reach(Item::WrittenAfter(seen, since));
        }
        if let Some(replaced) = looked.replaced {
            self.reach(Item::Replaced(replaced, seen));
        }
    }
}

pub(super) fn wanted() -> Vec<Item> {
    let mut items: Vec<Item> = (0..4).map(Item::Debug).collect();
    for was in 0..4 {
        items.extend((0..4).map(|is| Item::DebugTurns(was, is)));
    }
    items.extend(Seen::ALL.map(|seen| Item::Look(seen, None)));
    items.extend(each(|(seen, top)| Item::Look(seen, Some(top))));
    items.extend(each(|(seen, then)| Item::Replaced(seen, then)));
    // With eight open no source is selected, and nothing but the write opens an entry meanwhile.
    let cannot_be = Item::WrittenAfter(Seen::Source, Since::Full);
    let written = each(|(seen, since)| Item::WrittenAfter(seen, since));
    items.extend(written.filter(|&item| item != cannot_be));
    for level in 0..LEVELS {
        items.extend((0..LEVELS).map(|now| Item::LevelThen(level, now)));
    }
    for entries in 1..=ENTRIES {
        let mixes = 0..=u8::MAX >> (ENTRIES - entries);
        items.extend(mixes.map(|marks| Item::Handshakes(entries, marks)));
    }
    items.extend(FACTS.iter().copied().map(Item::Fact));
    items
}
