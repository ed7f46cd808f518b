//! What is to be reached of the AIC's sources by level (02, 5/12): what fills and empties each, what a mode write
//! moves, and what a vector read finds.

use super::aic::marks;
use super::{Cause, Coverage, Item, Turn};
use crate::facts;
use crate::model::aic::{Aic, Register, ENTRIES, SOURCES};
use crate::model::Step;

const LEVELS: u8 = 8;

/// For each level a word with a bit for each source of that priority that is pending, enabled and not fast.
fn levels(aic: &Aic) -> [u32; LEVELS as usize] {
    let mut levels = [0; LEVELS as usize];
    for n in (0..SOURCES).filter(|&n| aic.normal_request(n)) {
        levels[usize::from(aic.sources()[n].priority)] |= 1 << n;
    }
    levels
}

/// What a step can do to the levels; others do nothing to them.
fn cause(before: &Aic, step: Step) -> Option<Cause> {
    Some(match step {
        Step::Line { .. } => Cause::Line,
        Step::Read { offset } => match Register::at(offset)? {
            Register::Ivr if !before.protected() => Cause::Start,
            _ => return None,
        },
        Step::Write { offset, .. } => match Register::at(offset)? {
            Register::Ivr if before.protected() => Cause::Handshake,
            Register::Mode(_) => Cause::Mode,
            Register::Enable => Cause::Enable,
            Register::Disable => Cause::Disable,
            Register::Set => Cause::Set,
            Register::Clear => Cause::Clear,
            Register::Ffer => Cause::Force,
            Register::Ffdr => Cause::Unforce,
            _ => return None,
        },
    })
}

/// What became of a level, if anything did.
fn turn(was: u32, is: u32) -> Option<Turn> {
    match (was, is) {
        _ if was == is => None,
        (0, _) => Some(Turn::Filled),
        (_, 0) => Some(Turn::Emptied),
        _ if is & !was != 0 => Some(Turn::Joined),
        _ => Some(Turn::Left),
    }
}

/// What a cause can make of a level.
fn turns(cause: Cause) -> &'static [Turn] {
    match cause {
        Cause::Line | Cause::Mode => &[Turn::Filled, Turn::Joined, Turn::Left, Turn::Emptied],
        Cause::Enable | Cause::Set | Cause::Unforce => &[Turn::Filled, Turn::Joined],
        _ => &[Turn::Left, Turn::Emptied],
    }
}

facts! { FACTS;
    /// Levels that fill or empty several at a time, unseen under the mask, or beneath eight entries.
    fn turned(before: &Aic, turns: &[(u8, Turn)]) {
        let count = |wanted| turns.iter().filter(|(_, turn)| *turn == wanted).count();
        let (filled, emptied) = (count(Turn::Filled), count(Turn::Emptied));
        let eight = before.entries().len() == ENTRIES;
        let handlers = eight && marks(before.entries()) == 0;
        let marks = eight && marks(before.entries()) == u8::MAX;
        "one command fills several levels" if filled > 1;
        "one command empties several levels" if emptied > 1;
        "a level fills while masked" if before.masked() && filled > 0;
        "a level empties while masked" if before.masked() && emptied > 0;
        "a level fills over eight handlers" if handlers && filled > 0;
        "a level empties over eight handlers" if handlers && emptied > 0;
        "a level fills over eight marks" if marks && filled > 0;
        "a level empties over eight marks" if marks && emptied > 0;
    }

    fn mode(before: &Aic, after: &Aic, n: usize) {
        let (was, is) = (&before.sources()[n], &after.sources()[n]);
        let (waited, waits) = (before.normal_request(n), after.normal_request(n));
        let reordered = was.priority != is.priority;
        let aside = !waited && !waits && reordered && was.pending() && is.pending();
        "a mode write leaves a waiting source in its level" if waited && waits && !reordered;
        "a mode write takes a waiting source out of all levels" if waited && !waits;
        "a mode write puts a source into a level" if !waited && waits;
        "a mode write on a disabled pending source" if aside && !was.enabled && !before.fast(n);
        "a mode write on a fast pending source" if aside && before.fast(n);
    }
}

impl Coverage {
    /// Counts what a step on the AIC does to its levels, and what a vector read finds in them.
    pub(super) fn aic_levels(&mut self, before: &Aic, after: &Aic, step: Step) {
        let Some(cause) = cause(before, step) else {
            return;
        };
        let (were, are) = (levels(before), levels(after));
        let turns: Vec<(u8, Turn)> = (0..LEVELS)
            .filter_map(|level| {
                let at = usize::from(level);
                Some((level, turn(were[at], are[at])?))
            })
            .collect();
        for &(level, turn) in &turns {
            self.reach(Item::Level(level, turn, cause));
        }
        self.facts(turned(before, &turns));
        match step {
            Step::Write { offset, .. } if cause == Cause::Mode => {
                self.mode_moves(before, after, (offset / 4) as usize);
            }
            Step::Read { .. } => self.found(before, after, were),
            _ => {}
        }
    }

    /// What a mode write does to a source that is pending before or after it.
    fn mode_moves(&mut self, before: &Aic, after: &Aic, n: usize) {
        let (was, is) = (before.sources()[n].priority, after.sources()[n].priority);
        if before.normal_request(n) && after.normal_request(n) && was != is {
            self.reach(Item::Moved(was, is));
        }
        self.facts(mode(before, after, n));
    }

    /// What a vector read finds: the levels that have any, the highest against the last entry, the number it starts.
    fn found(&mut self, before: &Aic, after: &Aic, were: [u32; LEVELS as usize]) {
        let has = |&level: &u8| were[usize::from(level)] != 0;
        let byte = (0..LEVELS)
            .filter(has)
            .fold(0, |byte, level| byte | 1 << level);
        self.reach(Item::Byte(byte));
        if before.is_full() {
            return;
        }
        let highest = (0..LEVELS).rev().find(has);
        self.reach(Item::Against(before.last_level(), highest));
        let started = after.entries().last().and_then(|entry| entry.source);
        if let (Some(source), Some(level)) = (started, highest) {
            let others = were[usize::from(level)] & !(1 << source);
            if others != 0 {
                self.reach(Item::LowerNumber(level, source));
            }
        }
    }
}

pub(super) fn wanted() -> Vec<Item> {
    let mut items = Vec::new();
    for level in 0..LEVELS {
        for cause in Cause::ALL {
            items.extend(
                turns(cause)
                    .iter()
                    .map(|&turn| Item::Level(level, turn, cause)),
            );
        }
        let other = (0..LEVELS).filter(|&other| other != level);
        items.extend(other.map(|other| Item::Moved(level, other)));
        // A source of the highest number has none above it.
        items.extend((1..31).map(|source| Item::LowerNumber(level, source)));
    }
    items.extend((0..=u8::MAX).map(Item::Byte));
    let levels = || [None].into_iter().chain((0..LEVELS).map(Some));
    for last in levels() {
        items.extend(levels().map(|highest| Item::Against(last, highest)));
    }
    items.extend(FACTS.iter().copied().map(Item::Fact));
    items
}
