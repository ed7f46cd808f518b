//! What is to be reached on the AIC: every register in every permitted and refused way, and what its rules tell apart.

use super::{word_offset, Change, Coverage, Entered, Item, Outcome};
use crate::facts;
use crate::model::aic::{Aic, Entry, Register, Source, ENTRIES, SOURCES};
use crate::model::Step;
use crate::tally::each;

/// Whether a normal source of a priority is pending and enabled.
fn requests_at(aic: &Aic, priority: u8) -> bool {
    let at = |n| aic.normal_request(n) && aic.sources()[n].priority == priority;
    (0..SOURCES).any(at)
}

/// Whether a normal request is kept out by the eight entries alone.
fn wants_room(aic: &Aic) -> bool {
    aic.is_full() && (0..SOURCES).any(|n| aic.normal_request(n) && aic.is_above(n))
}

/// A word with a bit for each entry that is a mark.
pub(super) fn marks(entries: &[Entry]) -> u8 {
    let mark = |word, entry: &Entry| word << 1 | u8::from(entry.is_mark());
    entries.iter().rev().fold(0, mark)
}

const HANDLER: Option<Entered> = Some(Entered::Handler);
const MARK: Option<Entered> = Some(Entered::Mark);

/// What the last entry is, and what lies below it.
pub(super) fn top(aic: &Aic) -> (Option<Entered>, Option<Entered>) {
    let mut entries = aic.entries().iter().rev().map(|entry| match entry.source {
        Some(_) => Entered::Handler,
        None => Entered::Mark,
    });
    (entries.next(), entries.next())
}

/// Whether the level of the last entry and the priority that a source has now would not let the same sources in.
fn misleads(aic: &Aic, source: Option<u8>) -> bool {
    let (Some(level), Some(source)) = (aic.last_level(), source) else {
        return false;
    };
    let now = aic.sources()[usize::from(source)].priority;
    let differs = |priority: u8| (priority > level) != (priority > now);
    let matters = |n| aic.normal_request(n) && differs(aic.sources()[n].priority);
    !aic.is_full() && (1..SOURCES).any(matters)
}

/// The sources whose bits are 1 in a word, with their numbers.
fn named(aic: &Aic, word: u32) -> impl Iterator<Item = (usize, &Source)> {
    let sources = aic.sources().iter().enumerate();
    sources.filter(move |(n, _)| word >> n & 1 == 1)
}

facts! { FACTS;
    fn refused_line(line: u32, level: u32) {
        "AIC line 32" if line == 32 && level < 2;
        "AIC level 2" if line < 32 && level == 2;
        "AIC line and level both wrong" if line > 31 && level > 1;
    }

    fn cisr(aic: &Aic) {
        let request = aic.best().is_some() || aic.fast_request();
        "CISR while the mask hides a request" if aic.masked() && request;
        "CISR while eight entries keep one out" if wants_room(aic);
    }

    fn ivr_starts(before: &Aic, best: usize, value: u32) {
        let source = &before.sources()[best];
        let priority = source.priority;
        let of = |n: usize| before.sources()[n].priority;
        let others = || (1..SOURCES).filter(|&n| n != best && before.candidate(n));
        let forced = |n: usize| before.sources()[n].forced && before.sources()[n].requests();
        "IVR answers a vector that is not 0" if value != 0;
        "IVR starts an edge source" if source.edge_triggered();
        "IVR starts a level source" if !source.edge_triggered();
        "IVR starts while masked" if before.masked();
        "IVR breaks a tie by the number" if others().any(|n| of(n) == priority);
        "IVR passes over a lower number of lower priority"
            if others().any(|n| n < best && of(n) < priority);
        "IVR passes over a forced source of higher priority"
            if (0..SOURCES).any(|n| forced(n) && of(n) > priority);
    }

    fn ivr_starts_over_a_mark(level: Option<u8>, priority: u8) {
        "IVR starts over a mark with a level" if level.is_some();
        "IVR starts the next priority over a mark with a level"
            if level.is_some_and(|level| priority == level + 1);
        "IVR starts over a mark without a level" if level.is_none();
        "IVR starts priority 0 over a mark without a level" if level.is_none() && priority == 0;
    }

    fn ivr_spurious(before: &Aic, value: u32) {
        let (last, level) = (top(before).0, before.last_level());
        let equal = level.is_some_and(|level| requests_at(before, level));
        let lower = |level| (0..level).any(|priority| requests_at(before, priority));
        "IVR answers a SPU that is not 0" if value != 0;
        "IVR answers SPU while an equal priority waits for a handler" if equal && last == HANDLER;
        "IVR answers SPU while an equal priority waits for a mark" if equal && last == MARK;
        "IVR answers SPU while a lower priority waits" if level.is_some_and(lower);
        "IVR answers SPU with level 0 open and priority 0 waiting" if equal && level == Some(0);
    }

    fn ivr_opens_nothing(before: &Aic) {
        let (last, marks) = (top(before).0, marks(before.entries()));
        let seven = requests_at(before, 7);
        "IVR opens nothing with eight entries, the last a handler" if last == HANDLER;
        "IVR opens nothing with eight entries, the last a mark" if last == MARK;
        "IVR opens nothing with eight handlers and priority 7 waiting" if seven && marks == 0;
        "IVR opens nothing with eight marks and priority 7 waiting" if seven && marks == u8::MAX;
        "IVR opens nothing while eight entries keep one out" if wants_room(before);
        "IVR opens nothing while masked" if before.masked();
    }

    /// What lies below a mark that opens, from which its level follows; and of what is pending then, each thing alone
    /// that keeps a source from being a candidate.
    fn ivr_opens_a_mark(before: &Aic) {
        let (last, level) = (top(before).0, before.last_level());
        let source = |n: usize| &before.sources()[n];
        let pending = Vec::from_iter((0..SOURCES).filter(|&n| source(n).pending()));
        let nothing_but = |held: &dyn Fn(usize) -> bool| {
            !pending.is_empty() && pending.iter().all(|&n| held(n))
        };
        let at = |n: usize| before.normal_request(n).then_some(source(n).priority);
        "IVR opens a mark with nothing open" if last.is_none();
        "IVR opens a mark on a handler" if last == HANDLER;
        "IVR opens a mark on a mark with a level" if last == MARK && level.is_some();
        "IVR opens a mark on a mark without a level" if last == MARK && level.is_none();
        "IVR opens a mark while masked" if before.masked();
        "IVR opens a mark with nothing pending" if pending.is_empty();
        "IVR opens a mark with nothing but fast sources pending"
            if nothing_but(&|n| before.fast(n) && source(n).enabled);
        "IVR opens a mark with nothing but disabled sources pending"
            if nothing_but(&|n| !before.fast(n) && !source(n).enabled);
        "IVR opens a mark with nothing but equal priorities pending"
            if nothing_but(&|n| at(n).is_some() && at(n) == level);
        "IVR opens a mark with nothing but lower priorities pending"
            if nothing_but(&|n| at(n).is_some() && at(n) < level);
    }

    /// The level of the last entry against the priority that a source has now: that of a handler; for a mark that of
    /// the handler below, or source 0 where ISR's answer is taken for a source.
    fn remembered_level(before: &Aic) {
        let on_a_mark = top(before).0 == MARK;
        let source = before.entries().iter().rev().find_map(|entry| entry.source);
        let open = misleads(before, source);
        "IVR where today's mode of the open source would mislead" if open && !on_a_mark;
        "IVR on a mark where today's mode of the source below would mislead" if open && on_a_mark;
        "IVR on a mark where the mode of source 0 would mislead"
            if on_a_mark && misleads(before, Some(0));
    }

    fn fvr_spurious(before: &Aic, value: u32) {
        let mut forced = before.sources().iter().filter(|source| source.forced);
        "FVR answers SPU" if true;
        "FVR answers a SPU that is not 0" if value != 0;
        "FVR answers SPU while source 0 is disabled" if before.sources()[0].pending();
        "FVR answers SPU while a forced source is disabled" if forced.any(Source::pending);
    }

    fn fvr(before: &Aic, value: u32) {
        let zero = &before.sources()[0];
        let forced = || before.sources().iter().filter(|source| source.forced);
        let requests = forced().any(Source::requests);
        let by_edge = zero.requests() && zero.edge_triggered();
        "FVR answers a vector that is not 0" if value != 0;
        "FVR while masked" if before.masked();
        "FVR clears source 0" if by_edge && !before.some_forced();
        "FVR for source 0 by level" if zero.requests() && !zero.edge_triggered();
        "FVR for a forced source alone" if requests && !zero.requests();
        "FVR for source 0 and a forced one" if requests && by_edge;
        "FVR leaves source 0 while an idle source is forced"
            if by_edge && before.some_forced() && !requests;
        "FVR leaves a forced edge source"
            if forced().any(|source| source.requests() && source.edge_triggered());
    }

    fn ipr(aic: &Aic) {
        "IPR shows a disabled source"
            if aic.sources().iter().any(|source| source.pending() && !source.enabled);
    }

    fn isr(aic: &Aic) {
        let (last, below) = top(aic);
        let number = aic.entries().last().and_then(|entry| entry.source);
        let source = number.map(|number| &aic.sources()[usize::from(number)]);
        "ISR with nothing open" if last.is_none();
        "ISR on a handler" if last == HANDLER && below != MARK;
        "ISR on a handler over a mark" if (last, below) == (HANDLER, MARK);
        "ISR on a mark over a handler" if (last, below) == (MARK, HANDLER);
        "ISR on a mark over a mark" if (last, below) == (MARK, MARK);
        "ISR on a mark alone" if (last, below) == (MARK, None);
        "ISR of a source that is now disabled" if source.is_some_and(|source| !source.enabled);
        "ISR of a source that is now forced" if source.is_some_and(|source| source.forced);
    }

    fn eoicr(before: &Aic, after: &Aic) {
        let (last, below) = top(before);
        let lets_in = !before.irq() && after.irq();
        let equal = before.last_level().is_some_and(|level| requests_at(before, level));
        "EOICR lets a waiting source in" if lets_in;
        "EOICR of the eighth entry, a mark, lets a waiting source in"
            if lets_in && before.is_full() && last == MARK;
        "EOICR closes a mark on a handler while an equal priority waits"
            if equal && (last, below) == (MARK, HANDLER);
        "EOICR closes a mark on a mark while an equal priority waits"
            if equal && (last, below) == (MARK, MARK);
    }

    fn dcr(before: &Aic, after: &Aic, value: u32) {
        "the mask hides IRQ" if after.masked() && before.irq();
        "the mask hides FIQ" if after.masked() && before.fiq();
        "the mask is lifted" if !after.masked() && before.masked();
        "DCR written with bits that are dropped" if value & !3 != 0;
    }

    fn ffdr(before: &Aic, after: &Aic) {
        "FFDR makes a pending source a candidate" if !before.irq() && after.irq();
    }

    fn ffer(before: &Aic, value: u32) {
        let named = |entry: &Entry| entry.source.is_some_and(|n| value >> n & 1 == 1);
        "FFER with bit 0" if value & 1 == 1;
        "FFER on a source whose handler is open" if before.entries().iter().any(named);
    }

    fn mode(before: &Source, after: &Source, value: u32) {
        let (memory, dropped) = (before.memory, value & !0x67 != 0);
        let retyped = before.kind != after.kind;
        let reordered = before.priority != after.priority;
        "mode written with bits that are dropped" if dropped;
        "a new type clears the memory" if memory && retyped;
        "type 1 to 3 clears an internal source's memory"
            if memory && !before.external && before.kind == 1 && after.kind == 3;
        "a new priority keeps the memory" if memory && !retyped && reordered;
        "dropped bits of the mode keep the memory" if memory && !retyped && !reordered && dropped;
        "a new edge type on a high line makes no edge"
            if after.line && retyped && after.edge_triggered();
    }

    fn set(n: usize, source: &Source) {
        let edge = source.edge_triggered();
        "set on an edge source" if edge && !source.memory;
        "set on a disabled edge source" if edge && !source.enabled;
        "set on a forced edge source" if edge && source.forced;
        "set on source 0 by edge" if edge && n == 0;
        "set on an idle level source" if !edge && !source.pending();
    }

    fn clear(source: &Source) {
        "clear on a pending edge source" if source.memory;
        "clear on a forced edge source" if source.memory && source.forced;
        "clear on a pending level source" if !source.edge_triggered() && source.pending();
    }

    fn line(before: &Source, line: u32, level: bool) {
        let active = before.edge_triggered() && level == rising(before);
        let edge = active && before.line != level;
        "AIC line 31" if line == 31;
        "a repeated level is no edge" if active && before.line == level && !before.memory;
        "an edge on a disabled source" if edge && !before.enabled;
        "an edge on a forced source" if edge && before.forced;
        "an edge on source 0" if edge && line == 0;
        "an edge on a source that is pending already" if edge && before.memory;
    }
}

/// Whether the edge of an edge source is a rise.
fn rising(source: &Source) -> bool {
    !(source.external && source.kind == 1)
}

impl Coverage {
    /// Counts what a step on the AIC shows.
    pub(super) fn aic_step(&mut self, change: &Change<Aic>) {
        let (before, aic, step) = (change.before, change.after, change.step);
        if let Some(register) = word_offset(step).and_then(Register::at) {
            self.reach(Item::Aic(register, change.outcome()));
        }
        let Ok(read) = change.answer else {
            if let Step::Line { line, level } = step {
                self.facts(refused_line(line, level));
            }
            return;
        };
        self.aic_levels(before, aic, step);
        self.aic_protect(before, aic, step);
        match step {
            Step::Read { offset } => self.aic_read(before, aic, offset, read),
            Step::Write { offset, value } => self.aic_write(before, aic, offset, value),
            Step::Line { line: n, level } => {
                let (source, level) = (&before.sources()[n as usize], level == 1);
                self.facts(line(source, n, level));
                if source.edge_triggered() && source.line != level {
                    let edge = level == rising(source);
                    self.reach(Item::Edge(source.kind, source.external, edge));
                }
            }
        }
    }

    fn aic_read(&mut self, before: &Aic, after: &Aic, offset: u32, value: u32) {
        match Register::at(offset) {
            Some(Register::Ivr) if !before.protected() => self.ivr(before, after, value),
            Some(Register::Fvr) if before.fast_request() => self.facts(fvr(before, value)),
            Some(Register::Fvr) => self.facts(fvr_spurious(before, value)),
            Some(Register::Ipr) => {
                for source in after.sources() {
                    let pending = source.pending();
                    self.reach(Item::Pending(source.kind, source.external, pending));
                }
                self.facts(ipr(after));
            }
            Some(Register::Isr) => self.facts(isr(after)),
            Some(Register::Cisr) => {
                self.reach(Item::Cisr(value));
                self.facts(cisr(after));
            }
            _ => {}
        }
    }

    fn ivr(&mut self, before: &Aic, after: &Aic, value: u32) {
        self.facts(remembered_level(before));
        match before.best() {
            Some(best) => {
                self.facts(ivr_starts(before, best, value));
                if top(before).0 == MARK {
                    let priority = before.sources()[best].priority;
                    self.facts(ivr_starts_over_a_mark(before.last_level(), priority));
                }
            }
            None => {
                self.facts(ivr_spurious(before, value));
                match before.is_full() {
                    true => self.facts(ivr_opens_nothing(before)),
                    false => self.facts(ivr_opens_a_mark(before)),
                }
            }
        }
        if !before.is_full() {
            let entries = after.entries();
            self.reach(Item::Mix(entries.len(), marks(entries)));
        }
    }

    fn aic_write(&mut self, before: &Aic, after: &Aic, offset: u32, value: u32) {
        match Register::at(offset) {
            Some(Register::Mode(n)) => {
                let source = |aic: &Aic| aic.sources()[usize::from(n)];
                self.facts(mode(&source(before), &source(after), value));
            }
            Some(Register::Eoicr) => {
                self.reach(Item::Closed(before.entries().len(), top(before).0));
                self.facts(eoicr(before, after));
            }
            Some(Register::Dcr) => self.facts(dcr(before, after, value)),
            Some(Register::Ffer) => self.facts(ffer(before, value)),
            Some(Register::Ffdr) => self.facts(ffdr(before, after)),
            Some(Register::Set) => {
                named(before, value).for_each(|(n, source)| self.facts(set(n, source)));
            }
            Some(Register::Clear) => {
                named(before, value).for_each(|(_, source)| self.facts(clear(source)));
            }
            _ => {}
        }
    }
}

pub(super) fn wanted() -> Vec<Item> {
    let mut items = Vec::new();
    for register in (0..0x14C).step_by(4).filter_map(Register::at) {
        let outcomes = Outcome::both(register.access());
        items.extend(outcomes.map(|outcome| Item::Aic(register, outcome)));
    }
    for entries in 1..=ENTRIES {
        let mixes = 0..=u8::MAX >> (ENTRIES - entries);
        items.extend(mixes.map(|marks| Item::Mix(entries, marks)));
        items.extend([HANDLER, MARK].map(|last| Item::Closed(entries, last)));
    }
    items.push(Item::Closed(0, None));
    items.extend((0..=3).map(Item::Cisr));
    for kind in 0..4 {
        items.extend(each(|(external, now)| Item::Pending(kind, external, now)));
    }
    for kind in [1, 3] {
        items.extend(each(|(external, now)| Item::Edge(kind, external, now)));
    }
    items.extend(super::levels::wanted());
    items.extend(super::protect::wanted());
    items.extend(FACTS.iter().copied().map(Item::Fact));
    items
}
