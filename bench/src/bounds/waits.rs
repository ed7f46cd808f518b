//! The bound of each wait: how often its rivals may be started in it, by six terms.

use std::cmp::Reverse;

use super::Records;
use crate::model::aic::{Aic, Register, Source, Trigger, SOURCES};
use crate::model::Step;
use crate::report::history::{End, Wait};

/// What a rival may be started for, once each; or, last, the source that is remembered.
#[derive(Clone, Copy, Debug, Default, PartialEq, Eq)]
pub struct Terms {
    /// It is due in the record from which it counts.
    pub pending: u32,
    /// An edge of its line, and a set command, if it is edge-triggered.
    pub edges: u32,
    pub commands: u32,
    /// Its line turns active, if it is level-sensitive.
    pub turns: u32,
    /// A handler of it is closed with its line active, if it is level-sensitive.
    pub closed_active: u32,
    /// Another source than the waiting one is remembered at the outset.
    pub remembered: u32,
}

impl Terms {
    pub fn sum(&self) -> u32 {
        let by_line = self.edges + self.turns + self.closed_active;
        self.pending + self.commands + by_line + self.remembered
    }

    /// All six, in this order.
    pub fn each(&self) -> [u32; 6] {
        [
            self.pending,
            self.edges,
            self.commands,
            self.turns,
            self.closed_active,
            self.remembered,
        ]
    }
}

/// A wait with what bounds it.
#[derive(Clone, Copy, Debug, PartialEq, Eq)]
pub struct Bounded {
    /// The step that began it, counted from 1, and the one that ended it, if the trace did not end first.
    pub began: u32,
    pub ended: Option<u32>,
    /// The handlers of other sources that were started in it.
    pub started: u32,
    pub bound: Bound,
}

#[derive(Clone, Copy, Debug, PartialEq, Eq)]
pub enum Bound {
    /// At most so many handlers, as it is when the wait ends or the trace does.
    Terms(Terms),
    /// There is none: this step was the first in the wait that wrote a mode or a forcing.
    Rewritten(u32),
}

/// What is said of all waits of a source.
#[derive(Clone, Copy, Debug, Default, PartialEq, Eq)]
pub struct Summary {
    pub waits: u32,
    pub unended: u32,
    pub unbounded: u32,
    /// The step that left the first of those without a bound.
    pub first_unbounded: Option<u32>,
    /// The most handlers that were started in one wait, with a bound or not.
    pub seen: u32,
    /// The terms of the largest bound, those of the first wait that has it.
    pub most: Option<Terms>,
}

/// Whether a source is ahead of another: of a higher priority, or of an equal one and a lower number.
pub fn is_ahead(aic: &Aic, source: usize, of: usize) -> bool {
    let place = |n: usize| (Reverse(aic.sources()[n].priority), n);
    place(source) < place(of)
}

/// Whether a handler of a source is open at its priority or above.
fn is_held(aic: &Aic, source: usize) -> bool {
    let priority = Some(aic.sources()[source].priority);
    let mut open = aic.entries().iter();
    open.any(|entry| entry.source == Some(source as u8) && entry.level >= priority)
}

/// Whether a source may be started for what it is in a record: it is pending and, if it is level-sensitive, not held.
pub fn is_due(aic: &Aic, source: usize) -> bool {
    let now = &aic.sources()[source];
    now.pending() && (now.edge_triggered() || !is_held(aic, source))
}

/// Whether a line is at the level that a trigger goes by.
fn is_active(source: &Source, line: bool) -> bool {
    match source.trigger() {
        Trigger::HighLevel | Trigger::RisingEdge => line,
        Trigger::LowLevel | Trigger::FallingEdge => !line,
    }
}

/// The last record of a wait: the step that ends it leads out of it.
pub fn last(wait: &Wait) -> usize {
    match wait.end {
        End::Never => wait.to,
        End::Started | End::Over => wait.to - 1,
    }
}

impl Records {
    /// The step that led to a record, if it was carried out.
    fn carried_out(&self, at: usize) -> Option<Step> {
        let (step, refused) = self.history.moments[at].step?;
        (!refused).then_some(step)
    }

    /// The register that the step to a record wrote, and the value.
    pub fn written(&self, at: usize) -> Option<(Register, u32)> {
        match self.carried_out(at)? {
            Step::Write { offset, value } => Some((Register::at(offset)?, value)),
            _ => None,
        }
    }

    /// Whether the step to a record wrote a mode or a forcing, whatever the value.
    fn is_rewrite(&self, at: usize) -> bool {
        use Register::{Ffdr, Ffer, Mode};
        matches!(self.written(at), Some((Mode(_) | Ffer | Ffdr, _)))
    }

    /// Whether the line of a source turned active by the step to a record, by its trigger before.
    fn turned_active(&self, at: usize, source: usize) -> bool {
        let (before, after) = (&self.aics[at - 1], &self.aics[at]);
        let active = |aic: &Aic| is_active(&before.sources()[source], aic.sources()[source].line);
        !active(before) && active(after)
    }

    /// Whether the step to a record closed a handler of a source.
    fn closed(&self, at: usize, source: usize) -> bool {
        let (before, after) = (self.aics[at - 1].entries(), self.aics[at].entries());
        after.len() < before.len() && before[after.len()].source == Some(source as u8)
    }

    /// What the step to a record gives to a source, put to what there is. Each is judged in the record before.
    fn give(&self, at: usize, source: usize, terms: &mut Terms) {
        let before = &self.aics[at - 1].sources()[source];
        let set = |(register, value)| register == Register::Set && value >> source & 1 == 1;
        let turned = u32::from(self.turned_active(at, source));
        if before.edge_triggered() {
            terms.edges += turned;
            terms.commands += u32::from(self.written(at).is_some_and(set));
        } else {
            terms.turns += turned;
            let hot = self.closed(at, source) && is_active(before, before.line);
            terms.closed_active += u32::from(hot);
        }
    }

    /// Those that may be started before the waiting source: ahead of it at the outset, and not fast.
    pub fn rivals(&self, wait: &Wait) -> Vec<usize> {
        let outset = &self.aics[wait.from];
        let rival = |&n: &usize| is_ahead(outset, n, wait.source) && !outset.fast(n);
        (0..SOURCES).filter(rival).collect()
    }

    /// The terms of a wait in so far as it went on to a record. A rival counts from the first record of the wait in which
    /// it is enabled.
    pub fn terms(&self, wait: &Wait, to: usize) -> Terms {
        let mut terms = Terms::default();
        for rival in self.rivals(wait) {
            let is_on = |&at: &usize| self.aics[at].sources()[rival].enabled;
            let Some(first) = (wait.from..=to).find(is_on) else {
                continue;
            };
            terms.pending += u32::from(is_due(&self.aics[first], rival));
            (first + 1..=to).for_each(|at| self.give(at, rival, &mut terms));
        }
        let remembered = self.history.moments[wait.from].remembered;
        terms.remembered = u32::from(remembered.is_some_and(|other| other != wait.source));
        terms
    }

    /// The handlers of other sources that were started in a wait in so far as it went on to a record.
    pub fn started(&self, wait: &Wait, to: usize) -> u32 {
        self.history.others(&Wait { to, ..*wait })
    }

    /// The first step of a wait that wrote a mode or a forcing.
    pub fn rewritten(&self, wait: &Wait) -> Option<usize> {
        (wait.from + 1..=last(wait)).find(|&at| self.is_rewrite(at))
    }

    /// A wait with what bounds it.
    pub fn bounded(&self, wait: &Wait) -> Bounded {
        let ended = wait.end != End::Never;
        Bounded {
            began: wait.from as u32,
            ended: ended.then_some(wait.to as u32),
            started: self.started(wait, last(wait)),
            bound: match self.rewritten(wait) {
                None => Bound::Terms(self.terms(wait, last(wait))),
                Some(step) => Bound::Rewritten(step as u32),
            },
        }
    }

    /// All waits of a source, in their order.
    pub fn waits(&self, source: usize) -> Vec<Bounded> {
        let waits = self.history.waits(source);
        waits.iter().map(|wait| self.bounded(wait)).collect()
    }

    pub fn summary(&self, source: usize) -> Summary {
        summary(&self.waits(source))
    }
}

/// What is said of some waits.
pub fn summary(waits: &[Bounded]) -> Summary {
    let steps = waits.iter().filter_map(|wait| match wait.bound {
        Bound::Rewritten(step) => Some(step),
        Bound::Terms(_) => None,
    });
    let bounds = waits.iter().filter_map(|wait| match wait.bound {
        Bound::Terms(terms) => Some(terms),
        Bound::Rewritten(_) => None,
    });
    // Of equal ones `max_by_key` takes the last, so they come the other way round.
    let most = bounds.rev().max_by_key(Terms::sum);
    Summary {
        waits: waits.len() as u32,
        unended: waits.iter().filter(|wait| wait.ended.is_none()).count() as u32,
        unbounded: steps.clone().count() as u32,
        first_unbounded: steps.clone().next(),
        seen: waits.iter().map(|wait| wait.started).max().unwrap_or(0),
        most,
    }
}
