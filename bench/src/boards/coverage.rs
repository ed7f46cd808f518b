//! What the calls of a transcript have reached, counted from the model's own boards; a listed item not reached is a
//! gap.

mod listed;
mod reasons;
mod situations;

use std::collections::{BTreeMap, BTreeSet};

use super::{Call, Reply, Sort};
use crate::model::board::{Board, Wire};
use crate::model::core::{Register, Side, IRQ_INPUTS};
use crate::tally::{each, Every, Fact, Listed, Tally};
use crate::{facts, sorts};

use self::reasons::{beyond, configured_beyond};

/// Something that a transcript should have reached.
#[derive(Clone, Copy, Debug, PartialEq, Eq, PartialOrd, Ord, Hash)]
pub enum Item {
    /// A call was made on a board of so many controllers.
    Controllers(usize),
    /// A call of a sort was answered by this number, 0 where it was carried out.
    Answered(Sort, u32),
    /// A call was refused by 6 for this number of it alone.
    Beyond(Sort, Limit, Far),
    /// A number of a call that was carried out was the last below its limit.
    Last(Sort, Limit),
    /// A controller was refused by 10 for this number of its configuration alone, counted from 0.
    Configuration(usize),
    /// A controller was added with so many sources on a side.
    Sources(Side, u32),
    /// A controller was added with these active levels, FIQ first.
    Levels(bool, bool),
    /// An input was wired so.
    Wired(Lead, Spot),
    /// A wire took the place of another.
    Replaced(Lead, Lead),
    /// A wire to the same or to a higher number was refused by 15.
    NotLower(Side, Up, Spot),
    /// An input was asked that is wired so, and was high or low.
    Asked(Lead, Spot, bool),
    /// An input was asked that is wired to an output of this active level while that was active or not.
    Activity(Side, bool, bool),
    /// The outputs were asked of a controller whose side has this active level, while it was active or not.
    Output(Side, bool, bool),
    /// The outputs were asked while one was active by nothing nearer than so many controllers below it.
    Through(usize),
    /// A chain of so many controllers was told.
    Chain(u32),
    /// A register was read (or else written) and answered by this number.
    Accessed(Register, bool, u32),
    /// A read of raw or status showed an input that is high by such a wire.
    Shown(Register, Lead),
    /// A call of a sort turned an output of another controller than its own on or off.
    Moved(Sort, bool),
    /// A record that breaks a rule was refused by 12.
    Unsound,
    /// A situation in plain words.
    Fact(&'static str),
}

sorts! {
    /// What a wire leads to.
    Lead { Nothing, Pin, Irq, Fiq }
}

impl Lead {
    pub fn of(wire: Wire) -> Lead {
        match wire {
            Wire::Nothing => Lead::Nothing,
            Wire::Pin(_) => Lead::Pin,
            Wire::Output(Side::Irq, _) => Lead::Irq,
            Wire::Output(Side::Fiq, _) => Lead::Fiq,
        }
    }
}

/// The side of an input, and whether it is configured.
#[derive(Clone, Copy, Debug, PartialEq, Eq, PartialOrd, Ord, Hash)]
pub struct Spot {
    pub side: Side,
    pub used: bool,
}

impl Every for Side {
    fn every() -> Vec<Side> {
        vec![Side::Irq, Side::Fiq]
    }
}

impl Every for Spot {
    fn every() -> Vec<Spot> {
        each(|(side, used)| Spot { side, used }).collect()
    }
}

impl Spot {
    /// The spot of an input of a controller, both of which are there.
    pub fn of(board: &Board, controller: usize, input: usize) -> Spot {
        let (side, nth) = match input.checked_sub(IRQ_INPUTS) {
            None => (Side::Irq, input),
            Some(nth) => (Side::Fiq, nth),
        };
        let used = nth < board.stored(controller).group(side).count as usize;
        Spot { side, used }
    }
}

sorts! {
    /// A limit of a call's numbers.
    Limit {
        /// The room of the board.
        Room,
        Controller,
        Input,
        Pin,
        /// The controller that a wire comes from.
        Other,
        Level,
    }

    /// How far beyond its limit a number is.
    Far {
        /// The first one beyond.
        First,
        /// Of controllers: not the first, but one that a full board has.
        Absent,
        Further,
    }

    /// Where a wire that is refused by 15 leads.
    Up { Same, Higher }
}

facts! { FACTS;
    /// What would have been refused too, but comes behind 6.
    fn six(board: &Board, call: &Call) {
        let leads_up = match *call {
            Call::Connect { controller, wire: Wire::Output(_, other), .. } => {
                other >= controller && (other as usize) < board.controllers()
            }
            _ => false,
        };
        let offset = match *call {
            Call::Read { offset, .. } | Call::Write { offset, .. } => Some(offset),
            _ => None,
        };
        let aligned = |offset: u32| offset.is_multiple_of(4);
        let nowhere = |offset: u32| aligned(offset) && Register::at(offset).is_none();
        "6 of a ninth, whose configuration is bad" if !configured_beyond(call).is_empty();
        "6 of an input, with a wire that leads up" if leads_up;
        "6 of a controller, with a misaligned offset"
            if offset.is_some_and(|offset| !aligned(offset));
        "6 of a controller, with no register at the offset" if offset.is_some_and(nowhere);
    }
}

/// The counters.
#[derive(Clone, Debug, Default)]
pub struct Coverage {
    tally: Tally<Item>,
    boards: u64,
    calls: u64,
    unsound: BTreeSet<String>,
}

impl Coverage {
    /// How many boards were begun.
    pub fn boards(&self) -> u64 {
        self.boards
    }

    /// How often the items that pass were reached.
    fn sum(&self, passes: impl Fn(Item) -> bool) -> u64 {
        let passed = self.tally.reached().filter(|&(item, _)| passes(item));
        passed.map(|(_, count)| count).sum()
    }

    /// What was counted, line by line.
    pub fn told(&self) -> Vec<String> {
        let mut lines = vec![format!(
            "{} boards, {} calls, {} records that break a rule ({} titles)",
            self.boards,
            self.calls,
            self.count(Item::Unsound),
            self.unsound.len()
        )];
        lines.extend(Sort::ALL.map(|sort| self.told_answers(sort)));
        let chains = (0..8).map(|length| self.count(Item::Chain(length)).to_string());
        let chains: Vec<String> = chains.collect();
        lines.push(format!("chains of 0 to 7: {}", chains.join(" ")));
        let wired = |lead| self.sum(|item| matches!(item, Item::Wired(by, _) if by == lead));
        let high = |lead| self.sum(|item| matches!(item, Item::Asked(by, _, true) if by == lead));
        for (what, count) in [
            ("inputs wired to", &wired as &dyn Fn(Lead) -> u64),
            ("inputs high by", &high),
        ] {
            let counts = Lead::ALL.map(|lead| format!("{} {}", name(lead), count(lead)));
            lines.push(format!("{what}: {}", counts.join(", ")));
        }
        let unused = self.sum(|item| matches!(item, Item::Asked(_, spot, true) if !spot.used));
        let level = |at| self.sum(|item| matches!(item, Item::Output(_, level, _) if level == at));
        lines.push(format!(
            "unused inputs high: {unused}; outputs of active level 0: {}, of active level 1: {}",
            level(false),
            level(true)
        ));
        lines
    }

    /// The answers to the calls of a sort, by their numbers.
    fn told_answers(&self, sort: Sort) -> String {
        let answers = self.tally.reached().filter_map(|(item, count)| match item {
            Item::Answered(asked, number) if asked == sort => Some((number, count)),
            _ => None,
        });
        let answers: BTreeMap<u32, u64> = answers.collect();
        let words: Vec<String> = answers
            .into_iter()
            .map(|(number, count)| match number {
                0 => format!("{count} carried out"),
                _ => format!("{count} refused by {number}"),
            })
            .collect();
        format!("{}: {}", sort.word(), words.join(", "))
    }

    pub(super) fn board(&mut self) {
        self.boards += 1;
    }

    pub(super) fn unsound(&mut self, title: &str) {
        self.unsound.insert(title.to_owned());
        self.reach(Item::Unsound);
    }

    /// Counts a call, given the board before and after it.
    pub(super) fn call(&mut self, before: &Board, after: &Board, call: &Call, reply: &Reply) {
        self.calls += 1;
        self.reach(Item::Controllers(before.controllers()));
        self.reach(Item::Answered(call.sort(), reply.refusal));
        match reply.refusal {
            0 => self.carried_out(before, after, call, reply),
            _ => self.refused(before, call, reply.refusal),
        }
    }

    fn reach(&mut self, item: Item) {
        self.tally.reach(item);
    }

    /// Counts the situations that are there.
    fn facts(&mut self, facts: impl IntoIterator<Item = Fact>) {
        self.tally.facts(Item::Fact, facts);
    }

    /// What there is to a refusal: the number at fault, and what would have been refused too but comes later.
    fn refused(&mut self, board: &Board, call: &Call, number: u32) {
        let faults = beyond(board, call);
        if let ([(limit, far)], 6) = (faults.as_slice(), number) {
            self.reach(Item::Beyond(call.sort(), *limit, *far));
        }
        if number == 6 {
            self.facts(six(board, call));
        }
        match *call {
            Call::Add { .. } => {
                if let ([nth], 10) = (configured_beyond(call).as_slice(), number) {
                    self.reach(Item::Configuration(*nth));
                }
            }
            Call::Connect {
                controller,
                input,
                wire: Wire::Output(side, other),
            } if number == 15 => {
                let spot = Spot::of(board, controller as usize, input as usize);
                let up = [Up::Higher, Up::Same][usize::from(other == controller)];
                self.reach(Item::NotLower(side, up, spot));
            }
            _ => self.accessed(call, number),
        }
    }

    /// A register that is there, and what an access to it was answered, if that is not about the controller's number.
    fn accessed(&mut self, call: &Call, number: u32) {
        let (offset, read) = match *call {
            Call::Read { offset, .. } => (offset, true),
            Call::Write { offset, .. } => (offset, false),
            _ => return,
        };
        if let (0, Some(register)) = (offset % 4, Register::at(offset)) {
            if number != 6 {
                self.reach(Item::Accessed(register, read, number));
            }
        }
    }
}

/// The word of a wire in a transcript.
fn name(lead: Lead) -> String {
    format!("{lead:?}").to_lowercase()
}
