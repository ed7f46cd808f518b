//! What the calls that are carried out show of a board.

use std::collections::BTreeSet;

use super::reasons::numbers;
use super::{Coverage, Item, Lead, Spot};
use crate::boards::{Call, Reply};
use crate::facts;
use crate::model::board::{Board, Wire, INPUTS};
use crate::model::core::{CoreInterrupt, Group, Register, Role, Side, IRQ_INPUTS};

const SIDES: [Side; 2] = [Side::Irq, Side::Fiq];

facts! { pub FACTS;
    fn connected(before: &Board, controller: usize, input: usize, wire: Wire) {
        let other = match wire {
            Wire::Output(_, other) => Some(other as usize),
            _ => None,
        };
        let wires = before.wires(controller);
        let again = wires.contains(&wire) && wires[input] != wire;
        "input 0 is wired" if input == 0;
        "input 31 is wired" if input == IRQ_INPUTS - 1;
        "input 32 is wired" if input == IRQ_INPUTS;
        "an input is wired to pin 0" if wire == Wire::Pin(0);
        "a wire to the next lower number" if other.is_some_and(|other| other + 1 == controller);
        "a wire from controller 0 to controller 7" if (other, controller) == (Some(0), 7);
        "a second wire from one output to one controller" if other.is_some() && again;
    }

    fn shown(role: Role, group: &Group) {
        let clear = matches!(role, Role::SoftClear | Role::EnableClear);
        "a clear of a side with no sources is read" if clear && group.count == 0;
    }

    fn silent(group: &Group, unused_high: bool) {
        "a side is inactive though an unused input is high" if unused_high && !group.active();
    }

    fn chain(board: &Board, controller: usize, length: usize) {
        let direct = leads(board, controller, |_| true);
        let below = all_below(board, controller);
        let by = |number: usize| 1 + board.chain(number as u32).map_or(0, |long| long as usize);
        let used = leads(board, controller, |spot| spot.used);
        let by_used = used.into_iter().map(by).max().unwrap_or(0);
        let passed = |end: Option<&usize>| end.is_some_and(|&number| by(number) < length);
        "a chain shorter than the controllers below" if below.len() > length;
        "a chain longer than the controllers that are wired" if direct.len() < length;
        "a chain that does not go by the lowest number wired" if passed(direct.first());
        "a chain that does not go by the highest number wired" if passed(direct.last());
        "a chain by an unused input alone" if by_used < length;
    }
}

impl Coverage {
    pub(super) fn carried_out(
        &mut self,
        before: &Board,
        after: &Board,
        call: &Call,
        reply: &Reply,
    ) {
        for (limit, number, end) in numbers(before, call) {
            if number + 1 == end {
                self.reach(Item::Last(call.sort(), limit));
            }
        }
        match *call {
            Call::Add { fiqs, irqs, .. } => {
                self.reach(Item::Sources(Side::Fiq, fiqs));
                self.reach(Item::Sources(Side::Irq, irqs));
                let core = after.stored(before.controllers());
                self.reach(Item::Levels(core.fiq.active_level, core.irq.active_level));
            }
            Call::Connect {
                controller,
                input,
                wire,
            } => {
                self.connected(before, controller as usize, input as usize, wire);
                self.moved(before, after, call);
            }
            Call::Pin { .. } => self.moved(before, after, call),
            Call::Write { .. } => {
                self.accessed(call, 0);
                self.moved(before, after, call);
            }
            Call::Read { controller, offset } => {
                self.accessed(call, 0);
                self.shown(after, controller as usize, offset);
            }
            Call::Outputs { controller } => self.outputs(after, controller as usize),
            Call::Input { controller, input } => {
                self.asked(
                    after,
                    controller as usize,
                    input as usize,
                    reply.values[0] == 1,
                );
            }
            Call::Chain { controller } => {
                self.reach(Item::Chain(reply.values[0]));
                self.facts(chain(after, controller as usize, reply.values[0] as usize));
            }
        }
    }

    fn connected(&mut self, before: &Board, controller: usize, input: usize, wire: Wire) {
        let spot = Spot::of(before, controller, input);
        let old = before.wires(controller)[input];
        self.reach(Item::Wired(Lead::of(wire), spot));
        self.reach(Item::Replaced(Lead::of(old), Lead::of(wire)));
        self.facts(connected(before, controller, input, wire));
    }

    /// The turns of outputs that are not of the controller which the call names.
    fn moved(&mut self, before: &Board, after: &Board, call: &Call) {
        if before == after {
            return;
        }
        let (old, new) = (before.settled(), after.settled());
        for (number, (old, new)) in old.iter().zip(&new).enumerate() {
            let own = call.controller() == Some(number as u32);
            for side in SIDES {
                let (was, is) = (old.group(side).active(), new.group(side).active());
                if was != is && !own {
                    self.reach(Item::Moved(call.sort(), is));
                }
            }
        }
    }

    /// What a read of raw or status shows of the wires.
    fn shown(&mut self, board: &Board, controller: usize, offset: u32) {
        let Some(register) = Register::at(offset) else {
            return;
        };
        let settled = board.settled();
        let group = settled[controller].group(register.side);
        let seen = match register.role {
            Role::Raw => group.inputs & !group.soft,
            Role::Status => group.inputs & !group.soft & group.enable,
            _ => 0,
        };
        for (bit, wire) in side_wires(board, controller, register.side) {
            if seen >> bit & 1 == 1 {
                self.reach(Item::Shown(register, Lead::of(wire)));
            }
        }
        self.facts(shown(register.role, group));
    }

    fn outputs(&mut self, board: &Board, controller: usize) {
        let settled = board.settled();
        let nearest = nearest(board, &settled);
        for side in SIDES {
            let group = settled[controller].group(side);
            self.reach(Item::Output(side, group.active_level, group.active()));
            if let Some(far) = nearest[controller][side as usize] {
                self.reach(Item::Through(far));
            }
            let mut unused = side_wires(board, controller, side).skip(group.count as usize);
            let high = unused.any(|(_, wire)| board.value(wire, &settled));
            self.facts(silent(group, high));
        }
    }

    fn asked(&mut self, board: &Board, controller: usize, input: usize, high: bool) {
        let wire = board.wires(controller)[input];
        let spot = Spot::of(board, controller, input);
        self.reach(Item::Asked(Lead::of(wire), spot, high));
        if let Wire::Output(side, other) = wire {
            let level = board.stored(other as usize).group(side).active_level;
            self.reach(Item::Activity(side, level, high));
        }
    }
}

/// The wires of one side of a controller, by the numbers of their bits.
fn side_wires(board: &Board, controller: usize, side: Side) -> impl Iterator<Item = (usize, Wire)> {
    let wires = *board.wires(controller);
    let (first, end) = match side {
        Side::Irq => (0, IRQ_INPUTS),
        Side::Fiq => (IRQ_INPUTS, INPUTS),
    };
    (first..end).map(move |input| (input - first, wires[input]))
}

/// The controllers that one is wired to by the inputs that pass.
fn leads(board: &Board, controller: usize, passes: impl Fn(Spot) -> bool) -> BTreeSet<usize> {
    let wires = board.wires(controller).iter().enumerate();
    let passed = wires.filter(|&(input, _)| passes(Spot::of(board, controller, input)));
    passed
        .filter_map(|(_, &wire)| match wire {
            Wire::Output(_, other) => Some(other as usize),
            Wire::Nothing | Wire::Pin(_) => None,
        })
        .collect()
}

/// All controllers that one hears of, by however many others.
fn all_below(board: &Board, controller: usize) -> BTreeSet<usize> {
    let mut below = leads(board, controller, |_| true);
    for number in (0..controller).rev() {
        if below.contains(&number) {
            below.extend(leads(board, number, |_| true));
        }
    }
    below
}

/// Of each output that is active how many controllers below it at least take part in that: none where a pin or its own
/// software raises it. By `Side as usize`.
fn nearest(board: &Board, settled: &[CoreInterrupt]) -> Vec<[Option<usize>; 2]> {
    let mut nearest: Vec<[Option<usize>; 2]> = Vec::new();
    for (number, core) in settled.iter().enumerate() {
        let mut own = [None; 2];
        for side in SIDES {
            let group = core.group(side);
            let high = group.inputs & group.enable;
            let soft = (group.soft & group.enable != 0).then_some(0);
            let by_wire = |(bit, wire): (usize, Wire)| match wire {
                _ if high >> bit & 1 == 0 => None,
                Wire::Nothing => None,
                Wire::Pin(_) => Some(0),
                Wire::Output(from, other) => {
                    nearest[other as usize][from as usize].map(|far| far + 1)
                }
            };
            let wired = side_wires(board, number, side).filter_map(by_wire);
            own[side as usize] = wired.chain(soft).min();
        }
        nearest.push(own);
    }
    nearest
}
