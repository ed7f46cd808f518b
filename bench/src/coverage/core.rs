//! What is to be reached on CoreInterrupt: every register of groups with and without sources, inputs, sizes and levels.

use super::{word_offset, Change, Coverage, Item, Outcome, Size};
use crate::facts;
use crate::model::core::{CoreInterrupt, Group, Register, Role, Side, IRQ_INPUTS};
use crate::model::{Access, Step};
use crate::tally::each;

facts! { FACTS;
    fn read(group: &Group, value: u32) {
        let top = 1 << group.count.saturating_sub(1);
        "the top bit of a group is read as 1" if value & top != 0;
    }

    fn write(register: Register, group: &Group, value: u32) {
        let dropped = |side| register.side == side && value & !group.configured() != 0;
        let clear = register.role == Role::SoftClear;
        "FIQ bits beyond the count are dropped" if dropped(Side::Fiq);
        "IRQ bits beyond the count are dropped" if dropped(Side::Irq);
        "a soft clear leaves an input that is high" if clear && value & group.inputs != 0;
    }

    fn line(core: &CoreInterrupt, line: u32, level: u32, moved: bool) {
        let irq = (line as usize) < IRQ_INPUTS;
        let spare = match irq {
            true => line >= core.irq.count,
            false => line < 40 && line - IRQ_INPUTS as u32 >= core.fiq.count,
        };
        "a spare IRQ input moves" if moved && spare && irq;
        "a spare FIQ input moves" if moved && spare && !irq;
        "an IRQ input moves" if moved && !spare && irq;
        "a FIQ input moves" if moved && !spare && !irq;
        "level 2 on a spare input" if spare && level > 1;
        "level 2 on an input" if line < 40 && !spare && level > 1;
        "CoreInterrupt line 39" if line == 39 && moved;
        "CoreInterrupt line 40" if line == 40 && level < 2;
    }

    fn outputs(fiq: &Group, irq: &Group) {
        let by = |bits: u32, group: &Group| bits & group.enable != 0;
        let masked = |group: &Group| group.raw() != 0 && group.status() == 0;
        "IRQ active by an input" if by(irq.inputs & !irq.soft, irq);
        "IRQ active by software" if by(irq.soft & !irq.inputs, irq);
        "FIQ active by an input" if by(fiq.inputs & !fiq.soft, fiq);
        "FIQ active by software" if by(fiq.soft & !fiq.inputs, fiq);
        "both outputs active" if irq.active() && fiq.active();
        "IRQ alone active" if irq.active() && !fiq.active();
        "FIQ alone active" if !irq.active() && fiq.active();
        "IRQ sources all masked" if masked(irq);
        "FIQ sources all masked" if masked(fiq);
    }
}

impl Coverage {
    pub(super) fn core_started(&mut self, core: &CoreInterrupt) {
        self.reach(Item::Sources(Side::Fiq, core.fiq.count));
        self.reach(Item::Sources(Side::Irq, core.irq.count));
        self.reach(Item::Levels(core.fiq.active_level, core.irq.active_level));
    }

    /// Counts what a step on CoreInterrupt shows.
    pub(super) fn core_step(&mut self, change: &Change<CoreInterrupt>) {
        let (core, step, answer) = (change.after, change.step, change.answer);
        if let Some(register) = word_offset(step).and_then(Register::at) {
            let group = core.group(register.side);
            self.reach(Item::Core(
                register,
                Size::of(group.count),
                change.outcome(),
            ));
            match (step, answer) {
                (Step::Read { .. }, Ok(value)) => self.facts(read(group, value)),
                (Step::Write { value, .. }, Ok(_)) => self.facts(write(register, group, value)),
                _ => {}
            }
        }
        if let Step::Line { line: n, level } = step {
            self.facts(line(core, n, level, answer.is_ok()));
        }
        self.facts(outputs(&core.fiq, &core.irq));
    }
}

pub(super) fn wanted() -> Vec<Item> {
    let mut items = Vec::new();
    for register in (0..0x30).step_by(4).filter_map(Register::at) {
        for size in Size::ALL {
            let access = match (register.role, size) {
                (Role::Raw | Role::Status, _) => Access::ReadOnly,
                (Role::SoftClear | Role::EnableClear, Size::Some) => Access::WriteOnly,
                _ => Access::ReadWrite,
            };
            let outcomes = Outcome::both(access);
            items.extend(outcomes.map(|outcome| Item::Core(register, size, outcome)));
        }
    }
    items.extend([0, 1, 7, 8].map(|count| Item::Sources(Side::Fiq, count)));
    items.extend([0, 1, 31, 32].map(|count| Item::Sources(Side::Irq, count)));
    items.extend(each(|(fiq, irq)| Item::Levels(fiq, irq)));
    items.extend(FACTS.iter().copied().map(Item::Fact));
    items
}
