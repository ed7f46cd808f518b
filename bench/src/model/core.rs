//! CoreInterrupt: up to 8 FIQ and 32 IRQ sources, software sources and enables (01, CoreInterrupt; 004).

use super::{Access, Controller, Refusal};

/// IRQ inputs that always exist (004, table 2).
pub const IRQ_INPUTS: usize = 32;
/// FIQ inputs that always exist; their line numbers follow the IRQ inputs (01, CoreInterrupt).
pub const FIQ_INPUTS: usize = 8;

/// The two halves of the controller, which work alike.
#[derive(Clone, Copy, Debug, PartialEq, Eq, PartialOrd, Ord, Hash)]
pub enum Side {
    Fiq,
    Irq,
}

listed! {
    /// What the registers of a side are for, in the order of 004, table 3.
    #[derive(Clone, Copy, Debug, PartialEq, Eq, PartialOrd, Ord, Hash)]
    pub enum Role {
        Soft, SoftClear, Enable, EnableClear, Raw, Status
    }
}

/// A register: the same six on each side.
#[derive(Clone, Copy, Debug, PartialEq, Eq, PartialOrd, Ord, Hash)]
pub struct Register {
    pub side: Side,
    pub role: Role,
}

impl Register {
    /// The register at an aligned offset: six of the FIQ side from 0x00, six of the IRQ side from 0x18.
    pub fn at(offset: u32) -> Option<Register> {
        let place = offset as usize / 4;
        let side = if place < 6 { Side::Fiq } else { Side::Irq };
        (place < 12).then(|| Register {
            side,
            role: Role::ALL[place % 6],
        })
    }
}

/// One side: its size, its active level and what is stored. No bit at or beyond `count` is ever stored.
#[derive(Clone, Debug, PartialEq, Eq)]
pub struct Group {
    pub count: u32,
    pub active_level: bool,
    pub inputs: u32,
    pub soft: u32,
    pub enable: u32,
}

impl Group {
    fn new(count: u32, active_level: bool) -> Group {
        Group {
            count,
            active_level,
            inputs: 0,
            soft: 0,
            enable: 0,
        }
    }

    /// A 1 for each configured source.
    pub fn configured(&self) -> u32 {
        match self.count {
            32 => u32::MAX,
            count => (1 << count) - 1,
        }
    }

    pub fn raw(&self) -> u32 {
        self.inputs | self.soft
    }

    pub fn status(&self) -> u32 {
        self.raw() & self.enable
    }

    pub fn active(&self) -> bool {
        self.status() != 0
    }

    /// The level of the output wire (01, CoreInterrupt); the listing shows activity and not this.
    pub fn output_level(&self) -> bool {
        self.active() == self.active_level
    }

    /// With no sources the clears may be read too, and read 0 as all else does (01, CoreInterrupt; 004).
    fn access(&self, role: Role) -> Access {
        match role {
            Role::Soft | Role::Enable => Access::ReadWrite,
            Role::SoftClear | Role::EnableClear if self.count == 0 => Access::ReadWrite,
            Role::SoftClear | Role::EnableClear => Access::WriteOnly,
            Role::Raw | Role::Status => Access::ReadOnly,
        }
    }

    fn read(&self, role: Role) -> u32 {
        match role {
            Role::Soft => self.soft,
            Role::Enable => self.enable,
            Role::Raw => self.raw(),
            Role::Status => self.status(),
            Role::SoftClear | Role::EnableClear => 0,
        }
    }

    /// Ones set or clear their bits, zeros do nothing, and bits beyond the count are dropped.
    fn write(&mut self, role: Role, value: u32) {
        let value = value & self.configured();
        match role {
            Role::Soft => self.soft |= value,
            Role::SoftClear => self.soft &= !value,
            Role::Enable => self.enable |= value,
            Role::EnableClear => self.enable &= !value,
            Role::Raw | Role::Status => unreachable!("{role:?} is read-only"),
        }
    }

    /// An input beyond the count may move, but is not stored.
    fn set_input(&mut self, input: usize, level: bool) {
        let bit = 1 << input & self.configured();
        if level {
            self.inputs |= bit;
        } else {
            self.inputs &= !bit;
        }
    }
}

/// The whole controller.
#[derive(Clone, Debug, PartialEq, Eq)]
pub struct CoreInterrupt {
    pub fiq: Group,
    pub irq: Group,
}

impl CoreInterrupt {
    /// The controller after reset, for counts within their limits; all lines are low.
    pub fn new(fiqs: u32, irqs: u32, fiq_level: bool, irq_level: bool) -> CoreInterrupt {
        CoreInterrupt {
            fiq: Group::new(fiqs, fiq_level),
            irq: Group::new(irqs, irq_level),
        }
    }

    pub fn group(&self, side: Side) -> &Group {
        match side {
            Side::Fiq => &self.fiq,
            Side::Irq => &self.irq,
        }
    }

    fn group_mut(&mut self, side: Side) -> &mut Group {
        match side {
            Side::Fiq => &mut self.fiq,
            Side::Irq => &mut self.irq,
        }
    }
}

impl Controller for CoreInterrupt {
    type Register = Register;

    fn register(&self, offset: u32) -> Option<(Register, Access)> {
        let register = Register::at(offset)?;
        Some((register, self.group(register.side).access(register.role)))
    }

    fn lines(&self) -> u32 {
        (IRQ_INPUTS + FIQ_INPUTS) as u32
    }

    fn read(&mut self, register: Register) -> u32 {
        self.group(register.side).read(register.role)
    }

    fn write(&mut self, register: Register, value: u32) -> Result<(), Refusal> {
        self.group_mut(register.side).write(register.role, value);
        Ok(())
    }

    fn set_line(&mut self, line: usize, level: bool) {
        match line.checked_sub(IRQ_INPUTS) {
            None => self.irq.set_input(line, level),
            Some(input) => self.fiq.set_input(input, level),
        }
    }

    fn shown(&self) -> [u32; 3] {
        [
            u32::from(self.irq.active()),
            u32::from(self.fiq.active()),
            0,
        ]
    }
}
