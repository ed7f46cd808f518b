//! The AINTC: 128 level inputs, each routed to IRQ or FIQ, and for each of the two one that is chosen and held
//! (000, chapter 4; 02, 2/12).

use std::cmp::Reverse;

use super::{Access, Answer, Controller, Recorded, Refusal, Step};

/// The number of inputs, which is the number of lines (000, 4.3.1.1).
pub const INPUTS: usize = 128;
/// The largest privilege number: 1 is privileged, 0 is not (02, 2/12).
pub const LARGEST_PRIVILEGE: u32 = 1;
/// The threshold that a reset leaves, which lets every priority pass (000, 4.3.1.2.2).
pub const NO_THRESHOLD: u8 = 0xFF;
/// What the active number and priority registers read with none chosen: the flag is all ones, the rest 0
/// (000, figures 4-9, 4-10, 4-14, 4-15).
const SPURIOUS: u32 = 0xFFFF_FF80;

/// The two interrupt requests to the processor; bit 0 of an ILR is 1 for FIQ (000, table 4-23).
#[derive(Clone, Copy, Debug, PartialEq, Eq, PartialOrd, Ord, Hash)]
pub enum Side {
    Irq,
    Fiq,
}

impl Side {
    pub const BOTH: [Side; 2] = [Side::Irq, Side::Fiq];

    pub fn other(self) -> Side {
        match self {
            Side::Irq => Side::Fiq,
            Side::Fiq => Side::Irq,
        }
    }

    /// The bit of AINTC_CONTROL that agrees to a new one (000, table 4-9).
    pub fn agreement(self) -> u32 {
        match self {
            Side::Irq => 1,
            Side::Fiq => 2,
        }
    }
}

/// The registers in the order of 000, table 4-3; banks are numbered 0 to 3, ILRs 0 to 127.
#[derive(Clone, Copy, Debug, PartialEq, Eq, PartialOrd, Ord, Hash)]
pub enum Register {
    Revision,
    SysConfig,
    SysStatus,
    Sir(Side),
    Control,
    Protection,
    Idle,
    Priority(Side),
    Threshold,
    Itr(u8),
    Mir(u8),
    MirClear(u8),
    MirSet(u8),
    IsrSet(u8),
    IsrClear(u8),
    Pending(Side, u8),
    Ilr(u8),
}

impl Register {
    /// The register at an aligned offset (000, table 4-3).
    pub fn at(offset: u32) -> Option<Register> {
        use Register::*;
        Some(match offset {
            0x000 => Revision,
            0x010 => SysConfig,
            0x014 => SysStatus,
            0x040 => Sir(Side::Irq),
            0x044 => Sir(Side::Fiq),
            0x048 => Control,
            0x04C => Protection,
            0x050 => Idle,
            0x060 => Priority(Side::Irq),
            0x064 => Priority(Side::Fiq),
            0x068 => Threshold,
            0x080..=0x0FC => Register::in_bank(offset - 0x080),
            0x100..=0x2FC => Ilr(((offset - 0x100) / 4) as u8),
            _ => return None,
        })
    }

    /// Eight registers in each bank of 0x20 bytes.
    fn in_bank(offset: u32) -> Register {
        use Register::*;
        let bank = (offset / 0x20) as u8;
        match offset % 0x20 / 4 {
            0 => Itr(bank),
            1 => Mir(bank),
            2 => MirClear(bank),
            3 => MirSet(bank),
            4 => IsrSet(bank),
            5 => IsrClear(bank),
            6 => Pending(Side::Irq, bank),
            _ => Pending(Side::Fiq, bank),
        }
    }

    /// Who may do what, by the letters of figures 4-6 to 4-25. MIRn can be written, though its figure has no W: the
    /// text says so (000, 4.4.1).
    pub fn access(self) -> Access {
        use Register::*;
        match self {
            Revision | SysConfig | Protection | Idle | Threshold | Mir(_) | IsrSet(_) | Ilr(_) => {
                Access::ReadWrite
            }
            SysStatus | Sir(_) | Priority(_) | Itr(_) | Pending(..) => Access::ReadOnly,
            Control | MirClear(_) | MirSet(_) | IsrClear(_) => Access::WriteOnly,
        }
    }
}

/// The interrupt that a side is busy with, and the priority it had when it was chosen.
#[derive(Clone, Copy, Debug, PartialEq, Eq)]
pub struct Chosen {
    pub number: u8,
    pub priority: u8,
}

/// The whole controller. In a word of 128 bits, bit n is for input n.
#[derive(Clone, Debug, PartialEq, Eq)]
pub struct Aintc {
    lines: u128,
    soft: u128,
    masks: u128,
    /// A 1 where the input is routed to FIQ.
    routes: u128,
    priorities: [u8; INPUTS],
    threshold: u8,
    revision: u8,
    protected: bool,
    auto_idle: bool,
    /// TURBO and FUNCIDLE as they are written; they gate clocks and nothing else.
    idle: u8,
    irq: Option<Chosen>,
    fiq: Option<Chosen>,
}

impl Default for Aintc {
    fn default() -> Aintc {
        Aintc::new()
    }
}

impl Aintc {
    /// The controller after reset, by the values in figures 4-6 to 4-25; all lines are low (02, 2/12).
    pub fn new() -> Aintc {
        Aintc {
            lines: 0,
            soft: 0,
            masks: u128::MAX,
            routes: 0,
            priorities: [0; INPUTS],
            threshold: NO_THRESHOLD,
            revision: 0,
            protected: false,
            auto_idle: false,
            idle: 0,
            irq: None,
            fiq: None,
        }
    }

    /// The levels of the lines.
    pub fn levels(&self) -> u128 {
        self.lines
    }

    pub fn soft(&self) -> u128 {
        self.soft
    }

    pub fn masks(&self) -> u128 {
        self.masks
    }

    pub fn threshold(&self) -> u8 {
        self.threshold
    }

    pub fn protected(&self) -> bool {
        self.protected
    }

    pub fn priority(&self, input: usize) -> u8 {
        self.priorities[input]
    }

    pub fn route(&self, input: usize) -> Side {
        match has(self.routes, input) {
            false => Side::Irq,
            true => Side::Fiq,
        }
    }

    pub fn chosen(&self, side: Side) -> Option<Chosen> {
        match side {
            Side::Irq => self.irq,
            Side::Fiq => self.fiq,
        }
    }

    fn chosen_mut(&mut self, side: Side) -> &mut Option<Chosen> {
        match side {
            Side::Irq => &mut self.irq,
            Side::Fiq => &mut self.fiq,
        }
    }

    /// What comes in by a line or by software (000, 4.3.1.1).
    pub fn raised(&self) -> u128 {
        self.lines | self.soft
    }

    /// What is left of it after masking, for one of the two requests; the threshold is not asked (000, 4.3.1.2.1).
    pub fn pending(&self, side: Side) -> u128 {
        let routed = match side {
            Side::Irq => !self.routes,
            Side::Fiq => self.routes,
        };
        self.raised() & !self.masks & routed
    }

    /// Lower and equal priorities are masked, which are the larger numbers, but priority 0 never is (000, 4.3.1.2.2).
    pub fn passes(&self, priority: u8) -> bool {
        priority == 0 || priority < self.threshold
    }

    /// The inputs that a side may choose from.
    pub fn eligible(&self, side: Side) -> impl Iterator<Item = usize> + '_ {
        ones(self.pending(side)).filter(|&input| self.passes(self.priorities[input]))
    }

    /// The one of highest priority, which is the lowest number; among equals the highest input (000, 4.3.1.2.3).
    fn sorted(&self, side: Side) -> Option<Chosen> {
        let first = self
            .eligible(side)
            .min_by_key(|&input| (self.priorities[input], Reverse(input)))?;
        Some(Chosen {
            number: first as u8,
            priority: self.priorities[first],
        })
    }

    /// Each side that is not busy chooses; one that is keeps what it has (000, 4.3.1.2.3; 02, 2/12).
    fn choose(&mut self) {
        for side in Side::BOTH {
            if self.chosen(side).is_none() {
                *self.chosen_mut(side) = self.sorted(side);
            }
        }
    }

    /// The soft reset leaves the same as any other, but the lines come from outside (000, tables 4-1 and 4-5).
    fn reset(&mut self) {
        *self = Aintc {
            lines: self.lines,
            ..Aintc::new()
        };
    }

    /// Bit 1 resets, and takes bit 0 of the same write with it.
    fn write_sysconfig(&mut self, value: u32) {
        match value & 2 {
            0 => self.auto_idle = value & 1 == 1,
            _ => self.reset(),
        }
    }

    /// Each agreement bit that is written as 1 ends its side's business (000, table 4-9).
    fn write_control(&mut self, value: u32) {
        for side in Side::BOTH {
            if value & side.agreement() != 0 {
                *self.chosen_mut(side) = None;
            }
        }
    }

    /// Bits 8:2 and bit 0, the others are dropped (000, figure 4-25).
    fn write_ilr(&mut self, input: usize, value: u32) {
        self.priorities[input] = (value >> 2 & 0x7F) as u8;
        self.routes = self.routes & !(1 << input) | u128::from(value & 1) << input;
    }

    fn read_ilr(&self, input: usize) -> u32 {
        u32::from(self.priorities[input]) << 2 | u32::from(has(self.routes, input))
    }

    /// Carries out a step. Before 3 or 4 an access is checked in the order 6 for the privilege number, 1, 2, 13; a line
    /// step is no access (02, 2/12).
    pub fn recorded(&mut self, recorded: Recorded) -> Answer {
        if let Step::Read { offset } | Step::Write { offset, .. } = recorded.step {
            self.admit(offset, recorded.privilege)?;
        }
        self.step(recorded.step)
    }

    fn admit(&self, offset: u32, privilege: u32) -> Result<(), Refusal> {
        if privilege > LARGEST_PRIVILEGE {
            return Err(Refusal::OutOfRange);
        }
        let (register, _) = self.found(offset)?;
        // The protection register is always restricted, the others while its bit is set (000, 4.3.2).
        let restricted = self.protected || register == Register::Protection;
        match restricted && privilege == 0 {
            true => Err(Refusal::Unprivileged),
            false => Ok(()),
        }
    }
}

impl Controller for Aintc {
    type Register = Register;

    fn register(&self, offset: u32) -> Option<(Register, Access)> {
        Register::at(offset).map(|register| (register, register.access()))
    }

    fn lines(&self) -> u32 {
        INPUTS as u32
    }

    fn read(&mut self, register: Register) -> u32 {
        use Register::*;
        match register {
            Revision => u32::from(self.revision),
            SysConfig => u32::from(self.auto_idle),
            // Steps take no time, so no reset is ever going on (000, table 4-6).
            SysStatus => 1,
            Sir(side) => match self.chosen(side) {
                Some(chosen) => u32::from(chosen.number),
                None => SPURIOUS,
            },
            Protection => u32::from(self.protected),
            Idle => u32::from(self.idle),
            Priority(side) => match self.chosen(side) {
                Some(chosen) => u32::from(chosen.priority),
                None => SPURIOUS,
            },
            Threshold => u32::from(self.threshold),
            Itr(n) => bank(self.lines, n),
            Mir(n) => bank(self.masks, n),
            IsrSet(n) => bank(self.soft, n),
            Pending(side, n) => bank(self.pending(side), n),
            Ilr(m) => self.read_ilr(usize::from(m)),
            Control | MirClear(_) | MirSet(_) | IsrClear(_) => {
                unreachable!("{register:?} is write-only")
            }
        }
    }

    /// No value is refused; the sides that are free then choose.
    fn write(&mut self, register: Register, value: u32) -> Result<(), Refusal> {
        use Register::*;
        match register {
            Revision => self.revision = value as u8,
            SysConfig => self.write_sysconfig(value),
            Control => self.write_control(value),
            Protection => self.protected = value & 1 == 1,
            Idle => self.idle = value as u8 & 3,
            Threshold => self.threshold = value as u8,
            Mir(n) => self.masks = self.masks & !spread(u32::MAX, n) | spread(value, n),
            MirClear(n) => self.masks &= !spread(value, n),
            MirSet(n) => self.masks |= spread(value, n),
            IsrSet(n) => self.soft |= spread(value, n),
            IsrClear(n) => self.soft &= !spread(value, n),
            Ilr(m) => self.write_ilr(usize::from(m), value),
            SysStatus | Sir(_) | Priority(_) | Itr(_) | Pending(..) => {
                unreachable!("{register:?} is read-only")
            }
        }
        self.choose();
        Ok(())
    }

    fn set_line(&mut self, line: usize, level: bool) {
        self.lines = self.lines & !(1 << line) | u128::from(level) << line;
        self.choose();
    }

    fn shown(&self) -> [u32; 3] {
        [
            u32::from(self.irq.is_some()),
            u32::from(self.fiq.is_some()),
            self.irq.map_or(0, |chosen| u32::from(chosen.number)),
        ]
    }
}

/// Whether the bit of an input is 1.
pub fn has(word: u128, input: usize) -> bool {
    word >> input & 1 == 1
}

/// The inputs whose bit is 1, the lowest first.
pub fn ones(mut word: u128) -> impl Iterator<Item = usize> {
    std::iter::from_fn(move || {
        let input = word.trailing_zeros() as usize;
        (input < INPUTS).then(|| {
            word &= word - 1;
            input
        })
    })
}

/// The 32 bits of a bank.
fn bank(word: u128, n: u8) -> u32 {
    (word >> (32 * n)) as u32
}

/// A word of 32 bits at the place of a bank.
fn spread(value: u32, n: u8) -> u128 {
    u128::from(value) << (32 * n)
}
