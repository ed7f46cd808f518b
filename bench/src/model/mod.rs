//! The controllers of documents 01 and 02 as plain state, and what they share: steps, refusals, the order of checks.

pub mod aic;
pub mod aintc;
pub mod board;
pub mod cic;
pub mod core;
pub mod indexed;

use self::aic::Aic;
use self::aintc::Aintc;
use self::cic::Cic;
use self::core::CoreInterrupt;
use self::indexed::Indexed;

/// One step of a trace: a register is read or written, or an input line takes a level (01, house trace).
#[derive(Clone, Copy, Debug, PartialEq, Eq)]
pub enum Step {
    Read { offset: u32 },
    Write { offset: u32, value: u32 },
    Line { line: u32, level: u32 },
}

impl Step {
    /// The letter that the listing gives a step that is carried out (01, house trace).
    pub fn letter(self) -> char {
        match self {
            Step::Read { .. } => 'R',
            Step::Write { .. } => 'W',
            Step::Line { .. } => 'L',
        }
    }
}

/// The privilege of a step where the trace says none, or of an access that says it is privileged (02, 2/12).
pub const PRIVILEGED: u32 = 1;

/// A step as a trace records it: what is done, and by which privilege. Only the AINTC asks for the privilege.
#[derive(Clone, Copy, Debug, PartialEq, Eq)]
pub struct Recorded {
    pub step: Step,
    pub privilege: u32,
}

/// Why a step, a trace, a table, a call on a board or a name of a report is not carried out, with the number that 01's
/// table or 02's request gives it.
///
/// Number 12 is missing: it is about a record that somebody hands in, and these models keep their state to themselves.
#[derive(Clone, Copy, Debug, PartialEq, Eq, PartialOrd, Ord, Hash)]
pub enum Refusal {
    Misaligned = 1,
    NoRegister = 2,
    WriteOnly = 3,
    ReadOnly = 4,
    /// Never given since 02, 9/12.
    ProtectMode = 5,
    OutOfRange = 6,
    StepLimit = 7,
    BadNumber = 8,
    UnknownKind = 9,
    BadConfiguration = 10,
    TraceTooLong = 11,
    Unprivileged = 13,
    BeyondTable = 14,
    NotLower = 15,
    /// A total would pass 4,294,967,295 (02, 11/12).
    BeyondTotal = 16,
    /// A file cannot be opened or read (02, 11/12).
    Unreadable = 17,
}

impl Refusal {
    /// The number that is printed.
    pub fn number(self) -> u32 {
        self as u32
    }
}

/// What a step answers: the value read (0 for a write or a line), or why it was refused.
pub type Answer = Result<u32, Refusal>;

/// Which accesses a register allows.
#[derive(Clone, Copy, Debug, PartialEq, Eq, PartialOrd, Ord, Hash)]
pub enum Access {
    ReadWrite,
    ReadOnly,
    WriteOnly,
}

/// A controller as the player sees it. A model says what it has; the order of the checks stands here, once.
pub trait Controller {
    /// The names of the model's registers.
    type Register: Copy;

    /// The register at an aligned offset with the accesses it allows, if there is one.
    fn register(&self, offset: u32) -> Option<(Self::Register, Access)>;

    /// How many input lines there are; a line number from there on is refused.
    fn lines(&self) -> u32;

    /// Reads a register that may be read.
    fn read(&mut self, register: Self::Register) -> u32;

    /// Writes a register that may be written; a refusal changes nothing.
    fn write(&mut self, register: Self::Register, value: u32) -> Result<(), Refusal>;

    /// Puts an existing input line at a level.
    fn set_line(&mut self, line: usize, level: bool);

    /// The three numbers that end a line of the listing (01, house trace).
    fn shown(&self) -> [u32; 3];

    /// Carries out a step, checked in 01's order: 1, 2, 3 or 4, then 6; a line step only against 6.
    fn step(&mut self, step: Step) -> Answer {
        match step {
            Step::Read { offset } => match self.found(offset)? {
                (_, Access::WriteOnly) => Err(Refusal::WriteOnly),
                (register, _) => Ok(self.read(register)),
            },
            Step::Write { offset, value } => match self.found(offset)? {
                (_, Access::ReadOnly) => Err(Refusal::ReadOnly),
                (register, _) => self.write(register, value).map(|()| 0),
            },
            Step::Line { line, level } if line >= self.lines() || level > 1 => {
                Err(Refusal::OutOfRange)
            }
            Step::Line { line, level } => {
                self.set_line(line as usize, level == 1);
                Ok(0)
            }
        }
    }

    /// The register at any offset, or refusal 1 or 2.
    fn found(&self, offset: u32) -> Result<(Self::Register, Access), Refusal> {
        if !offset.is_multiple_of(4) {
            return Err(Refusal::Misaligned);
        }
        self.register(offset).ok_or(Refusal::NoRegister)
    }
}

/// The kinds of controller that a trace can name (01, house trace; 02, 2/12 and 6/12).
#[derive(Clone, Copy, Debug, PartialEq, Eq, PartialOrd, Ord, Hash)]
pub enum Kind {
    Aic,
    Core,
    Cic,
    Aintc,
    Indexed,
}

impl Kind {
    pub const ALL: [Kind; 5] = [Kind::Aic, Kind::Core, Kind::Cic, Kind::Aintc, Kind::Indexed];

    /// The name that opens the listing; a CIC is one with prioritised indices too (02, 6/12).
    pub fn name(self) -> &'static str {
        match self {
            Kind::Aic => "AIC",
            Kind::Core => "COREINTERRUPT",
            Kind::Cic | Kind::Indexed => "CIC",
            Kind::Aintc => "AINTC",
        }
    }

    /// The name in a report, by which every kind can be told from the others.
    pub fn told(self) -> &'static str {
        match self {
            Kind::Indexed => "CIC with indices",
            other => other.name(),
        }
    }

    /// Whether each offset of a trace is followed by a privilege number (02, 2/12).
    pub fn tells_privilege(self) -> bool {
        self == Kind::Aintc
    }
}

/// One started controller of any kind.
#[derive(Clone, Debug, PartialEq, Eq)]
pub enum Machine {
    Aic(Box<Aic>),
    Core(CoreInterrupt),
    Cic(Box<Cic>),
    Aintc(Box<Aintc>),
    Indexed(Box<Indexed>),
}

/// Asks the controller of a machine, of whatever kind it is.
macro_rules! asked {
    ($machine:expr, $controller:ident => $answer:expr) => {
        match $machine {
            Machine::Aic($controller) => $answer,
            Machine::Core($controller) => $answer,
            Machine::Cic($controller) => $answer,
            Machine::Aintc($controller) => $answer,
            Machine::Indexed($controller) => $answer,
        }
    };
}

impl Machine {
    pub fn kind(&self) -> Kind {
        match self {
            Machine::Aic(_) => Kind::Aic,
            Machine::Core(_) => Kind::Core,
            Machine::Cic(_) => Kind::Cic,
            Machine::Aintc(_) => Kind::Aintc,
            Machine::Indexed(_) => Kind::Indexed,
        }
    }

    pub fn step(&mut self, recorded: Recorded) -> Answer {
        match self {
            Machine::Aintc(aintc) => aintc.recorded(recorded),
            other => asked!(other, controller => controller.step(recorded.step)),
        }
    }

    pub fn shown(&self) -> [u32; 3] {
        asked!(self, controller => controller.shown())
    }

    pub fn lines(&self) -> u32 {
        match self {
            Machine::Aic(aic) => aic.lines(),
            Machine::Core(core) => core.lines(),
            Machine::Cic(cic) => cic.systems() as u32,
            Machine::Aintc(aintc) => aintc.lines(),
            Machine::Indexed(indexed) => indexed.lines(),
        }
    }

    /// Which accesses the register at an aligned offset allows, if there is one.
    pub fn access(&self, offset: u32) -> Option<Access> {
        asked!(self, controller => controller.register(offset).map(|(_, access)| access))
    }
}
