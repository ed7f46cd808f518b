//! A trace as text, explained: a statement to a line, and behind `#` the step's number, what it was about and what came
//! of it, with the makers' names and sections (docs/TEXT.md).

pub mod deeds;
pub mod fields;
pub mod generate;
pub mod places;
pub mod reached;
pub mod reader;
pub mod refusals;

use std::time::Duration;

use self::reached::Coverage;
use crate::batch::Request;
use crate::compare::{shrink, Subject};
use crate::generate::Case;
use crate::model::{Answer, Kind, Machine, Recorded, Step};
use crate::trace::{play, Field, Observer, Report};
use crate::typed::CONTROLLERS;

/// The column behind which comments begin, where the statement leaves room.
pub const COLUMN: usize = 28;

/// No line is longer, if its number has at most five digits.
pub const LONGEST_LINE: usize = 256;

/// The explanation of a trace that is played up to a number of steps.
pub fn explain(trace: &[u8], limit: u32) -> Vec<u8> {
    explain_by(Parts::RIGHT, trace, limit)
}

/// The lines of so many steps from a first one on, as far as they are played.
pub fn window(trace: &[u8], limit: u32, first: u32, steps: u32) -> Vec<u8> {
    written(Parts::RIGHT, Some((first, steps)), trace, limit)
}

/// An explanation whose lines are put together of these parts.
pub fn explain_by(parts: Parts, trace: &[u8], limit: u32) -> Vec<u8> {
    written(parts, None, trace, limit)
}

fn written(parts: Parts, window: Option<(u32, u32)>, trace: &[u8], limit: u32) -> Vec<u8> {
    let mut writer = Writer {
        parts,
        window,
        configuration: Vec::new(),
        before: None,
        text: String::new(),
    };
    play(trace, limit, &mut writer);
    writer.text.into_bytes()
}

/// All that is known of a step that was played.
pub struct Told<'a> {
    pub before: &'a Machine,
    pub recorded: Recorded,
    pub answer: Answer,
    pub after: &'a Machine,
}

/// A part of a line, with what leads it.
pub type Part = fn(&Told) -> String;

/// The parts of a step's line in their order. Tests put wrong ones in the place of the right ones.
#[derive(Clone, Copy)]
pub struct Parts {
    pub first: fn(Kind) -> &'static str,
    pub statement: Part,
    pub place: Part,
    pub value: Part,
    pub refusal: Part,
    pub fields: Part,
    pub deeds: Part,
    pub outputs: Part,
}

impl Parts {
    pub const RIGHT: Parts = Parts {
        first: document,
        statement,
        place: places::place,
        value,
        refusal: refusals::refusal,
        fields: fields::fields,
        deeds: deeds::deeds,
        outputs: deeds::outputs,
    };
}

/// The maker's document of a kind.
pub fn document(kind: Kind) -> &'static str {
    match kind {
        Kind::Aic => {
            "003: Advanced Interrupt Controller (AIC), chapter 27 of a data sheet of AT91 products"
        }
        Kind::Core => "004: Actel, CoreInterrupt, data sheet v2.1",
        Kind::Cic | Kind::Indexed => {
            "001: Texas Instruments, KeyStone Architecture Chip Interrupt Controller (CIC) User Guide, SPRUGW4A"
        }
        Kind::Aintc => {
            "000: Texas Instruments, KeyStone I Architecture ARM CorePac User Guide, SPRUHC4B"
        }
    }
}

/// A step as it is typed: offsets of three digits or more, values of eight, other numbers decimal.
pub fn statement(told: &Told) -> String {
    let privilege = match told.before.kind().tells_privilege() {
        true => format!(" {}", told.recorded.privilege),
        false => String::new(),
    };
    match told.recorded.step {
        Step::Read { offset } => format!("read 0x{offset:03X}{privilege}"),
        Step::Write { offset, value } => format!("write 0x{offset:03X}{privilege} 0x{value:08X}"),
        Step::Line { line, level } => format!("line {line} {level}"),
    }
}

/// What a read that was carried out answered.
pub fn value(told: &Told) -> String {
    match (told.recorded.step, told.answer) {
        (Step::Read { .. }, Ok(value)) => format!(" = 0x{value:08X}"),
        _ => String::new(),
    }
}

/// An explanation as far as it has come.
struct Writer {
    parts: Parts,
    /// The first step and how many, where only a part is wanted.
    window: Option<(u32, u32)>,
    configuration: Vec<u32>,
    before: Option<Machine>,
    text: String,
}

impl Writer {
    /// A statement with its comment, which begins at its column or one space behind the statement.
    fn line(&mut self, statement: &str, comment: &str) {
        let width = COLUMN.max(statement.len() + 1);
        self.text += &format!("{statement:<width$}# {comment}\n");
    }

    fn is_wanted(&self, number: u32) -> bool {
        let within = |(first, steps)| number >= first && number - first < steps;
        self.window.is_none_or(within)
    }
}

impl Observer for Writer {
    fn number(&mut self, field: Field, value: u32, _: usize) {
        if matches!(field, Field::Configuration(..)) {
            self.configuration.push(value);
        }
    }

    fn started(&mut self, machine: &Machine) {
        if self.window.is_none() {
            let kind = machine.kind();
            let mut words = vec![CONTROLLERS[kind as usize].0.to_owned()];
            words.extend(self.configuration.iter().map(u32::to_string));
            self.line(&words.join(" "), (self.parts.first)(kind));
        }
    }

    fn before(&mut self, machine: &Machine, _: Recorded) {
        self.before = Some(machine.clone());
    }

    fn after(&mut self, machine: &Machine, number: u32, recorded: Recorded, answer: Answer) {
        let before = self.before.take().expect("a step begins before it ends");
        if !self.is_wanted(number) {
            return;
        }
        let told = &Told {
            before: &before,
            recorded,
            answer,
            after: machine,
        };
        let it = self.parts;
        let mut comment = number.to_string();
        for part in [
            it.place, it.value, it.refusal, it.fields, it.deeds, it.outputs,
        ] {
            comment += &part(told);
        }
        self.line(&(it.statement)(told), &comment);
    }

    fn ended(&mut self, report: &Report) {
        if let (Err(fault), None) = (report.ending, self.window) {
            let (number, offset) = (fault.refusal.number(), fault.offset);
            let words = refusals::ending(fault.refusal);
            self.text += &format!("# E {number} {offset}: {words}\n");
        }
    }
}

/// One thing to compare: the explanation of a trace, or of some of its steps.
#[derive(Clone, Debug)]
pub struct Asked {
    pub case: Case,
    /// The first step, and how many.
    pub window: Option<(u32, u32)>,
}

impl Asked {
    pub fn text(&self) -> Vec<u8> {
        let (trace, limit) = (&self.case.trace, self.case.limit);
        match self.window {
            None => explain(trace, limit),
            Some((first, steps)) => window(trace, limit, first, steps),
        }
    }

    /// The room that the text gets. Where none is said it is enough for any.
    pub fn ample_room(&self) -> usize {
        let steps = (self.case.trace.len() / 2).min(self.case.limit as usize);
        self.case.room.unwrap_or(LONGEST_LINE * (steps + 2))
    }
}

impl Subject for Asked {
    type Coverage = Coverage;

    fn name(&self) -> &'static str {
        self.case.name
    }

    fn input(&self) -> &[u8] {
        &self.case.trace
    }

    fn room(&self) -> Option<usize> {
        self.case.room
    }

    fn by_model(&self, coverage: &mut Coverage) -> Vec<u8> {
        let text = self.text();
        coverage.see(self, &text);
        text
    }

    fn request(&self) -> Request {
        Request::explanation(self)
    }

    #[cfg(feature = "exports")]
    fn by_library(&self) -> crate::compare::Outcome {
        crate::exports::explained(self)
    }

    fn for_program(self) -> Asked {
        Asked {
            case: self.case.for_program(),
            window: None,
        }
    }

    fn smaller(&self, time: Duration, differs: impl FnMut(&Asked) -> bool) -> Asked {
        let with = |trace| {
            let mut smaller = self.clone();
            smaller.case.trace = trace;
            smaller
        };
        shrink(self, with, time, differs)
    }
}
