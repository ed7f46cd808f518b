//! The player and the listing once more, tuned by hand for the clock: state in words that hold a bit for each source,
//! outputs kept up to date, numbers of one and two bytes first, a line of text under one test for room. In safe Rust.
//!
//! It is no second opinion: the model is what the documents are read into, and every byte here has to be the model's.

#![forbid(unsafe_code)]

mod aic;
mod aintc;
mod cic;
mod core;
mod indexed;
mod reader;
mod text;

use self::aic::Aic;
use self::aintc::Aintc;
use self::cic::{Cic, Kept};
use self::core::CoreInterrupt;
use self::indexed::Indexed;
use self::reader::{Fault, Reader};
use self::text::{Line, Text};
use crate::model::{Answer, Kind, Refusal, PRIVILEGED};
use crate::trace::LONGEST;

/// What a write or a line step answers.
type Done = Result<(), Refusal>;

/// What a play comes to.
#[derive(Clone, Copy, Debug, Default, PartialEq, Eq)]
pub struct Played {
    /// Steps played, refused ones among them.
    pub steps: u32,
    /// The number of the refusal that ended the play; 0 where it went to the end.
    pub refusal: u32,
    /// The offset of that refusal, or the length of the trace.
    pub offset: usize,
    /// All answers together, so that none goes unused: see [`added`].
    pub answers: u64,
    /// Made from all that the controller holds at the end; 0 before a start.
    pub state: u64,
}

/// Adds an answer to those before it; a refusal is apart from every value.
pub fn added(answers: u64, answer: Answer) -> u64 {
    let answer = match answer {
        Ok(value) => u64::from(value),
        Err(refusal) => u64::from(refusal.number()) << 32,
    };
    answers.wrapping_add(answer)
}

/// Plays a trace up to a number of steps, with no text.
pub fn play(trace: &[u8], limit: u32) -> Played {
    let mut answers = Answers(0);
    let mut played = run(trace, limit, &mut answers);
    played.answers = answers.0;
    played
}

/// Writes the listing of a trace to the start of the room and answers how many bytes; what finds no room is dropped.
pub fn list(trace: &[u8], limit: u32, out: &mut [u8]) -> usize {
    let mut text = Text::new(out);
    let played = run(trace, limit, &mut text);
    text.ended(played.refusal, played.offset);
    text.written()
}

/// A controller as the loop sees it. Each access is found, judged and carried out under one look at its offset.
trait Device {
    const KIND: Kind;

    fn read(&mut self, offset: u32, privilege: u32) -> Answer;

    fn write(&mut self, offset: u32, value: u32, privilege: u32) -> Done;

    fn move_line(&mut self, line: u32, level: u32) -> Done;

    /// Writes the three numbers that end a line of the listing and the line's end, exactly; answers where it stops.
    fn show(&self, line: &mut Line, at: usize) -> usize;

    /// Something that depends on every word of the state.
    fn digest(&self) -> u64;
}

/// Who is told of the steps.
trait Sink {
    /// What a CIC keeps for the outputs that are told.
    type Outputs: Kept;

    fn started(&mut self, kind: Kind);

    /// A step was carried out, with its letter in the listing and the value read.
    fn done<D: Device>(&mut self, device: &D, letter: u8, value: u32);

    fn refused<D: Device>(&mut self, device: &D, refusal: Refusal);
}

/// The sum of all answers.
struct Answers(u64);

impl Sink for Answers {
    type Outputs = ();

    fn started(&mut self, _: Kind) {}

    #[inline(always)]
    fn done<D: Device>(&mut self, _: &D, _: u8, value: u32) {
        self.0 = added(self.0, Ok(value));
    }

    #[inline(always)]
    fn refused<D: Device>(&mut self, _: &D, refusal: Refusal) {
        self.0 = added(self.0, Err(refusal));
    }
}

/// Plays into a sink.
fn run(trace: &[u8], limit: u32, sink: &mut impl Sink) -> Played {
    let mut played = Played::default();
    let ending = started(&mut played, trace, limit, sink);
    (played.refusal, played.offset) = match ending {
        Ok(()) => (0, trace.len()),
        Err(fault) => (fault.refusal.number(), fault.offset),
    };
    played
}

/// Reads the configuration, judging each number as it is read, and plays on the controller it asks for.
fn started<S: Sink>(
    played: &mut Played,
    trace: &[u8],
    limit: u32,
    sink: &mut S,
) -> Result<(), Fault> {
    if trace.len() > LONGEST {
        return Err(Fault::new(Refusal::TraceTooLong, LONGEST));
    }
    let mut reader = Reader::new(trace);
    match reader.number()? {
        0 => steps(Aic::read_from(&mut reader)?, played, reader, limit, sink),
        1 => {
            let core = CoreInterrupt::read_from(&mut reader)?;
            steps(core, played, reader, limit, sink)
        }
        2 => {
            let cic = Cic::<S::Outputs>::read_from(&mut reader)?;
            steps(cic, played, reader, limit, sink)
        }
        3 => steps(Aintc::new(), played, reader, limit, sink),
        4 => {
            let indexed = Indexed::<S::Outputs>::read_from(&mut reader)?;
            steps(indexed, played, reader, limit, sink)
        }
        _ => Err(Fault::new(Refusal::UnknownKind, 0)),
    }
}

/// Plays the steps on a controller; it is one loop for each kind of controller and sink.
fn steps<D: Device>(
    mut device: D,
    played: &mut Played,
    mut reader: Reader,
    limit: u32,
    sink: &mut impl Sink,
) -> Result<(), Fault> {
    sink.started(D::KIND);
    let mut steps = 0;
    let ending = loop {
        if reader.at_end() {
            break Ok(());
        }
        if steps == limit {
            break Err(Fault::new(Refusal::StepLimit, reader.at()));
        }
        if let Err(fault) = step(&mut device, &mut reader, sink) {
            break Err(fault);
        }
        steps += 1;
    };
    played.steps = steps;
    played.state = device.digest();
    ending
}

/// Reads a step and carries it out. Inlined, so that nothing of it goes through memory.
#[inline(always)]
fn step<D: Device>(device: &mut D, reader: &mut Reader, sink: &mut impl Sink) -> Result<(), Fault> {
    let unknown = Fault::new(Refusal::UnknownKind, reader.at());
    match reader.number()? {
        1 => {
            let offset = reader.number()?;
            let privilege = privilege::<D>(reader)?;
            match device.read(offset, privilege) {
                Ok(value) => sink.done(device, b'R', value),
                Err(refusal) => sink.refused(device, refusal),
            }
        }
        2 => {
            let offset = reader.number()?;
            let privilege = privilege::<D>(reader)?;
            let value = reader.number()?;
            match device.write(offset, value, privilege) {
                Ok(()) => sink.done(device, b'W', 0),
                Err(refusal) => sink.refused(device, refusal),
            }
        }
        3 => {
            let line = reader.number()?;
            let level = reader.number()?;
            match device.move_line(line, level) {
                Ok(()) => sink.done(device, b'L', 0),
                Err(refusal) => sink.refused(device, refusal),
            }
        }
        _ => return Err(unknown),
    }
    Ok(())
}

/// The privilege number, where the kind of controller has one.
#[inline(always)]
fn privilege<D: Device>(reader: &mut Reader) -> Result<u32, Fault> {
    match D::KIND.tells_privilege() {
        true => reader.number(),
        false => Ok(PRIVILEGED),
    }
}

/// Why there is nothing to be done at an offset that is no register's: it is misaligned, or there is none.
#[cold]
fn nothing_at(offset: u32) -> Refusal {
    match offset % 4 {
        0 => Refusal::NoRegister,
        _ => Refusal::Misaligned,
    }
}

/// Mixes words into one that depends on each and on their order.
fn mixed(words: impl IntoIterator<Item = u64>) -> u64 {
    words.into_iter().fold(0, |mix: u64, word| {
        (mix.rotate_left(23) ^ word).wrapping_mul(0x9E37_79B9_7F4A_7C15)
    })
}
