//! The house trace: numbers, configurations and steps read from bytes, and their player (01, house trace; 02, 1/12,
//! 2/12 and 6/12).

use crate::model::aic::Aic;
use crate::model::cic::Cic;
use crate::model::core::CoreInterrupt;
use crate::model::indexed::Indexed;
use crate::model::{Answer, Kind, Machine, Recorded, Refusal, Step, PRIVILEGED};

/// The longest trace that is played (01, refusal 11).
pub const LONGEST: usize = 65_536;
/// The step limit of the program (01, house trace).
pub const PROGRAM_LIMIT: u32 = 20_000;
/// A number has at most this many bytes (02, 1/12).
pub const NUMBER_BYTES: usize = 5;

/// Which number of a trace is meant. A configuration number has its place in the configuration, from 0.
#[derive(Clone, Copy, Debug, PartialEq, Eq, PartialOrd, Ord, Hash)]
pub enum Field {
    Kind,
    Configuration(Kind, u8),
    StepKind,
    Offset,
    Privilege,
    Value,
    Line,
    Level,
}

listed! {
    /// What is wrong with a number; 01 gives one refusal for all of them. Bytes and bits are told apart, so that a number
    /// of either sort is refused by that rule alone.
    #[derive(Clone, Copy, Debug, PartialEq, Eq, PartialOrd, Ord, Hash)]
    pub enum Defect {
        /// The trace ends where the number would begin.
        Missing,
        /// The trace ends before the number's last byte.
        Cut,
        /// More than five bytes, of a value that fits 32 bits.
        TooManyBytes,
        /// Worth 2^32 or more, in five bytes.
        TooManyBits,
        /// Worth 2^32 or more, in more than five bytes.
        TooManyOfBoth,
    }
}

/// Why a trace ends before its last byte: the number at fault, by name and by the place of its first byte.
/// Refusals 7 and 11 have a place and no number.
#[derive(Clone, Copy, Debug, PartialEq, Eq)]
pub struct Fault {
    pub refusal: Refusal,
    pub offset: usize,
    pub field: Option<Field>,
    pub defect: Option<Defect>,
}

/// The least and the most that a number may be.
type Limits = (u32, u32);

const ANY: Limits = (0, u32::MAX);

/// The limits of the numbers that configure a kind, in their order (01, house trace; 02, 2/12 and 6/12).
fn limits(kind: Kind) -> &'static [Limits] {
    match kind {
        Kind::Aic => &[ANY, ANY],
        Kind::Core => &[(0, 8), (0, 32), (0, 1), (0, 1)],
        Kind::Cic => &[(1, 1_024), (1, 256), (1, 256), ANY],
        Kind::Aintc => &[],
        Kind::Indexed => &[(1, 1_024), (1, 256), (1, 256), ANY, (0, 1)],
    }
}

/// The bytes of a trace, the place of the next one to read, and who watches.
pub struct Reader<'a, O: Observer> {
    trace: &'a [u8],
    at: usize,
    observer: &'a mut O,
}

impl<'a, O: Observer> Reader<'a, O> {
    pub fn new(trace: &'a [u8], observer: &'a mut O) -> Reader<'a, O> {
        Reader {
            trace,
            at: 0,
            observer,
        }
    }

    pub fn at_end(&self) -> bool {
        self.at == self.trace.len()
    }

    /// The next number, or refusal 8 at its first byte.
    fn number(&mut self, field: Field) -> Result<u32, Fault> {
        let (value, length) = decode(&self.trace[self.at..]).map_err(|defect| Fault {
            defect: Some(defect),
            ..self.fault(Refusal::BadNumber, field)
        })?;
        self.observer.number(field, value, length);
        self.at += length;
        Ok(value)
    }

    /// The next number if it is within its limits, else refusal 10; 8 comes before that.
    fn limited(&mut self, field: Field, (least, most): Limits) -> Result<u32, Fault> {
        let fault = self.fault(Refusal::BadConfiguration, field);
        let value = self.number(field)?;
        let within = (least..=most).contains(&value);
        within.then_some(value).ok_or(fault)
    }

    /// The fault of a number that begins at the present place.
    fn fault(&self, refusal: Refusal, field: Field) -> Fault {
        Fault {
            refusal,
            offset: self.at,
            field: Some(field),
            defect: None,
        }
    }

    /// The controller that the trace asks for. Each number is judged as soon as it is read.
    fn machine(&mut self) -> Result<Machine, Fault> {
        let unknown = self.fault(Refusal::UnknownKind, Field::Kind);
        let kind = self.number(Field::Kind)?;
        let kind = *Kind::ALL.get(kind as usize).ok_or(unknown)?;
        let mut numbers = [0; 5];
        for (place, &limits) in (0..).zip(limits(kind)) {
            let field = Field::Configuration(kind, place);
            numbers[usize::from(place)] = self.limited(field, limits)?;
        }
        let [first, second, third, fourth, fifth] = numbers;
        let cic = || Cic::new(first as usize, second as usize, third as usize, fourth);
        Ok(match kind {
            Kind::Aic => Machine::Aic(Box::new(Aic::new(first, second))),
            Kind::Core => Machine::Core(CoreInterrupt::new(first, second, third == 1, fourth == 1)),
            Kind::Cic => Machine::Cic(Box::new(cic())),
            Kind::Aintc => Machine::Aintc(Box::default()),
            Kind::Indexed => Machine::Indexed(Box::new(Indexed::new(cic(), fifth == 1))),
        })
    }

    /// The next step of a controller; an unknown step kind is refused before anything after it is read.
    fn step(&mut self, kind: Kind) -> Result<Recorded, Fault> {
        let unknown = self.fault(Refusal::UnknownKind, Field::StepKind);
        let mut privilege = PRIVILEGED;
        let step = match self.number(Field::StepKind)? {
            1 => {
                let offset;
                (offset, privilege) = self.offset(kind)?;
                Step::Read { offset }
            }
            2 => {
                let offset;
                (offset, privilege) = self.offset(kind)?;
                let value = self.number(Field::Value)?;
                Step::Write { offset, value }
            }
            3 => {
                let line = self.number(Field::Line)?;
                let level = self.number(Field::Level)?;
                Step::Line { line, level }
            }
            _ => return Err(unknown),
        };
        Ok(Recorded { step, privilege })
    }

    /// An offset, and behind it the privilege number where the kind of controller has one (02, 2/12).
    fn offset(&mut self, kind: Kind) -> Result<(u32, u32), Fault> {
        let offset = self.number(Field::Offset)?;
        let privilege = match kind.tells_privilege() {
            true => self.number(Field::Privilege)?,
            false => PRIVILEGED,
        };
        Ok((offset, privilege))
    }
}

/// A trace in pieces: its beginning with the configuration, each step, and what is left where no step can be read.
pub fn pieces(trace: &[u8]) -> Vec<&[u8]> {
    let watcher = &mut ();
    let mut reader = Reader::new(trace, watcher);
    let mut pieces = Vec::new();
    if let Ok(machine) = reader.machine() {
        pieces.push(&trace[..reader.at]);
        let mut begin = reader.at;
        while !reader.at_end() && reader.step(machine.kind()).is_ok() {
            pieces.push(&trace[begin..reader.at]);
            begin = reader.at;
        }
        pieces.push(&trace[begin..]);
    } else {
        pieces.push(trace);
    }
    pieces.retain(|piece| !piece.is_empty());
    pieces
}

/// The number that the bytes begin with, and how many bytes it takes: any form of up to five bytes whose value fits 32
/// bits (02, 1/12).
pub fn decode(bytes: &[u8]) -> Result<(u32, usize), Defect> {
    let mut value = 0_u64;
    for (place, &byte) in bytes.iter().take(NUMBER_BYTES).enumerate() {
        value |= u64::from(byte & 0x7F) << (7 * place);
        if byte & 0x80 == 0 {
            let value = u32::try_from(value).map_err(|_| Defect::TooManyBits)?;
            return Ok((value, place + 1));
        }
    }
    let fits = u32::try_from(value).is_ok();
    Err(unended(bytes, fits))
}

/// What is wrong with a number whose last byte is not among the first five, the groups of which fit 32 bits or not.
fn unended(bytes: &[u8], fits: bool) -> Defect {
    let is_last = |byte: &u8| byte & 0x80 == 0;
    match bytes.iter().position(is_last) {
        None if bytes.is_empty() => Defect::Missing,
        None => Defect::Cut,
        Some(last) => {
            let further = &bytes[NUMBER_BYTES..=last];
            let nothing_on_top = further.iter().all(|byte| byte & 0x7F == 0);
            match fits && nothing_on_top {
                true => Defect::TooManyBytes,
                false => Defect::TooManyOfBoth,
            }
        }
    }
}

/// Appends a number in so many bytes, with groups of 0 on top, or in as many as it needs.
pub fn encode(value: u32, width: usize, bytes: &mut Vec<u8>) {
    let mut left = value;
    for _ in 1..width.max(shortest(value)) {
        bytes.push((left & 0x7F) as u8 | 0x80);
        left >>= 7;
    }
    bytes.push(left as u8);
}

/// How many bytes a number needs.
pub fn shortest(value: u32) -> usize {
    let needed = |&width: &usize| value >> (7 * width) == 0;
    (1..NUMBER_BYTES).find(needed).unwrap_or(NUMBER_BYTES)
}

/// Somebody who watches a trace being played. Every method may be left out.
pub trait Observer {
    /// A number was read from so many bytes; it may yet be refused for its value.
    fn number(&mut self, _field: Field, _value: u32, _bytes: usize) {}

    /// The configuration was accepted.
    fn started(&mut self, _machine: &Machine) {}

    /// A step was read and is about to be carried out.
    fn before(&mut self, _machine: &Machine, _recorded: Recorded) {}

    /// A step, counted from 1, was carried out or refused.
    fn after(&mut self, _machine: &Machine, _number: u32, _recorded: Recorded, _answer: Answer) {}

    /// The trace is over.
    fn ended(&mut self, _report: &Report) {}
}

/// Nobody watches.
impl Observer for () {}

/// Two watch, one after the other.
impl<A: Observer, B: Observer> Observer for (&mut A, &mut B) {
    fn number(&mut self, field: Field, value: u32, bytes: usize) {
        self.0.number(field, value, bytes);
        self.1.number(field, value, bytes);
    }

    fn started(&mut self, machine: &Machine) {
        self.0.started(machine);
        self.1.started(machine);
    }

    fn before(&mut self, machine: &Machine, recorded: Recorded) {
        self.0.before(machine, recorded);
        self.1.before(machine, recorded);
    }

    fn after(&mut self, machine: &Machine, number: u32, recorded: Recorded, answer: Answer) {
        self.0.after(machine, number, recorded, answer);
        self.1.after(machine, number, recorded, answer);
    }

    fn ended(&mut self, report: &Report) {
        self.0.ended(report);
        self.1.ended(report);
    }
}

/// What the player reports (01, house trace): steps played, refused ones among them, the controller after them
/// (none before a start), and the length of the trace or what ended it early.
#[derive(Clone, Debug, PartialEq, Eq)]
pub struct Report {
    pub steps: u32,
    pub machine: Option<Machine>,
    pub ending: Result<usize, Fault>,
}

/// Plays a trace up to a number of steps.
pub fn play(trace: &[u8], limit: u32, observer: &mut impl Observer) -> Report {
    let mut report = Report {
        steps: 0,
        machine: None,
        ending: Ok(trace.len()),
    };
    report.ending = play_into(&mut report, trace, limit, observer).map(|()| trace.len());
    observer.ended(&report);
    report
}

/// Plays a trace into a report that has seen nothing yet.
fn play_into(
    report: &mut Report,
    trace: &[u8],
    limit: u32,
    observer: &mut impl Observer,
) -> Result<(), Fault> {
    if trace.len() > LONGEST {
        return Err(stopped(Refusal::TraceTooLong, LONGEST));
    }
    let mut reader = Reader::new(trace, observer);
    let machine = report.machine.insert(reader.machine()?);
    reader.observer.started(machine);
    while !reader.at_end() {
        if report.steps == limit {
            return Err(stopped(Refusal::StepLimit, reader.at));
        }
        let recorded = reader.step(machine.kind())?;
        reader.observer.before(machine, recorded);
        let answer = machine.step(recorded);
        report.steps += 1;
        let number = report.steps;
        reader.observer.after(machine, number, recorded, answer);
    }
    Ok(())
}

/// A fault that is about no number.
fn stopped(refusal: Refusal, offset: usize) -> Fault {
    Fault {
        refusal,
        offset,
        field: None,
        defect: None,
    }
}

#[cfg(test)]
mod tests {
    use super::*;
    use crate::listing::listing;

    /// Values at the ends of what one byte to five can say.
    const ENDS: [(u32, usize); 11] = [
        (0, 1),
        (1, 1),
        (0x7F, 1),
        (0x80, 2),
        (0x3FFF, 2),
        (0x4000, 3),
        (0x1F_FFFF, 3),
        (0x20_0000, 4),
        (0x0FFF_FFFF, 4),
        (0x1000_0000, 5),
        (u32::MAX, 5),
    ];

    #[test]
    fn a_number_is_read_as_it_is_written() {
        for (value, needs) in ENDS {
            assert_eq!(shortest(value), needs, "{value:#x}");
            for width in 1..=12 {
                let mut bytes = Vec::new();
                encode(value, width, &mut bytes);
                assert_eq!(bytes.len(), width.max(needs));
                if width > NUMBER_BYTES {
                    assert_eq!(decode(&bytes), Err(Defect::TooManyBytes));
                    assert_eq!(decode(&bytes[..width - 1]), Err(Defect::Cut));
                } else {
                    assert_eq!(decode(&bytes), Ok((value, bytes.len())));
                    bytes.push(0x55);
                    assert_eq!(decode(&bytes), Ok((value, bytes.len() - 1)));
                }
            }
        }
    }

    #[test]
    fn the_pieces_are_the_steps() {
        let trace = [0, 0, 0, 1, 4, 2, 4, 7, 3, 9, 1, 0x81];
        let parts: [&[u8]; 5] = [&[0, 0, 0], &[1, 4], &[2, 4, 7], &[3, 9, 1], &[0x81]];
        assert_eq!(pieces(&trace), parts);
        let trace = [3, 1, 4, 0, 2, 4, 0x82, 0, 7, 3, 9, 1, 1, 4];
        let parts: [&[u8]; 5] = [&[3], &[1, 4, 0], &[2, 4, 0x82, 0, 7], &[3, 9, 1], &[1, 4]];
        assert_eq!(pieces(&trace), parts);
        assert_eq!(pieces(&[9, 9]), [&[9, 9]]);
        assert_eq!(pieces(&[0, 0, 0, 3, 9]).concat(), [0, 0, 0, 3, 9]);
    }

    #[test]
    fn every_defect_is_seen() {
        assert_eq!(decode(&[]), Err(Defect::Missing));
        assert_eq!(decode(&[0x80]), Err(Defect::Cut));
        assert_eq!(decode(&[0xFF; 4]), Err(Defect::Cut));
        assert_eq!(decode(&[0x80; 5]), Err(Defect::Cut));
        assert_eq!(decode(&[0xFF; 9]), Err(Defect::Cut));
        assert_eq!(decode(&[0xFF, 0xFF, 0xFF, 0xFF, 0x00]), Ok((0xFFF_FFFF, 5)));
        assert_eq!(decode(&[0xFF, 0xFF, 0xFF, 0xFF, 0x0F]), Ok((u32::MAX, 5)));
        for top in [0x10, 0x20, 0x40, 0x7F] {
            let bytes = [0xFF, 0xFF, 0xFF, 0xFF, top];
            assert_eq!(decode(&bytes), Err(Defect::TooManyBits));
        }
        let six = |fifth, sixth| decode(&[0x81, 0x80, 0x80, 0x80, fifth, sixth]);
        assert_eq!(six(0x80, 0x00), Err(Defect::TooManyBytes));
        assert_eq!(six(0x8F, 0x00), Err(Defect::TooManyBytes));
        assert_eq!(six(0x90, 0x00), Err(Defect::TooManyOfBoth));
        assert_eq!(six(0x80, 0x01), Err(Defect::TooManyOfBoth));
    }

    /// The number of the ending refusal and its offset, as 01 has the player report them.
    fn ending(trace: &[u8], limit: u32) -> (u32, usize) {
        match play(trace, limit, &mut ()).ending {
            Ok(length) => (0, length),
            Err(fault) => (fault.refusal.number(), fault.offset),
        }
    }

    #[test]
    fn traces_end_as_is_listed() {
        let cases = include_str!("trace/endings.txt").lines();
        let cases = cases.filter(|line| !line.is_empty() && !line.starts_with('#'));
        let mut count = 0;
        for line in cases {
            let cells: Vec<&str> = line.split('|').collect();
            let numbers: Vec<usize> = cells[0].split_whitespace().flat_map(str::parse).collect();
            let [limit, steps, refusal, offset] = numbers[..] else {
                panic!("{line}: four numbers and a trace");
            };
            let trace = crate::hex::parse(cells[1]).expect("a trace is in hex");
            let played = play(&trace, limit as u32, &mut ()).steps;
            let (expected, end) = ((refusal as u32, offset), ending(&trace, limit as u32));
            assert_eq!((played as usize, end), (steps, expected), "{line}");
            if let Some(lines) = cells.get(2) {
                let expected = lines.trim().replace(" / ", "\n") + "\n";
                assert_eq!(listing(&trace, limit as u32), expected.as_bytes(), "{line}");
            }
            count += 1;
        }
        assert_eq!(count, 85);
    }

    #[test]
    fn too_long_a_trace_is_refused_before_all_else() {
        assert_eq!(ending(&[0xFF; LONGEST + 1], 9), (11, LONGEST));
        assert_eq!(ending(&[0xFF; LONGEST + 9], 9), (11, LONGEST));
        assert_eq!(ending(&[0xFF; LONGEST], 9), (8, 0));
    }
}
