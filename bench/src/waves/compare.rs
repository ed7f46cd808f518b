//! A dump against the model: what it declares, and every signal at every tick.

use std::collections::BTreeMap;

use super::reader::{read, Bits, Declared, Dump, Event, Value, Variable};
use super::{code, Signal, Waves, TICKS};
use crate::model::Kind;

/// How much was compared.
#[derive(Clone, Copy, Debug, Default, PartialEq, Eq)]
pub struct Compared {
    pub ticks: usize,
    /// Signals declared.
    pub signals: usize,
    /// Values of signals, one for each at each tick.
    pub values: usize,
    /// Changes printed.
    pub changes: usize,
}

/// Reads a dump and compares it with the waves of the model, its form first and then every value; or says the first thing
/// that differs.
pub fn compare(text: &[u8], waves: &Waves) -> Result<Compared, String> {
    let dump = read(text)?;
    declarations(&dump, waves.kind)?;
    form(&dump, waves)?;
    values(&dump, waves)
}

/// The same for a dump that another program wrote of the first: by name each signal is worth the same at every tick,
/// however it is written, in whatever order, with which codes, and with what else beside it.
pub fn meaning(text: &[u8], waves: &Waves) -> Result<Compared, String> {
    values(&read(text)?, waves)
}

fn values(dump: &Dump, waves: &Waves) -> Result<Compared, String> {
    let signals = waves.signals();
    let codes = signals.iter().map(|signal| code_of(dump, signal));
    let codes: Option<Vec<&str>> = codes.collect();
    let codes = codes.ok_or("the signals are not each declared once")?;
    let mut now: Vec<Option<u32>> = vec![None; signals.len()];
    let mut compared = Compared {
        signals: signals.len(),
        ..Compared::default()
    };
    for event in &dump.events {
        match event {
            Event::Time(time) => hold(&now, *time as usize, waves, &mut compared)?,
            Event::Change { code, value } => {
                let nth = codes.iter().position(|other| other == code);
                let nth = nth.ok_or_else(|| format!("no signal has the code {code:?}"))?;
                now[nth] = Some(number(value, &signals[nth])?);
                compared.changes += 1;
            }
            _ => {}
        }
    }
    hold(&now, waves.ticks.len(), waves, &mut compared)?;
    Ok(compared)
}

/// The number that a value of a signal is.
fn number(value: &Value, signal: &Signal) -> Result<u32, String> {
    match value.bits(signal.width) {
        Some(Bits::Known(number)) => Ok(number as u32),
        bits => Err(format!("{} is {value:?}, {bits:?}", signal.name)),
    }
}

/// The code of the one variable that has the name and the width of a signal.
fn code_of<'a>(dump: &Dump<'a>, signal: &Signal) -> Option<&'a str> {
    let mut same = dump.declared.iter().filter_map(|declared| match declared {
        Declared::Variable(Variable {
            width, code, name, ..
        }) if *width == signal.width && plain_name(name) == signal.name => Some(*code),
        _ => None,
    });
    same.next().filter(|_| same.next().is_none())
}

/// A name without the range that some programs put behind it.
fn plain_name(name: &str) -> &str {
    name.split('[').next().unwrap_or(name)
}

/// Values that hold up to a tick are those of every tick before it that was not compared yet.
fn hold(
    now: &[Option<u32>],
    until: usize,
    waves: &Waves,
    compared: &mut Compared,
) -> Result<(), String> {
    while compared.ticks < until {
        let tick = compared.ticks;
        let expected = waves.ticks.get(tick).ok_or("there are too many ticks")?;
        if let Some(nth) = (0..now.len()).find(|&nth| now[nth] != Some(expected[nth])) {
            let (name, now, expected) = (waves.signals()[nth].name, now[nth], expected[nth]);
            return Err(format!(
                "tick {tick}: {name} is {now:?}, expected {expected}"
            ));
        }
        compared.ticks += 1;
        compared.values += now.len();
    }
    Ok(())
}

/// The declarations are those of the kind, in their order, and nothing else.
fn declarations(dump: &Dump, kind: Option<Kind>) -> Result<(), String> {
    let signals = kind.map_or(Vec::new(), super::signals::signals);
    let codes: Vec<String> = (0..signals.len()).map(|n| code(n).to_string()).collect();
    let mut expected = vec![
        Declared::Comment(TICKS.split(' ').collect()),
        Declared::Timescale("1ns".to_string()),
    ];
    if let Some(kind) = kind {
        let (sort, name) = ("module", kind.name());
        expected.push(Declared::Scope { sort, name });
        for (signal, code) in signals.iter().zip(&codes) {
            expected.push(Declared::Variable(Variable {
                sort: "wire",
                width: signal.width,
                code,
                name: signal.name.to_string(),
            }));
        }
        expected.push(Declared::Upscope);
    }
    match dump.declared == expected {
        true => Ok(()),
        false => Err(format!(
            "declared {:?}, expected {expected:?}",
            dump.declared
        )),
    }
}

/// The ticks are all there, from 0 on; the values of the first one stand in `$dumpvars`, and behind it only changes, each
/// once a tick and in the plain form of its signal; a comment ends the dump where the trace ended early.
fn form(dump: &Dump, waves: &Waves) -> Result<(), String> {
    let mut form = Form::default();
    let mut events = dump.events.as_slice();
    let mut ending = None;
    if let Some((Event::Comment(words), before)) = events.split_last() {
        ending = Some(words.join(" "));
        events = before;
    }
    let due = waves.ending;
    let due = due.map(|(refusal, offset)| format!("E {refusal} {offset}"));
    if ending != due {
        return Err(format!("ends by {ending:?}, expected {due:?}"));
    }
    let signals = waves.signals();
    for event in events {
        let tick = form.ticks;
        form.take(event, &signals)
            .map_err(|why| format!("behind {tick} ticks: {why}"))?;
    }
    let (ticks, due) = (form.ticks, waves.ticks.len());
    match ticks == due && (ticks == 0 || form.dumped) {
        true => Ok(()),
        false => Err(format!("{ticks} ticks, expected {due}, or no $dumpvars")),
    }
}

/// What was read of a dump, as far as its form goes.
#[derive(Default)]
struct Form<'a> {
    /// The ticks that have begun.
    ticks: usize,
    dumping: bool,
    dumped: bool,
    /// The last value of each code, and behind how many ticks it was given.
    last: BTreeMap<&'a str, (u32, usize)>,
}

impl<'a> Form<'a> {
    fn take(&mut self, event: &Event<'a>, signals: &[Signal]) -> Result<(), String> {
        match event {
            Event::Time(time) if *time == self.ticks as u64 => self.ticks += 1,
            Event::Dump("$dumpvars") if self.ticks == 1 && self.last.is_empty() && !self.dumped => {
                (self.dumping, self.dumped) = (true, true);
            }
            Event::EndOfDump => self.dumping = false,
            Event::Change { code, value } => self.change(code, value, signals)?,
            other => return Err(format!("{other:?} is not due")),
        }
        Ok(())
    }

    fn change(&mut self, code: &'a str, value: &Value, signals: &[Signal]) -> Result<(), String> {
        let mut codes = (0..signals.len()).map(super::code);
        let nth = codes.position(|signal| code.chars().eq([signal]));
        let signal = &signals[nth.ok_or_else(|| format!("no signal has the code {code:?}"))?];
        let number = number(value, signal)?;
        let digits = format!("{number:b}");
        let plain = match signal.width {
            1 => Value::Scalar(&digits),
            _ => Value::Vector(&digits),
        };
        let placed = self.ticks > 0 && (self.ticks == 1) == self.dumping;
        let before = self.last.insert(code, (number, self.ticks));
        let is_new = before.is_none_or(|(same, given)| same != number && given != self.ticks);
        match placed && is_new && *value == plain {
            true => Ok(()),
            false => Err(format!("{} is given as {value:?}, or here", signal.name)),
        }
    }
}
