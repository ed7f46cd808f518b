//! Carries out the lines of worked cases on the model. What a line comes to is told in words, and so is what is expected.

use bench::bounds::kept::Unkept;
use bench::bounds::waits::{Bound, Bounded, Terms};
use bench::bounds::Records;
use bench::listing::listing;
use bench::model::aic::{Aic, Entry, Selection};
use bench::model::indexed::{Index, Indexed};
use bench::model::{Machine, Recorded, Step};
use bench::report::history::{End, Wait};
use bench::stack::{Row, Table};
use bench::trace::{encode, play, PROGRAM_LIMIT};
use bench::typed::{CONTROLLERS, STEPS};

use super::text::{normal, number_of, values, Line, Names, Text};

/// A controller, and the trace that led to it.
#[derive(Clone)]
struct State {
    machine: Machine,
    trace: Vec<u8>,
}

/// A case that is carried out: the controller, and what was kept of it.
#[derive(Clone)]
pub struct Run<'a> {
    text: &'a Text<'a>,
    now: Option<State>,
    kept: Option<State>,
}

type Words<'w> = &'w [&'w str];
type Carried<T> = Result<T, String>;

const REFUSED: &str = "refused by ";

impl<'a> Run<'a> {
    pub fn new(text: &'a Text<'a>) -> Run<'a> {
        let (now, kept) = (None, None);
        Run { text, now, kept }
    }

    /// Lines in order, and what the last one comes to; what stands below `for` is carried out for each of its values.
    pub fn lines(&mut self, lines: &[Line], names: &Names) -> Carried<String> {
        let Some((line, rest)) = lines.split_first() else {
            return Ok(String::new());
        };
        let told = |why| format!("line {}: {}: {why}", line.number, line.words.join(" "));
        match &line.words[..] {
            ["for", parameters, all @ ..] => {
                for value in values(all, names).map_err(told)? {
                    let named = parameters.split(',').zip(value.split(','));
                    self.clone().lines(rest, &with(names, named))?;
                }
                Ok(String::new())
            }
            ["let", name, value] => self.lines(rest, &with(names, [(*name, *value)])),
            words => {
                let found = self.line(words, names).map_err(told)?;
                match rest.is_empty() {
                    true => Ok(found),
                    false => self.lines(rest, names),
                }
            }
        }
    }

    fn line(&mut self, words: Words, names: &Names) -> Carried<String> {
        if let ["each", name, all, rest @ ..] = words {
            let all: Vec<&str> = all.split(',').collect();
            for value in values(&all, names)? {
                self.line(rest, &with(names, [(*name, value.as_str())]))?;
            }
            return Ok(String::new());
        }
        let marks = (0..words.len()).filter(|&at| ["=", "!", ":"].contains(&words[at]));
        let marks: Vec<usize> = marks.chain([words.len()]).collect();
        let before = self.now.as_ref().map(|state| state.machine.clone());
        let found = self.act(&words[..marks[0]], names)?;
        if found.starts_with(REFUSED) {
            let same = before.as_ref() == Some(self.machine()?);
            if !same || !words.contains(&"!") {
                return Err(format!("{found}, nothing changed: {same}"));
            }
        }
        for pair in marks.windows(2) {
            let wanted = &words[pair[0] + 1..pair[1]];
            self.judge(words[pair[0]], wanted, &found, names)?;
        }
        Ok(found)
    }

    /// What is expected behind a mark, beside what was found.
    fn judge(&self, mark: &str, wanted: Words, found: &str, names: &Names) -> Carried<()> {
        let all = |words: Words| words.iter().map(|word| normal(word, names)).collect();
        let wanted: Vec<String> = all(wanted);
        let found: Vec<String> = match mark {
            "=" => all(&found.split(' ').collect::<Vec<_>>()),
            "!" => vec![found.strip_prefix(REFUSED).unwrap_or("taken").to_owned()],
            _ => self
                .machine()?
                .shown()
                .map(|number| number.to_string())
                .into(),
        };
        let fits = |(found, wanted): (&String, &String)| found == wanted || wanted == "_";
        match found.len() == wanted.len() && found.iter().zip(&wanted).all(fits) {
            true => Ok(()),
            false => Err(format!("found {}", found.join(" "))),
        }
    }

    fn machine(&self) -> Carried<&Machine> {
        let state = self.now.as_ref().ok_or("no controller was started")?;
        Ok(&state.machine)
    }

    /// What a line asks for: a controller, a step, a word of the text, or something to be told.
    fn act(&mut self, asked: Words, names: &Names) -> Carried<String> {
        let Some((verb, rest)) = asked.split_first() else {
            return Ok(String::new());
        };
        let verb = names.get(*verb).map_or(*verb, String::as_str);
        if let Some(word) = self.text.word(verb) {
            let given: Vec<String> = rest.iter().map(|word| normal(word, names)).collect();
            let named = word.head[2..].iter().copied();
            let named = named.zip(given.iter().map(String::as_str));
            return self.lines(&word.lines, &with(names, named));
        }
        let is_step = STEPS.iter().any(|(name, ..)| *name == verb);
        match verb {
            _ if CONTROLLERS.iter().any(|(name, _)| *name == verb) => self.start(verb, rest, names),
            _ if is_step => self.step(verb, rest, names),
            "keep" => {
                self.kept = self.now.clone();
                Ok(String::new())
            }
            "back" => {
                self.now = self.kept.clone();
                Ok(String::new())
            }
            "same" | "alike" | "forget" => self.beside(verb, rest, names),
            "lists" => listed(rest),
            _ => self.told(verb, &numbers(rest, names)?),
        }
    }

    fn start(&mut self, name: &str, words: Words, names: &Names) -> Carried<String> {
        let kind = CONTROLLERS.iter().position(|(other, _)| *other == name);
        let mut trace = Vec::new();
        for number in [kind.map_or(0, |kind| kind as u32)]
            .into_iter()
            .chain(numbers(words, names)?)
        {
            encode(number, 1, &mut trace);
        }
        let machine = play(&trace, 0, &mut ()).machine;
        let machine = machine.ok_or("it cannot be configured so")?;
        self.now = Some(State { machine, trace });
        Ok(String::new())
    }

    /// A step by the privilege behind `by`, or privileged; the value that was read, or the refusal.
    fn step(&mut self, verb: &str, words: Words, names: &Names) -> Carried<String> {
        let (words, by) = match words {
            [words @ .., "by", by] => (words, *by),
            words => (words, "1"),
        };
        let privilege = number_of(by, names)?;
        let state = self.now.as_mut().ok_or("no controller was started")?;
        let told = state.machine.kind().tells_privilege().then_some(privilege);
        let numbers = numbers(words, names)?;
        let (step, told) = match (verb, &numbers[..]) {
            ("read", &[offset]) => (Step::Read { offset }, [Some(1), Some(offset), told, None]),
            ("write", &[offset, value]) => {
                let told = [Some(2), Some(offset), told, Some(value)];
                (Step::Write { offset, value }, told)
            }
            ("line", &[line, level]) => (
                Step::Line { line, level },
                [Some(3), Some(line), Some(level), None],
            ),
            _ => return Err("a step has other numbers".to_owned()),
        };
        for number in told.into_iter().flatten() {
            encode(number, 1, &mut state.trace);
        }
        match state.machine.step(Recorded { step, privilege }) {
            Ok(value) if verb != "read" && value != 0 => Err(format!("it answered {value}")),
            Ok(value) => Ok(value.to_string()),
            Err(refusal) => Ok(format!("{REFUSED}{}", refusal.number())),
        }
    }

    /// The controller beside what was kept of it: the same, or read alike; or one that forgets.
    fn beside(&mut self, verb: &str, words: Words, names: &Names) -> Carried<String> {
        let kept = self.kept.as_mut().ok_or("nothing was kept")?;
        let now = self.now.as_mut().ok_or("no controller was started")?;
        let [now, kept] = [now, kept].map(|state| &mut state.machine);
        let same = match (verb, now) {
            ("forget", Machine::Aic(aic)) => {
                aic.remember_instead(None);
                true
            }
            ("alike", now) => {
                let offset = numbers(words, names)?[0];
                let (step, privilege) = (Step::Read { offset }, 1);
                let read = |machine: &mut Machine| machine.step(Recorded { step, privilege });
                read(now) == read(kept) && now.shown() == kept.shown()
            }
            (_, now) => now == kept,
        };
        match same {
            true => Ok(String::new()),
            false => Err("it is not as it was kept".to_owned()),
        }
    }

    /// What a question is told, by the controller or by the trace that led to it.
    fn told(&self, verb: &str, numbers: &[u32]) -> Carried<String> {
        let of_machine = match self.machine()? {
            Machine::Aic(aic) => of_aic(aic, verb, numbers),
            Machine::Indexed(indexed) => of_indexed(indexed, verb, numbers),
            Machine::Core(core) if verb == "levels" => {
                Some(bits([core.irq.output_level(), core.fiq.output_level()]))
            }
            _ => None,
        };
        let state = self.now.as_ref().ok_or("no controller was started")?;
        let of_trace = || of_trace(&state.trace, verb, numbers);
        let told = of_machine.or_else(of_trace);
        told.ok_or_else(|| format!("{verb:?} is no word"))
    }
}

fn numbers(words: Words, names: &Names) -> Carried<Vec<u32>> {
    words.iter().map(|word| number_of(word, names)).collect()
}

fn with<'w>(names: &Names, more: impl IntoIterator<Item = (&'w str, &'w str)>) -> Names {
    let more = more.into_iter();
    let more = more.map(|(name, value)| (name.to_owned(), normal(value, names)));
    names.clone().into_iter().chain(more).collect()
}

fn bits(bits: [bool; 2]) -> String {
    bits.map(|bit| u32::from(bit).to_string()).join(" ")
}

/// Words one behind the other, or a word for none.
fn all(told: impl Iterator<Item = String>, none: &str) -> String {
    match told.collect::<Vec<_>>() {
        told if told.is_empty() => none.to_owned(),
        told => told.join(" "),
    }
}

fn or_none(number: Option<u32>) -> String {
    number.map_or("none".to_owned(), |number| number.to_string())
}

/// The lines of the listing of a trace in hexadecimal bytes, with ` /` behind each.
fn listed(bytes: Words) -> Carried<String> {
    let bytes = bytes.iter().map(|byte| u8::from_str_radix(byte, 16));
    let bytes: Result<Vec<u8>, _> = bytes.collect();
    let bytes = bytes.map_err(|_| "a byte has two hexadecimal digits")?;
    let text = String::from_utf8(listing(&bytes, PROGRAM_LIMIT)).map_err(|why| why.to_string())?;
    Ok(text.replace('\n', " / ").trim_end().to_owned())
}

fn of_aic(aic: &Aic, verb: &str, numbers: &[u32]) -> Option<String> {
    Some(match verb {
        "entries" => all(aic.entries().iter().map(entry), "none"),
        "entry" => aic.entries().last().map_or("none".to_owned(), entry),
        "mode" => bits([aic.protected(), aic.masked()]),
        "memory" => {
            let source = *numbers.first()? as usize;
            u32::from(aic.sources()[source].memory).to_string()
        }
        "remembers" => match aic.remembered() {
            None => "nothing".to_owned(),
            Some(Selection::Nobody) => "nobody".to_owned(),
            Some(Selection::Source {
                number,
                vector,
                level,
            }) => format!("{number}@{level}@{vector}"),
        },
        _ => return None,
    })
}

/// A handler as its source and level, a mark as `mark` with its level if it has one.
fn entry(entry: &Entry) -> String {
    let source = entry
        .source
        .map_or("mark".to_owned(), |source| source.to_string());
    let level = entry
        .level
        .map_or(String::new(), |level| format!("@{level}"));
    source + &level
}

fn of_indexed(indexed: &Indexed, verb: &str, numbers: &[u32]) -> Option<String> {
    let index = |offset: u32| match offset {
        0x80 => Index::Global,
        _ => Index::Host((offset - 0x900) as usize / 4),
    };
    let held = |&offset: &u32| {
        let held = indexed.held(index(offset));
        held.map_or("nothing".to_owned(), |word| word.to_string())
    };
    Some(match verb {
        "held" => all(numbers.iter().map(held), "none"),
        "hold" => u32::from(indexed.hold()).to_string(),
        "looks" => indexed.looked(*numbers.first()?).to_string(),
        _ => return None,
    })
}

/// What is told of a trace and of a source, or of a table: its forced sources, then number, priority and type of others.
fn of_trace(trace: &[u8], verb: &str, numbers: &[u32]) -> Option<String> {
    let records = Records::of(trace, PROGRAM_LIMIT);
    let (&first, more) = numbers.split_first()?;
    let source = first as usize;
    Some(match verb {
        "counts" => {
            let counts = records.history.counts(source);
            let [started, waited, entries] = [counts.started, counts.waited, counts.entries];
            format!("started {started} waited {waited} entries {entries}")
        }
        "breaks" => {
            let mut table = Table {
                forced: first,
                ..Table::default()
            };
            for row in more.chunks(3) {
                let [priority, kind, frame] = [row[1], row[2], 0];
                table.rows[row[0] as usize] = Row {
                    priority,
                    kind,
                    frame,
                };
            }
            let told = |it: Unkept| format!("by {} source {}", it.step, it.source);
            records.unkept(&table).map_or("nowhere".to_owned(), told)
        }
        "waits" => all(records.history.waits(source).iter().map(wait), "none"),
        "bounds" => all(records.waits(source).iter().map(bounded), "none"),
        "summary" => {
            let it = records.summary(source);
            let [waits, unended, unbounded] = [it.waits, it.unended, it.unbounded];
            let (first, most) = (or_none(it.first_unbounded), it.most.map(terms));
            let most = most.unwrap_or(" none".to_owned());
            let waits = format!("waits {waits} unended {unended} unbounded {unbounded}");
            format!("{waits} first {first} seen {} most{most}", it.seen)
        }
        _ => return None,
    })
}

fn wait(wait: &Wait) -> String {
    let end = match wait.end {
        End::Started => "started",
        End::Over => "over",
        End::Never => "never",
    };
    format!("from {} to {} {end}", wait.from, wait.to)
}

/// A wait with its bound; terms that are 0 are not told.
fn bounded(wait: &Bounded) -> String {
    let (began, ended, started) = (wait.began, or_none(wait.ended), wait.started);
    let bound = match wait.bound {
        Bound::Terms(all) => terms(all),
        Bound::Rewritten(step) => format!(" rewritten {step}"),
    };
    format!("from {began} to {ended} started {started}{bound}")
}

fn terms(terms: Terms) -> String {
    let names = "pending edges commands turns closed-active remembered".split(' ');
    let each = names.zip(terms.each()).filter(|(_, count)| *count > 0);
    each.map(|(name, count)| format!(" {name} {count}"))
        .collect()
}
