//! The lines of a transcript: numbers are decimal with no zero in front, words are apart by one space, every line ends.

use std::fmt;

use super::{Call, Reply, Sort};
use crate::model::board::Wire;
use crate::model::core::Side;

/// How many answers a record that breaks a rule has: one for each sort of call.
pub const UNSOUND_ANSWERS: usize = Sort::ALL.len();

/// A line that could be read.
#[derive(Clone, Debug, PartialEq, Eq)]
pub enum Line<'a> {
    /// A new board with no controller, by its title.
    Board(&'a str),
    Call(Call, Reply),
    /// What the calls answered on a record that breaks a rule, which is told by its title.
    Unsound(&'a str, [u32; UNSOUND_ANSWERS]),
}

/// The lines of a transcript in order, each as far as it can be read.
pub fn lines(transcript: &str) -> impl Iterator<Item = Result<Line<'_>, String>> {
    transcript
        .split_inclusive('\n')
        .map(|line| match line.strip_suffix('\n') {
            Some(whole) => read(whole).ok_or_else(|| format!("it cannot be read: {whole:?}")),
            None => Err(format!("it has no end: {line:?}")),
        })
}

/// One line without its end.
pub fn read(line: &str) -> Option<Line<'_>> {
    if let Some(title) = line.strip_prefix("board ") {
        return (!title.is_empty()).then_some(Line::Board(title));
    }
    if let Some(rest) = line.strip_prefix("unsound ") {
        let (title, answers) = rest.rsplit_once(": ")?;
        let answers = numbers(&words(answers))?;
        return (!title.is_empty()).then_some(Line::Unsound(title, answers));
    }
    let (asked, answered) = line.split_once(": ")?;
    let call = call(asked)?;
    let reply = reply(call.sort(), &words(answered))?;
    Some(Line::Call(call, reply))
}

fn words(text: &str) -> Vec<&str> {
    text.split(' ').collect()
}

/// A number in the one form that it has.
fn number(word: &str) -> Option<u32> {
    let number: u32 = word.parse().ok()?;
    (number.to_string() == word).then_some(number)
}

/// Just so many numbers.
fn numbers<const COUNT: usize>(words: &[&str]) -> Option<[u32; COUNT]> {
    let read: Option<Vec<u32>> = words.iter().map(|word| number(word)).collect();
    read?.try_into().ok()
}

/// A call as it stands in a transcript.
pub fn call(text: &str) -> Option<Call> {
    let words = words(text);
    let (word, mut rest) = words.split_first()?;
    let sort = Sort::ALL.into_iter().find(|sort| sort.word() == *word)?;
    let call = Call::made(sort, &mut rest)?;
    rest.is_empty().then_some(call)
}

/// What a call is told by: a number, or a wire.
pub(super) trait Told: Sized {
    /// Takes it from the words that are left.
    fn taken(words: &mut &[&str]) -> Option<Self>;

    fn told(&self) -> String;
}

impl Told for u32 {
    fn taken(words: &mut &[&str]) -> Option<u32> {
        let (word, rest) = words.split_first()?;
        *words = rest;
        number(word)
    }

    fn told(&self) -> String {
        self.to_string()
    }
}

impl Told for Wire {
    fn taken(words: &mut &[&str]) -> Option<Wire> {
        let (&word, rest) = words.split_first()?;
        *words = rest;
        match word {
            "nothing" => Some(Wire::Nothing),
            "pin" => u32::taken(words).map(Wire::Pin),
            "irq" => u32::taken(words).map(|other| Wire::Output(Side::Irq, other)),
            "fiq" => u32::taken(words).map(|other| Wire::Output(Side::Fiq, other)),
            _ => None,
        }
    }

    fn told(&self) -> String {
        match self {
            Wire::Nothing => "nothing".to_owned(),
            Wire::Pin(pin) => format!("pin {pin}"),
            Wire::Output(Side::Irq, other) => format!("irq {other}"),
            Wire::Output(Side::Fiq, other) => format!("fiq {other}"),
        }
    }
}

/// The answer to a call of a sort: a chain tells what it counts.
fn reply(sort: Sort, words: &[&str]) -> Option<Reply> {
    let words = match sort {
        Sort::Chain => words.strip_suffix(&["controllers"])?,
        _ => words,
    };
    let read: Option<Vec<u32>> = words.iter().map(|word| number(word)).collect();
    let (&refusal, values) = read.as_deref()?.split_first()?;
    (values.len() == sort.values()).then(|| Reply {
        refusal,
        values: values.to_vec(),
    })
}

impl fmt::Display for Call {
    fn fmt(&self, to: &mut fmt::Formatter<'_>) -> fmt::Result {
        write!(to, "{} {}", self.sort().word(), self.told().join(" "))
    }
}

/// An answer as it stands behind its call.
fn answered(sort: Sort, reply: &Reply) -> String {
    let numbers = std::iter::once(reply.refusal).chain(reply.values.iter().copied());
    let mut words: Vec<String> = numbers.map(|number| number.to_string()).collect();
    if sort == Sort::Chain {
        words.push("controllers".to_owned());
    }
    words.join(" ")
}

/// The line of a call and its answer, with its end.
pub fn line(call: &Call, reply: &Reply) -> String {
    format!("{call}: {}\n", answered(call.sort(), reply))
}

/// What is said of a call that was answered otherwise than the model does.
pub fn difference(call: &Call, other: &Reply, right: &Reply) -> String {
    let [other, right] = [other, right].map(|reply| answered(call.sort(), reply));
    format!("{call}: answered {other}, and by the model {right}")
}

#[cfg(test)]
mod tests {
    use super::*;

    /// A line of each form.
    const READABLE: [&str; 14] = [
        "board nothing but a pin: two controllers",
        "add 8 32 0 1: 0 0",
        "connect 1 39 nothing: 0",
        "connect 1 0 pin 319: 0",
        "connect 1 31 irq 0: 0",
        "connect 1 32 fiq 1: 15",
        "pin 320 1: 6",
        "write 7 8 4294967295: 0",
        "read 0 44: 0 2147483648",
        "outputs 0: 0 1 0 1 1",
        "input 0 40: 6 0",
        "chain 1: 0 1 controllers",
        "chain 9: 6 0 controllers",
        "unsound a pin at level 2: 12 12 12 12 12 12 12 12",
    ];

    #[test]
    fn a_line_of_each_form_is_read_and_written_back() {
        for text in READABLE {
            match read(text) {
                Some(Line::Call(call, reply)) => {
                    assert_eq!(line(&call, &reply), format!("{text}\n"))
                }
                Some(Line::Board(title)) => assert_eq!(format!("board {title}"), text),
                Some(Line::Unsound(title, numbers)) => {
                    assert_eq!((title, numbers), ("a pin at level 2", [12; 8]));
                }
                None => panic!("{text:?} is not read"),
            }
        }
    }

    #[test]
    fn a_spoiled_line_is_not_read() {
        for text in [
            "",
            " ",
            "board",
            "board ",
            "Board x",
            "add 8 32 0 1:0 0",
            "add 8 32 0 1 0 0",
            "add 8 32 0: 0 0",
            "add 8 32 0 1: 0",
            "add 8 32 0 1: 0 0 0",
            "add 8 32 0 1: 0  0",
            "add 8 32 0 1: 0 0 ",
            " add 8 32 0 1: 0 0",
            "add 8 032 0 1: 0 0",
            "add 8 +2 0 1: 0 0",
            "add 8 0x2 0 1: 0 0",
            "add 8 -1 0 1: 0 0",
            "write 0 8 4294967296: 0",
            "connect 1 0: 0",
            "connect 1 0 pin: 0",
            "connect 1 0 nothing 3: 0",
            "connect 1 0 IRQ 3: 0",
            "connect 1: 0",
            "pin 3 1: 0 0",
            "read 0 44: 0",
            "outputs 0: 0 1 0 1",
            "outputs 0: 0 1 0 1 1\r",
            "chain 1: 0 1",
            "chain 1: 0 1 controller",
            "chain 1: 0 controllers",
            "unsound : 12 12 12 12 12 12 12 12",
            "unsound x: 12 12 12 12 12 12 12",
            "unsound x: 12 12 12 12 12 12 12 12 12",
            "unsound x 12 12 12 12 12 12 12 12",
            "remove 1: 0",
        ] {
            assert_eq!(read(text), None, "{text:?} is read");
        }
    }

    #[test]
    fn a_line_has_an_end() {
        let read: Vec<_> = lines("pin 3 1: 0\npin 3 0: 0").collect();
        assert!(read[0].is_ok());
        assert!(read[1].is_err());
    }
}
