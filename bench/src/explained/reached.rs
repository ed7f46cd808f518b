//! What the compared explanations have reached, found by reading the model's; a listed item not reached is a gap.

use std::collections::BTreeSet;
use std::sync::OnceLock;

use super::places::{groups, Group};
use super::reader::{read, Line};
use super::Asked;
use crate::model::aic::Aic;
use crate::model::cic::Cic;
use crate::model::core::CoreInterrupt;
use crate::model::indexed::Indexed;
use crate::model::{Access, Kind, Machine};
use crate::patterns;
use crate::tally::{Listed, Tally};
use crate::typed::CONTROLLERS;

/// A listed item, in plain words.
#[derive(Clone, Copy, Debug, PartialEq, Eq, PartialOrd, Ord, Hash)]
pub struct Item(&'static str);

/// What was reached, and how many steps and lines it took.
#[derive(Clone, Debug, Default)]
pub struct Coverage {
    tally: Tally<Item>,
    pub steps: usize,
    pub longest: usize,
}

impl Listed for Coverage {
    type Item = Item;

    fn wanted() -> Vec<Item> {
        listed().iter().map(|item| Item(item)).collect()
    }

    fn tally(&self) -> &Tally<Item> {
        &self.tally
    }
}

impl Coverage {
    /// What the model's text of a case reaches. What is not listed is passed over.
    pub fn see(&mut self, asked: &Asked, text: &[u8]) {
        let explained = read(text).expect("the model writes what can be read");
        let lines = text.split(|&byte| byte == b'\n');
        self.longest = self.longest.max(lines.map(<[u8]>::len).max().unwrap_or(0));
        self.steps += explained.steps.len();
        let kind = match &explained.controller {
            Some((words, comment)) => {
                self.reach(format!("{}: started, {comment}", words[0]));
                self.reach(format!("a controller of {} bytes", words.join(" ").len()));
                words[0].clone()
            }
            None => "none".to_owned(),
        };
        if let Some((refusal, _, words)) = &explained.end {
            self.reach(format!("{kind}: E {refusal}: {words}"));
        }
        if let Some((first, steps)) = asked.window {
            let there = explained.steps.len() as u32;
            self.reach(format!("a window of {}", window(first, steps, there)));
            return;
        }
        for line in &explained.steps {
            for item in of_step(&kind, line) {
                self.reach(item);
            }
        }
    }

    fn reach(&mut self, item: String) {
        if let Some(item) = listed().get(&item) {
            self.tally.reach(Item(item));
        }
    }
}

fn window(first: u32, steps: u32, there: u32) -> &'static str {
    match (first, there) {
        (_, 0) => "no step that is played",
        (1, there) if there == steps => "the first steps",
        (_, there) if there == steps => "steps in the middle",
        _ => "more steps than are played",
    }
}

/// What a step's line reaches.
fn of_step(kind: &str, line: &Line) -> Vec<String> {
    let word = &line.words[0];
    let refused = line.refusal.as_ref();
    let by = refused.map_or(String::new(), |(number, _)| format!(" refused by {number}"));
    let mut items = vec![
        format!("a statement of {} bytes", line.width),
        format!("a step of {} digits", line.number.to_string().len()),
        format!("{kind}: {word} {}{by}", line.place),
    ];
    if let Some((number, words)) = refused {
        let place = if line.place.is_empty() {
            "nothing"
        } else {
            "something"
        };
        items.push(format!("{kind}: {word} of {place} {number}: {words}"));
    }
    if let Some(fields) = &line.fields {
        let name = line.place.split(' ').next().unwrap_or("");
        let group = name.trim_end_matches(|digit: char| digit.is_ascii_digit());
        items.push(format!("{kind}: {group}, {}", shape(fields)));
    }
    items.extend(line.deeds.iter().map(|deed| format!("{kind}: {deed}")));
    items.extend(line.deeds.iter().filter_map(|deed| hosts(kind, deed)));
    let verbs = line
        .deeds
        .iter()
        .map(|deed| deed.split(' ').next().unwrap_or(""));
    let verbs: Vec<&str> = verbs.collect();
    items.push(format!("{kind}: {}", verbs.join(" and ")));
    items.push(format!("{kind}: {}", line.outputs.join(", ")));
    items
}

/// Numbers and maps by how many there are; other fields as they stand.
fn shape(fields: &str) -> String {
    let words: Vec<&str> = fields.split(' ').collect();
    match words[..] {
        ["sources" | "systems" | "hosts" | "inputs", ref numbers @ ..] => match numbers {
            ["none"] => "none".to_owned(),
            [.., "and", more, "more"] if *more != "1" => "more than nine".to_owned(),
            [.., "and", _, "more"] => "nine".to_owned(),
            [_, _, _, _, _, _, _, _] => "eight".to_owned(),
            _ => "fewer than eight".to_owned(),
        },
        ["system" | "channel", _, "to", ..] => format!("{} led", fields.split(", ").count()),
        ["system" | "host", "0"] => "the first".to_owned(),
        ["system" | "host", _] => "another".to_owned(),
        _ => fields.to_owned(),
    }
}

/// How many hosts a deed is about, and the lowest where it is at an end of a word.
fn hosts(kind: &str, deed: &str) -> Option<String> {
    let words: Vec<&str> = deed.split(' ').collect();
    let (verb, many) = match words[..] {
        [verb @ ("asserts" | "ends"), "host", _] => (verb, "one host"),
        [verb, "host", _, "and", "1", "more"] => (verb, "two hosts"),
        [verb, "host", _, "and", "255", "more"] => (verb, "all hosts"),
        [verb, "host", _, "and", _, "more"] => (verb, "several hosts"),
        _ => return None,
    };
    Some(format!("{kind}: {verb} {many}"))
}

/// All items, each once.
fn listed() -> &'static BTreeSet<String> {
    static LISTED: OnceLock<BTreeSet<String>> = OnceLock::new();
    LISTED.get_or_init(|| {
        let mut items = patterns::items(include_str!("items.txt"));
        items.extend(Kind::ALL.into_iter().flat_map(registers));
        items.into_iter().collect()
    })
}

/// Each register of the largest part of a kind read and written, carried out or refused as it has to be; on the AINTC by
/// privilege too.
fn registers(kind: Kind) -> Vec<String> {
    let largest = largest(kind);
    let mut items = Vec::new();
    for group in groups(kind) {
        let access = largest.access(group.first).expect("it has all registers");
        let numbers = 0..group.many;
        items.extend(numbers.flat_map(|number| of_register(kind, group, number, access)));
    }
    items
}

fn largest(kind: Kind) -> Machine {
    let cic = || Cic::new(1_024, 256, 256, 0);
    match kind {
        Kind::Aic => Machine::Aic(Box::new(Aic::new(0, 0))),
        Kind::Core => Machine::Core(CoreInterrupt::new(8, 32, true, true)),
        Kind::Cic => Machine::Cic(Box::new(cic())),
        Kind::Aintc => Machine::Aintc(Box::default()),
        Kind::Indexed => Machine::Indexed(Box::new(Indexed::new(cic(), true))),
    }
}

fn of_register(kind: Kind, group: &Group, number: u32, access: Access) -> Vec<String> {
    let controller = CONTROLLERS[kind as usize].0;
    let number = match group.many {
        1 => String::new(),
        _ => number.to_string(),
    };
    let item = |verb, section| format!("{controller}: {verb} {}{number} ({section})", group.name);
    let (read, write) = (item("read", group.read), item("write", group.write));
    let refused = |item: &str, by: u32| format!("{item} refused by {by}");
    let mut items = match access {
        Access::ReadWrite => vec![read.clone(), write.clone()],
        Access::ReadOnly => vec![read.clone(), refused(&write, 4)],
        Access::WriteOnly => vec![refused(&read, 3), write.clone()],
    };
    if kind == Kind::Core && access == Access::WriteOnly {
        items.push(read);
    } else if kind == Kind::Aintc {
        items.extend([13, 6].map(|by| refused(&read, by)));
        items.extend([13, 6].map(|by| refused(&write, by)));
    }
    items
}
