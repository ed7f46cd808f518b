//! The makers' registers by name and section (registers.txt), and the place that a step is about.

use std::sync::OnceLock;

use super::Told;
use crate::model::cic::Cic;
use crate::model::{Kind, Machine, Step};
use crate::typed::CONTROLLERS;

/// A register, or several of one name with numbers from 0.
#[derive(Clone, Copy, Debug)]
pub struct Group {
    pub name: &'static str,
    pub first: u32,
    /// How many offsets have it, and how far they are apart. One alone has no number.
    pub many: u32,
    apart: u32,
    /// Where the maker describes it, for a read and for a write.
    pub read: &'static str,
    pub write: &'static str,
    /// How many of what a register is about.
    about: Option<(u32, &'static str)>,
    /// What is told of a word that is written.
    pub told: &'static str,
}

impl Group {
    /// The group of a line of the table.
    fn of(line: &'static str) -> Group {
        let hex = |word| u32::from_str_radix(word, 16).expect("an offset is hexadecimal");
        let cells: Vec<&str> = line.split('|').map(str::trim).collect();
        let [offsets, name, read, write, about, told] = cells[..] else {
            panic!("{line:?} has six cells");
        };
        let (first, others) = offsets.split_once('-').unwrap_or((offsets, offsets));
        let (last, apart) = others.split_once('/').unwrap_or((others, "4"));
        let (first, apart) = (hex(first), hex(apart));
        let about = about.split_once(' ');
        Group {
            name,
            first,
            many: (hex(last) - first) / apart + 1,
            apart,
            read,
            write: if write.is_empty() { read } else { write },
            about: about.map(|(many, what)| (many.parse().expect("it is a number"), what)),
            told,
        }
    }
}

/// The groups of registers of a kind, those of a choice last.
pub fn groups(kind: Kind) -> &'static [Group] {
    static GROUPS: OnceLock<[Vec<Group>; 5]> = OnceLock::new();
    let groups = GROUPS.get_or_init(|| {
        Kind::ALL.map(|kind| match kind {
            Kind::Indexed => [headed("cic"), headed("prioritised")].concat(),
            kind => headed(CONTROLLERS[kind as usize].0),
        })
    });
    &groups[kind as usize]
}

/// Those under a heading of the table.
fn headed(heading: &str) -> Vec<Group> {
    let lines = include_str!("registers.txt").lines();
    let lines = lines.filter(|line| !line.starts_with('#') && !line.is_empty());
    let below = lines.skip_while(|&line| line != heading).skip(1);
    let rows = below.take_while(|line| line.contains('|'));
    rows.map(Group::of).collect()
}

/// A register at an offset: its group, and its number in it.
#[derive(Clone, Copy, Debug)]
pub struct Register {
    pub group: &'static Group,
    pub number: u32,
}

impl Register {
    /// The name, with the number right behind it where there are several.
    pub fn name(&self) -> String {
        match self.group.many {
            1 => self.group.name.to_owned(),
            _ => format!("{}{}", self.group.name, self.number),
        }
    }

    /// What it is about: the word for such things, the first of its own, and how many of them the machine has.
    pub fn about(&self, machine: &Machine) -> Option<(&'static str, u32, u32)> {
        let (many, what) = self.group.about?;
        let word = match what {
            "FIQs" | "IRQs" => "sources",
            other => other,
        };
        Some((word, many * self.number, count(machine, what)))
    }
}

/// The CIC that a machine is or has.
fn cic_of(machine: &Machine) -> Option<&Cic> {
    match machine {
        Machine::Cic(cic) => Some(cic),
        Machine::Indexed(indexed) => Some(indexed.cic()),
        _ => None,
    }
}

/// How many of some things a machine has.
fn count(machine: &Machine, what: &str) -> u32 {
    match (machine, cic_of(machine)) {
        (Machine::Core(core), _) if what == "FIQs" => core.fiq.count,
        (Machine::Core(core), _) => core.irq.count,
        (_, Some(cic)) if what == "channels" => cic.channels() as u32,
        (_, Some(cic)) if what == "hosts" => cic.hosts() as u32,
        _ => machine.lines(),
    }
}

/// The register at an offset of a machine, if it has one there. A CoreInterrupt has all, whatever is configured.
pub fn register(machine: &Machine, offset: u32) -> Option<Register> {
    let kind = match machine {
        Machine::Indexed(indexed) if !indexed.prioritised() => Kind::Cic,
        _ => machine.kind(),
    };
    groups(kind).iter().find_map(|group| {
        let beyond = offset.checked_sub(group.first)?;
        let number = beyond / group.apart;
        if beyond % group.apart != 0 || number >= group.many {
            return None;
        }
        let register = Register { group, number };
        let about = register.about(machine);
        let there = about.is_none_or(|(_, first, count)| first < count);
        (there || kind == Kind::Core).then_some(register)
    })
}

/// The register that a step reads or writes, if there is one.
pub fn accessed(machine: &Machine, step: Step) -> Option<Register> {
    match step {
        Step::Read { offset } | Step::Write { offset, .. } => register(machine, offset),
        Step::Line { .. } => None,
    }
}

/// The register with its section, or the line by what the maker calls it; nothing where there is neither.
pub fn place(told: &Told) -> String {
    let step = told.recorded.step;
    match (accessed(told.before, step), step) {
        (_, Step::Line { line, .. }) => named_line(told.before, line),
        (Some(register), Step::Write { .. }) => at(&register, register.group.write),
        (Some(register), _) => at(&register, register.group.read),
        (None, _) => String::new(),
    }
}

fn at(register: &Register, section: &str) -> String {
    format!(" {} ({section})", register.name())
}

fn named_line(machine: &Machine, line: u32) -> String {
    match machine.kind() {
        _ if line >= machine.lines() => String::new(),
        Kind::Aic => format!(" source {line}"),
        Kind::Core if line < 32 => format!(" IRQ input {line}"),
        Kind::Core => format!(" FIQ input {}", line - 32),
        Kind::Cic | Kind::Indexed => format!(" system {line}"),
        Kind::Aintc => format!(" input {line}"),
    }
}
