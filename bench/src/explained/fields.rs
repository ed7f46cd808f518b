//! The fields of a word that was written, in words, as the table of registers says.

use super::places::{accessed, Register};
use super::Told;
use crate::model::{Machine, Step};

/// How many numbers are told of a word; of more, how many more there are.
pub const MOST_TOLD: usize = 8;

/// What a write that was carried out says, by the register; of others nothing.
pub fn fields(told: &Told) -> String {
    let register = accessed(told.before, told.recorded.step);
    match (told.recorded.step, register) {
        (Step::Write { value, .. }, Some(register)) if told.answer.is_ok() => {
            let words = words(told.before, &register, value);
            words.map_or(String::new(), |words| format!("; {words}"))
        }
        _ => String::new(),
    }
}

/// 003, 27.8.3 and 27.8.11 to 27.8.19; 001, chapter 2; 000, 4.5.
fn words(machine: &Machine, register: &Register, value: u32) -> Option<String> {
    let told: Vec<&str> = register.group.told.split(' ').collect();
    let (things, first, count) = register.about(machine).unwrap_or_default();
    Some(match told[..] {
        ["numbers"] => numbers(things, first, count, value),
        // Source 0 is fast by itself: its bit does nothing.
        ["numbers", "but", "0"] => numbers(things, first, count, value & !1),
        ["map", noun, "to", to] => map([noun, to], first, count, value),
        ["number", noun] => format!("{noun} {value}"),
        ["bits", ref named @ ..] => bits(named, value),
        ["trigger"] => trigger(machine, register, value),
        ["route"] => {
            let side = ["IRQ", "FIQ"][(value & 1) as usize];
            format!("to {side}, priority {}", value >> 2 & 0x7F)
        }
        ["threshold"] => format!("PRIORITYTHRESHOLD {}", value & 0xFF),
        _ => return None,
    })
}

fn trigger(machine: &Machine, register: &Register, value: u32) -> String {
    let external = match machine {
        Machine::Aic(aic) => aic.sources()[register.number as usize].external,
        _ => false,
    };
    let trigger = match (value >> 5 & 3, external) {
        (0, false) | (2, _) => "high level",
        (0, true) => "low level",
        (1, true) => "falling edge",
        _ => "rising edge",
    };
    format!("{trigger}, priority {}", value & 7)
}

/// The numbers of the bits that are 1, the first bit's given, as far as there is such a thing.
fn numbers(noun: &str, first: u32, count: u32, word: u32) -> String {
    let set = (0..32).filter(|bit| word >> bit & 1 == 1);
    let there: Vec<u32> = set.map(|bit| first + bit).filter(|&n| n < count).collect();
    let (told, more) = there.split_at(there.len().min(MOST_TOLD));
    let told: Vec<String> = told.iter().map(u32::to_string).collect();
    match (told.is_empty(), more.len()) {
        (true, _) => format!("{noun} none"),
        (false, 0) => format!("{noun} {}", told.join(", ")),
        (false, more) => format!("{noun} {} and {more} more", told.join(", ")),
    }
}

/// Where each of four things leads by its byte, the first with nouns, as far as there is such a thing.
fn map([noun, to]: [&str; 2], first: u32, count: u32, word: u32) -> String {
    let there = (first..first + 4).zip(word.to_le_bytes());
    let there = there.filter(|&(thing, _)| thing < count);
    let told = there.map(|(thing, byte)| match thing == first {
        true => format!("{noun} {thing} to {to} {byte}"),
        false => format!("{thing} to {byte}"),
    });
    told.collect::<Vec<String>>().join(", ")
}

/// Single bits by name and place.
fn bits(named: &[&str], word: u32) -> String {
    let told = named.chunks_exact(2).map(|bit| {
        let place: u32 = bit[1].parse().expect("a place is a number");
        format!("{} {}", bit[0], word >> place & 1)
    });
    told.collect::<Vec<String>>().join(", ")
}
