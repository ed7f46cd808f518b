//! Texts of traces, laid out in many ways, and the same damaged in one place.

use super::{AINTC, CONTROLLERS, LONGEST_TEXT, STEPS};
use crate::compare::Subject;
use crate::explained::Asked;
use crate::numbered::Numbered;
use crate::random::Random;

/// A text by its number; every other one is the one before it, damaged.
pub fn text(seed: u64, item: u64) -> Vec<u8> {
    let mut random = Random::for_item(seed, item / 2);
    let text = match item / 2 {
        sort if sort < 12 => at_a_limit(sort as usize),
        _ => some(&mut random),
    };
    match item % 2 {
        0 => text,
        _ => damaged(&mut random, text),
    }
}

/// The explanation of a trace by its number; every other one is the one before it, damaged.
pub fn explained(traces: &Numbered<Asked>, item: usize) -> Vec<u8> {
    let asked = traces.case(item / 2).for_program();
    match item % 2 {
        0 => asked.text(),
        _ => damaged(&mut Random::for_item(1, item as u64), asked.text()),
    }
}

/// Traces and texts as long as they may be, and up to two bytes shorter or longer.
fn at_a_limit(sort: usize) -> Vec<u8> {
    let more = sort % 6;
    if sort < 6 {
        // 1 byte of the kind, and steps of 2, 3 and 4 bytes up to 65,533 + more
        let left = 65_532 + more;
        let (threes, rest) = ((left - 8) / 3, (left - 8) % 3);
        let last = ["line 0 0\n", "line 999 0\n", "line 999 999\n"][rest];
        let steps = "line 0 0\n".repeat(threes);
        return format!("aic 0 0\n{steps}line 999 999\n{last}").into_bytes();
    }
    let room = LONGEST_TEXT - 3 + more;
    let mut text = b"aintc\nread 0 1\n".to_vec();
    text.resize(room - 1, if sort % 2 == 0 { b' ' } else { b'\n' });
    text.push(b'\n');
    text
}

/// Up to thirty statements of one controller.
fn some(random: &mut Random) -> Vec<u8> {
    let mut text = Vec::new();
    let kind = random.below(CONTROLLERS.len() as u32) as usize;
    silence(random, &mut text);
    let (name, numbers) = CONTROLLERS[kind];
    statement(random, &mut text, name, numbers);
    for _ in 0..random.below(30) {
        silence(random, &mut text);
        let (name, plain, told) = random.pick(&STEPS);
        statement(
            random,
            &mut text,
            name,
            if kind == AINTC { told } else { plain },
        );
    }
    match random.below(3) {
        0 => {
            text.pop();
        }
        1 => silence(random, &mut text),
        _ => {}
    }
    text
}

/// Lines that say nothing, mostly none.
fn silence(random: &mut Random, text: &mut Vec<u8>) {
    while random.one_in(4) {
        gap(random, text, 0);
        comment(random, text);
        line_feed(random, text);
    }
}

fn statement(random: &mut Random, text: &mut Vec<u8>, name: &str, numbers: usize) {
    gap(random, text, 0);
    text.extend(name.bytes());
    for _ in 0..numbers {
        gap(random, text, 1);
        number(random, text);
    }
    gap(random, text, 0);
    if random.one_in(3) {
        comment(random, text);
    }
    line_feed(random, text);
}

fn number(random: &mut Random, text: &mut Vec<u8>) {
    let value = random.word();
    let zeros = "0".repeat(if random.one_in(8) {
        random.below(40) as usize
    } else {
        0
    });
    let typed = match random.below(4) {
        0 => format!("0x{zeros}{value:X}"),
        1 => format!("0x{zeros}{value:x}"),
        _ => format!("{zeros}{value}"),
    };
    text.extend(typed.bytes());
}

fn gap(random: &mut Random, text: &mut Vec<u8>, least: u32) {
    let most = least + if random.one_in(4) { 4 } else { 0 };
    for _ in 0..random.within(least, most) {
        text.push(random.pick(b"  \t\r"));
    }
}

fn comment(random: &mut Random, text: &mut Vec<u8>) {
    text.push(b'#');
    for _ in 0..random.below(12) {
        let byte = random.bits() as u8;
        text.push(if byte == b'\n' { b'#' } else { byte });
    }
}

fn line_feed(random: &mut Random, text: &mut Vec<u8>) {
    if random.one_in(5) {
        text.push(b'\r');
    }
    text.push(b'\n');
}

/// One byte more, less or another one; a word too many; a piece that is gone or there twice.
fn damaged(random: &mut Random, mut text: Vec<u8>) -> Vec<u8> {
    let length = text.len();
    let at = random.below(length as u32 + 1) as usize;
    let byte = match random.below(3) {
        0 => random.bits() as u8,
        _ => random.pick(b"0123456789abcdefxX#\n\r\t -+,_AGrw"),
    };
    let end = (at + random.below(12) as usize).min(length);
    match random.below(6) {
        0 => text.insert(at, byte),
        1 if at < length => text[at] = byte,
        2 if at < length => {
            text.remove(at);
        }
        3 => {
            text.drain(at..end);
        }
        4 => {
            let piece = text[at..end].to_vec();
            text.splice(at..at, piece);
        }
        _ => {
            let words = " 0| 4294967296| 0x| 99999999999999999999|\nread\n|\naic 0 0\n|\nREAD 0\n";
            let words: Vec<&str> = words.split('|').collect();
            text.splice(at..at, random.pick(&words).bytes());
        }
    }
    text
}
