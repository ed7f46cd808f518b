//! Every register's name and section, read and written, by the tables of registers.txt, which stand beside the makers'
//! documents; and a name exactly where the model has a register.

use std::collections::BTreeMap;

use bench::explained::places::register;
use bench::model::{Recorded, Refusal, Step};
use bench::trace::play;
use bench::typed::encode;

use super::comments;

/// Tables behind their titles.
const TABLES: &str = include_str!("registers.txt");

/// The rows of the tables of some titles.
fn tables(titles: &[&str]) -> String {
    let tables = TABLES.split("\n[").skip(1);
    let tables: BTreeMap<&str, &str> = tables.filter_map(|table| table.split_once("]\n")).collect();
    titles
        .iter()
        .map(|title| format!("{}\n", tables[title]))
        .collect()
}

/// The names of a table at their offsets, each with its sections of a read and a write.
fn rows(table: &str) -> BTreeMap<u32, [String; 2]> {
    let mut rows = BTreeMap::new();
    let hex = |word| u32::from_str_radix(word, 16).expect("an offset is hexadecimal");
    for row in table.lines().filter(|row| !row.is_empty()) {
        let words: Vec<&str> = row.splitn(3, ' ').collect();
        let (read, write) = words[2].split_once(" | ").unwrap_or((words[2], words[2]));
        let (first, last) = words[0].split_once('-').unwrap_or((words[0], ""));
        let many = last.split_once('/');
        let offsets: Vec<u32> = match many {
            None => vec![hex(first)],
            Some((last, apart)) => (hex(first)..=hex(last))
                .step_by(hex(apart) as usize)
                .collect(),
        };
        for (number, offset) in offsets.into_iter().enumerate() {
            let number = many.map_or(String::new(), |_| number.to_string());
            let place = |section| format!("{}{number} ({section})", words[1]);
            rows.insert(offset, [place(read), place(write)]);
        }
    }
    rows
}

/// Reads and writes every word of a map, and wants each to be named as the tables say, or not at all.
fn named(controller: &str, privilege: &str, end: u32, titles: &[&str]) {
    let rows = rows(&tables(titles));
    let offsets: Vec<u32> = (0..end).step_by(4).collect();
    let steps = offsets
        .iter()
        .map(|offset| format!("read {offset}{privilege}\nwrite {offset}{privilege} 0\n"));
    let told = comments(&(controller.to_owned() + "\n" + &steps.collect::<String>()));
    for (offset, told) in offsets.iter().zip(told.chunks(2)) {
        for (way, told) in told.iter().enumerate() {
            let rest = match rows.get(offset) {
                None => told.strip_prefix("refused by 2: ").map(|_| ""),
                Some(places) => told.strip_prefix(&places[way]),
            };
            let leads = ["", " = 0x", " refused by ", "; "];
            let sound = |rest: &str| {
                leads.iter().any(|lead| match rest.is_empty() {
                    true => lead.is_empty(),
                    false => !lead.is_empty() && rest.starts_with(lead),
                })
            };
            assert!(rest.is_some_and(sound), "{controller}, {offset:#X}: {told}");
        }
    }
}

#[test]
fn every_register_has_its_name_and_section() {
    let single = "cic, single registers";
    let many = "cic, of 1,024 systems, 256 channels and 256 hosts";
    let small = "indexed, of 33 systems, 5 channels and 32 hosts";
    named("aic 0 0", "", 0x160, &["aic"]);
    named("coreinterrupt 8 32 1 1", "", 0x40, &["coreinterrupt"]);
    named("coreinterrupt 0 0 0 0", "", 0x40, &["coreinterrupt"]);
    named("cic 1024 256 256 0", "", 0x1530, &[single, many]);
    named("indexed 1024 256 256 0 0", "", 0x1530, &[single, many]);
    let all = [single, many, "indexed, of 256 hosts"];
    named("indexed 1024 256 256 0 1", "", 0x1530, &all);
    named("indexed 33 5 32 0 1", "", 0x1530, &[single, small]);
    named("aintc", " 1", 0x320, &["aintc"]);
    named("aintc", " 0", 0x320, &["aintc"]);
}

#[test]
fn a_name_is_where_a_register_is() {
    let fixed = [
        "aic 0 0",
        "coreinterrupt 8 32 1 1",
        "coreinterrupt 0 0 1 1",
        "aintc",
    ];
    let sizes = [
        "1024 256 256",
        "1 1 1",
        "33 5 33",
        "1023 255 255",
        "64 4 32",
    ];
    let of_sizes = sizes.iter().flat_map(|size| {
        let indexed = |choice| format!("indexed {size} 0 {choice}");
        [format!("cic {size} 0"), indexed(0), indexed(1)]
    });
    let far = [0x1_0000, 0x8000_0000, 0xFFFF_F000].into_iter();
    let far = far.flat_map(|base| (0..0x40).map(move |offset| base + offset));
    let offsets: Vec<u32> = (0..0x1600).chain(far).collect();
    for text in fixed.map(str::to_owned).into_iter().chain(of_sizes) {
        let trace = encode(text.as_bytes()).expect("the text has the form");
        let machine = play(&trace, 0, &mut ()).machine.expect("it is started");
        for &offset in &offsets {
            let (step, privilege) = (Step::Read { offset }, 1);
            let answer = machine.clone().step(Recorded { step, privilege });
            let there = !matches!(answer, Err(Refusal::Misaligned | Refusal::NoRegister));
            assert_eq!(
                register(&machine, offset).is_some(),
                there,
                "{offset:#X} of {text}"
            );
        }
    }
}
