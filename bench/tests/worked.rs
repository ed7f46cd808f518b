//! Cases worked by hand from the documents and the decided points, in the texts of `worked/`.
//!
//! A text has names (`name IVR 0x100`), words that stand for several steps (`word raise source priority`, the steps
//! indented below) and cases (`case` and what it states, the steps indented below). A step is typed as in docs/TEXT.md,
//! with expressions for numbers; behind it stands what is expected: `= 5` the value that was read, `! 6` the refusal, by
//! which nothing has changed, `: 1 0 0` the three numbers that a listing shows. A step with no refusal behind it is
//! accepted. `for a,b 1,2 3,4` carries out the rest of the case for each pair; `each n 0..8 STEP` one step for each
//! number. `keep` keeps the controller, `same` wants it as it was kept, `back` goes back to it, `forget` lets an AIC
//! forget, and `alike OFFSET` reads now and from what was kept and wants the same.
//!
//! What is not read is told: of an AIC its `entries` (a handler as 9@4, its source and level), the last `entry`, what it
//! `remembers` (source, level and vector), its `mode` (protected, masked) and the `memory` of a source; of a CoreInterrupt
//! the `levels` of IRQ and FIQ; of a CIC what is `held` at the offsets of indices, its `hold` mode and the words that a read
//! `looks` at; of a trace up to here the `counts`, `waits`, `bounds` and the `summary` of a source, and where it `breaks` a
//! table; and `lists` the listing of bytes, with a stroke behind each line.

#[path = "worked/run.rs"]
mod run;
#[path = "worked/text.rs"]
mod text;

use bench::listing::listing;
use bench::trace::{LONGEST, PROGRAM_LIMIT};

use run::Run;
use text::{Block, Text};

/// The texts, each with the number of its cases.
const TEXTS: [(&str, &str, usize); 7] = [
    ("aic", include_str!("worked/aic.txt"), 56),
    ("aintc", include_str!("worked/aintc.txt"), 30),
    ("bounds", include_str!("worked/bounds.txt"), 21),
    ("cic", include_str!("worked/cic.txt"), 39),
    ("core", include_str!("worked/core.txt"), 5),
    ("figures", include_str!("worked/figures.txt"), 13),
    ("numbers", include_str!("worked/numbers.txt"), 10),
];

/// Where something else was found than a case expects, if it was.
fn fault(text: &Text, case: &Block) -> Option<String> {
    let carried = Run::new(text).lines(&case.lines, &text.names);
    let title = case.head[1..].join(" ");
    carried.err().map(|why| format!("{title}: {why}"))
}

#[test]
fn every_case_is_as_it_was_worked() {
    let mut faults = Vec::new();
    for (name, text, cases) in TEXTS {
        let text = Text::read(text).expect("the text has the form");
        faults.extend(text.cases().filter_map(|case| fault(&text, case)));
        if text.cases().count() != cases {
            faults.push(format!("{name} has {} cases", text.cases().count()));
        }
    }
    assert!(faults.is_empty(), "{faults:#?}");
}

/// Each line that expects something, with its last number one more, is found.
#[test]
fn every_expectation_is_needed() {
    for (name, text, _) in TEXTS {
        let lines: Vec<&str> = text.lines().collect();
        for (at, line) in lines.iter().enumerate() {
            let code = line.split('#').next().unwrap_or("").trim_end();
            let marks = [" = ", " ! ", " : "];
            if !code.starts_with(' ') || !marks.iter().any(|mark| code.contains(mark)) {
                continue;
            }
            let more = if code.ends_with('/') { "1" } else { "+1" };
            let other = format!("{code}{more}");
            let text = [&lines[..at], &[other.as_str()], &lines[at + 1..]]
                .concat()
                .join("\n");
            assert!(is_found(&text, at + 1), "{name}: {line}");
        }
    }
}

/// Whether a line that was spoiled is found, in its own case or in one that has its word.
fn is_found(text: &str, number: usize) -> bool {
    let text = Text::read(text).expect("the text has the form");
    let begins = |block: &&Block| {
        block
            .lines
            .first()
            .is_some_and(|line| line.number <= number)
    };
    match text.blocks.iter().rfind(begins) {
        Some(case) if case.head[0] == "case" => fault(&text, case).is_some(),
        _ => text.cases().any(|case| fault(&text, case).is_some()),
    }
}

/// So many writes behind an AIC's configuration, every number in five bytes.
fn padded_writes(writes: usize) -> Vec<u8> {
    let number = |value: u8| [0x80 | value, 0x80, 0x80, 0x80, 0x00];
    let write = [number(2), number(0), number(0)].concat();
    [number(0).repeat(3), write.repeat(writes)].concat()
}

#[test]
fn who_always_pads_meets_the_length_before_the_step_limit() {
    let listed =
        |trace: &[u8]| String::from_utf8_lossy(&listing(trace, PROGRAM_LIMIT)).into_owned();
    let most = padded_writes(4_368);
    assert_eq!(most.len(), LONGEST - 1);
    assert!(listed(&most).ends_with("\n4368 W 00000000 0 0 0\n"));
    assert_eq!(listed(&padded_writes(4_369)), "E 11 65536\n");
    let begun = listed(&[&most[..], &[0x82]].concat());
    assert!(begun.ends_with("\n4368 W 00000000 0 0 0\nE 8 65535\n"));
}
