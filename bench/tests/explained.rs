//! Traces explained, by hand and against wrong writers: every rule of a line, every register's name and section.

#[path = "explained/lines.rs"]
mod lines;
#[path = "explained/registers.rs"]
mod registers;
#[path = "explained/wrong.rs"]
mod wrong;

use bench::explained::{explain, Asked};
use bench::numbered::Numbered;
use bench::trace::PROGRAM_LIMIT;
use bench::typed::encode;

/// The first explanations, of which most are sweeps, but for the few long ones.
fn asked(count: usize) -> Vec<Asked> {
    let generator = Numbered::<Asked>::new(1);
    let cases = generator.cases(0..count).map(|(_, asked)| asked);
    cases
        .filter(|asked| asked.case.trace.len() <= 6_000)
        .collect()
}

/// The explanation of a text.
fn explained(text: &str) -> String {
    let trace = encode(text.as_bytes()).expect("the text has the form");
    let text = explain(&trace, PROGRAM_LIMIT);
    String::from_utf8(text).expect("an explanation is plain text")
}

/// The comments of a text's steps, without their numbers.
fn comments(text: &str) -> Vec<String> {
    let explained = explained(text);
    let lines = explained.lines().skip(1).enumerate();
    let comments = lines.map(|(at, line)| {
        let (_, comment) = line.split_once("# ").expect("a line has a comment");
        let number = (at + 1).to_string();
        let rest = comment
            .strip_prefix(&number)
            .expect("it begins by its number");
        rest.strip_prefix("; ").unwrap_or(rest).trim().to_owned()
    });
    comments.collect()
}
