//! The model as a program: a trace on standard input, its listing on standard output; with `--stack` a typed table and
//! its line, with `--slip` what leads to its slip, with `--stacksize` both, as `./run stack` prints them; with `--batch` many of both and words looked at; with `--boards` a number on standard input, and a transcript of so many boards;
//! with `--wave` the waves of a trace, with `--picture` the picture of some of its steps, and with `--explain` all or some
//! of it as text, explained.

use std::io::{self, BufReader, BufWriter, Write};
use std::process::ExitCode;

use bench::batch::{figures_to_bytes, serve, Asked, Reply, Request};
use bench::boards::generate::{script, unsound};
use bench::explained::{explain, window};
use bench::listing::listing;
use bench::looked::{looked, told};
use bench::picture;
use bench::program::{input, not_so, words};
use bench::report;
use bench::stack;
use bench::trace::PROGRAM_LIMIT;
use bench::waves;

const USAGE: &str = "\
reference [--stack | --slip | --stacksize | --batch | --boards | --wave | --picture FIRST STEPS | --explain [FIRST STEPS]]: lists the trace on
standard input, or says the stack of the table there, what leads to its slip or both, or many (batch.c), or prints a transcript of as many boards as the
number there says, or the waves of the trace, or the picture of some of its steps, or the trace explained
";

fn main() -> ExitCode {
    match words()[..] {
        [] => print_one(|trace| listing(trace, PROGRAM_LIMIT)),
        ["--stack"] => print_one(stack::line),
        ["--slip"] => print_one(|text| stack::lead::lead(text).unwrap_or_default().into_bytes()),
        ["--stacksize"] => print_one(|text| {
            if let Some(line) = stack::lead::lead(text) {
                eprint!("stacksize: {line}");
            }
            stack::line(text)
        }),
        ["--batch"] => print_many(),
        ["--boards"] => print_one(boards),
        ["--wave"] => print_one(|trace| waves::write(&waves::waves(trace, PROGRAM_LIMIT))),
        ["--explain"] => print_one(|trace| explain(trace, PROGRAM_LIMIT)),
        ["--explain", first, steps] => print_one(|trace| part(trace, first, steps)),
        ["--picture", first, steps] => print_one(|trace| picture(trace, first, steps)),
        _ => return not_so(USAGE),
    }
    ExitCode::SUCCESS
}

fn print_one(text: impl Fn(&[u8]) -> Vec<u8>) {
    // A reader that has gone away wants no more.
    let _ = io::stdout().write_all(&text(&input()));
}

/// The calls on so many generated boards, each with the model's answer. What is no number asks for none.
fn boards(input: &[u8]) -> Vec<u8> {
    let number = std::str::from_utf8(input).ok();
    let count = number.and_then(|number| number.trim().parse().ok());
    let transcripts = (0..count.unwrap_or(0)).map(|number| script(1, number).right());
    (transcripts.collect::<String>() + &unsound()).into_bytes()
}

/// The explanation of so many steps from the first one on; what is no number asks for none.
fn part(trace: &[u8], first: &str, steps: &str) -> Vec<u8> {
    match (first.parse(), steps.parse()) {
        (Ok(first), Ok(steps)) => window(trace, PROGRAM_LIMIT, first, steps),
        _ => Vec::new(),
    }
}

/// The picture of so many steps from the first one on; where there is none, that is said on standard error.
fn picture(trace: &[u8], first: &str, steps: &str) -> Vec<u8> {
    let drawn = match (first.parse(), steps.parse()) {
        (Ok(first), Ok(steps)) => picture::nesting(trace, PROGRAM_LIMIT, first, steps),
        _ => None,
    };
    if drawn.is_none() {
        eprintln!("reference: there is no such picture");
    }
    drawn.map_or(Vec::new(), |nesting| picture::write(&nesting))
}

fn print_many() {
    let mut requests = BufReader::new(io::stdin().lock());
    let mut replies = BufWriter::new(io::stdout().lock());
    // An asker that has gone away wants no more.
    let _ = serve(&mut requests, &mut replies, reply);
}

fn reply(request: &Request) -> Reply {
    let (input, limit, room) = (&request.input, request.limit, request.room);
    let mut text = match request.asked {
        Asked::Listing => listing(input, limit),
        Asked::Stack => stack::line(input),
        Asked::Looked => {
            let text = told(looked(input, limit, room as u32));
            return Reply { changed: 0, text };
        }
        Asked::Figures => {
            let (figures, ending) = report::figures(input, limit);
            figures_to_bytes(&figures, ending)
        }
        Asked::Explanation => explain(input, limit),
        Asked::Part => {
            let number = |at: usize| input[at..at + 4].try_into().map_or(0, u32::from_le_bytes);
            window(&input[8..], limit, number(0), number(4))
        }
    };
    text.truncate(room);
    Reply { changed: 0, text }
}
