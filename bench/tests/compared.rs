//! The comparison of each sort of case: its cases reach every listed item, what is counted is listed, and listed once;
//! texts with one thing wrong, failures and programs that are not ours are found, and a process that serves many is heard.

use bench::batch::Batch;
use bench::compare::{compare, expected, Outcome, Subject, Summary, MOST_FAILURES};
use bench::coverage::Item;
use bench::explained::Asked;
use bench::generate::Case;
use bench::looked::coverage::{Coverage as LookedCoverage, Item as LookedItem, Whose};
use bench::looked::Question;
use bench::model::Kind;
use bench::numbered::{Made, Numbered};
use bench::program::Program;
use bench::report::generate::Counted;
use bench::stack::generate::Typed;
use bench::stack::{text, Table};
use bench::tally::Listed;

/// How many traces and tables .ci/checks/differential sends through the program.
const TRACES_THROUGH_THE_PROGRAM: usize = 900;
const TABLES_THROUGH_THE_PROGRAM: usize = 700;

const REFERENCE: &str = env!("CARGO_BIN_EXE_reference");

/// The sweeps and so many random cases, by another side.
fn compare_some<S: Subject + Made>(
    seed: u64,
    more: usize,
    other: impl FnMut(&S) -> Outcome,
) -> Summary<S> {
    let generator = Numbered::<S>::new(seed);
    compare(generator.cases(0..generator.sweeps() + more), other)
}

/// What the sweeps and so many random cases reach; the model does not differ from itself.
fn coverage<S: Subject + Made>(seed: u64, more: usize) -> S::Coverage {
    let summary = compare_some::<S>(seed, more, |case| Ok(expected(case)));
    assert_eq!((summary.differ, summary.first.is_none()), (0, true));
    summary.coverage
}

/// The sweeps alone reach every listed item, so that no seed can miss one, but for the figures of a report.
#[test]
fn every_listed_item_is_reached_and_listed_once() {
    fn reached<S: Subject + Made>(more: usize) {
        assert_eq!(coverage::<S>(1, more).gaps(), []);
        assert_eq!(S::Coverage::listed_twice(), []);
    }
    reached::<Case>(0);
    reached::<Typed>(0);
    reached::<Question>(0);
    reached::<Asked>(0);
    reached::<Counted>(5_000);
}

#[test]
fn what_is_counted_is_listed() {
    assert_eq!(coverage::<Typed>(3, 3_000).unlisted(), []);
    assert_eq!(coverage::<Question>(3, 6_000).unlisted(), []);
    assert_eq!(coverage::<Counted>(2, 3_000).unlisted(), []);
    let words = |words| LookedItem::Words(Whose::Host, words);
    let listed = LookedCoverage::wanted();
    assert!((1..=32).all(|count| listed.contains(&words(count))));
    let mut unlisted = coverage::<Case>(2, 300).unlisted();
    // Of numbers and counts only those at the ends are listed.
    unlisted.retain(|item| match item {
        Item::Refused(..) | Item::Started(..) | Item::Ended(..) | Item::EndedPadded(..) => false,
        Item::Defect(..) | Item::Shortest(..) | Item::Padded(..) | Item::Count(..) => false,
        Item::Pending(..) | Item::Edge(..) | Item::Cisr(..) => false,
        Item::Sources(..) | Item::Levels(..) | Item::Asserted(_) | Item::Lowest(_) => false,
        _ => true,
    });
    assert_eq!(unlisted, []);
}

#[test]
fn enough_goes_through_the_program() {
    assert!(Numbered::<Typed>::new(3).sweeps() < TABLES_THROUGH_THE_PROGRAM);
    let generator = Numbered::<Case>::new(1);
    let numbers = generator.sweeps()..TRACES_THROUGH_THE_PROGRAM;
    let coverage = compare(generator.cases(numbers), |case| Ok(expected(case))).coverage;
    for kind in Kind::ALL {
        assert!(coverage.started(kind) >= 5, "{}", kind.told());
    }
}

/// Failing altogether, and losing the last byte.
#[test]
fn failures_are_differences() {
    fn found<S: Subject + Made>() {
        let failing = compare_some::<S>(3, 0, |_| Err("it fell over".to_string()));
        assert_eq!(
            (failing.differ, failing.compared),
            (MOST_FAILURES, MOST_FAILURES)
        );
        let short = compare_some::<S>(3, 0, |case| {
            let mut text = expected(case);
            text.pop().ok_or("there is no text".to_string())?;
            Ok(text)
        });
        assert_eq!(short.differ, short.compared);
    }
    found::<Case>();
    found::<Typed>();
    found::<Question>();
}

#[test]
fn one_wrong_byte_in_one_case_is_found() {
    let mut seen = 0;
    let summary = compare_some::<Case>(3, 60, |case| {
        let mut listing = expected(case);
        seen += 1;
        if seen == 42 {
            listing[0] ^= 1;
        }
        Ok(listing)
    });
    assert_eq!(summary.differ, 1);
}

/// What a wrong side makes of each line.
type Change = fn(&str) -> String;

/// Each change of the model's lines is found, and is not everywhere.
fn all_found<S: Subject + Made>(more: usize, changes: &[(&str, Change)]) {
    for (name, change) in changes {
        let summary = compare_some::<S>(3, more, |case| {
            let text = String::from_utf8(expected(case)).expect("it is plain text");
            let changed: String = text.split_inclusive('\n').map(change).collect();
            Ok(changed.into_bytes())
        });
        assert!(summary.differ > 0, "{name} was not found");
        assert!(summary.differ < summary.compared || name.starts_with("every"));
    }
}

#[test]
fn a_changed_listing_differs() {
    all_found::<Case>(
        60,
        &[
            ("lower-case digits", |line| line.replace("FF", "ff")),
            ("another letter", |line| line.replace(" X ", " R ")),
            ("no line end at the end of E", |line| {
                let ends = line.starts_with('E');
                if ends { line.trim_end() } else { line }.to_string()
            }),
            ("one step lost", |line| {
                let lost = line.starts_with("7 ");
                if lost { "" } else { line }.to_string()
            }),
            ("columns swapped", |line| line.replace(" 1 0 ", " 0 1 ")),
            ("another limit", |line| line.replace("E 7 ", "E 8 ")),
        ],
    );
}

#[test]
fn a_changed_line_of_a_table_differs() {
    all_found::<Typed>(
        0,
        &[
            ("no unit", |line| line.replace(" bytes", "")),
            ("another unit", |line| line.replace("bytes", "words")),
            ("every line without end", |line| line.trim_end().to_string()),
            ("14 with an offset", |line| line.replace("E 14", "E 14 0")),
            ("8 for 11", |line| line.replace("E 11", "E 8")),
        ],
    );
}

/// The line of a table by another figure; what is refused stays refused.
fn by(figure: fn(&Table) -> u32) -> impl Fn(&Typed) -> Outcome {
    move |typed| match text::table(&typed.text) {
        Ok(table) if table.within_limits() => {
            let mut line = format!("{} bytes\n", figure(&table)).into_bytes();
            line.truncate(typed.ample_room());
            Ok(line)
        }
        _ => Ok(expected(typed)),
    }
}

/// The largest frame of a level, with the mark's.
fn largest(table: &Table, level: u32) -> u32 {
    let frames = table.frames_at(level);
    frames.into_iter().fold(table.mark, u32::max)
}

#[test]
fn a_wrong_figure_differs() {
    type Figure = fn(&Table) -> u32;
    let right: Figure = |table| (0..8).map(|level| largest(table, level)).sum();
    let wrong: [(&str, Figure); 6] = [
        ("seven levels", |table| {
            (0..7).map(|level| largest(table, level)).sum()
        }),
        ("nine levels", |table| {
            (0..9).map(|level| largest(table, level)).sum()
        }),
        ("the mark's frame left out", |table| {
            let frame = |level| table.frames_at(level).pop().unwrap_or(0);
            (0..8).map(frame).sum()
        }),
        ("the sum of a level's frames", |table| {
            let sum = |level| table.frames_at(level).iter().sum::<u32>();
            (0..8).map(|level| sum(level).max(table.mark)).sum()
        }),
        ("forced sources", |table| {
            let mut table = table.clone();
            table.forced = 0;
            (0..8).map(|level| largest(&table, level)).sum()
        }),
        ("source 0", |table| {
            let own = |level| table.rows[0].priority == level;
            let frame = |level| u32::from(own(level)) * table.rows[0].frame;
            (0..8)
                .map(|level| largest(table, level).max(frame(level)))
                .sum()
        }),
    ];
    assert_eq!(compare_some(3, 300, by(right)).differ, 0);
    for (name, figure) in wrong {
        let summary = compare_some(3, 300, by(figure));
        assert!(summary.differ > 10, "{name} was not found");
        assert!(summary.differ < summary.compared, "{name} is everywhere");
    }
}

#[test]
fn a_program_is_fed_and_heard() {
    let program = Program::new(REFERENCE, &[]);
    let generator = Numbered::<Case>::new(3);
    for number in [0, 1, 5, generator.sweeps() - 1] {
        let case = generator.case(number).for_program();
        assert_eq!(program.ask(&case.trace), Ok(expected(&case)));
    }
    let program = Program::new(REFERENCE, &["--stack"]);
    let generator = Numbered::<Typed>::new(3);
    for number in [0, 9, generator.sweeps() - 1, generator.sweeps() + 4] {
        let typed = generator.case(number).for_program();
        assert_eq!(program.ask(&typed.text), Ok(expected(&typed)));
    }
    let complaining = Program::new(env!("CARGO_BIN_EXE_differential"), &[]);
    assert!(complaining.ask(b"").is_err());
    assert!(Program::new("no/such/program", &[]).ask(b"").is_err());
}

#[test]
fn a_batch_is_fed_and_heard() {
    fn heard<S: Subject + Made>(more: usize) {
        let mut batch = Batch::new(Program::new(REFERENCE, &["--batch"]));
        let summary = compare_some::<S>(3, more, |case| batch.ask(case.request()));
        assert_eq!(summary.differ, 0);
    }
    heard::<Case>(60);
    heard::<Typed>(200);
    heard::<Question>(300);
    let mut silent = Batch::new(Program::new(REFERENCE, &["--what"]));
    let summary = compare_some::<Case>(3, 0, |case| silent.ask(case.request()));
    assert_eq!(summary.differ, summary.compared);
}
