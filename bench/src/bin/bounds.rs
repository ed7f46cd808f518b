//! Compares the bounds of waits, by the proved library or by the program of `./run bound`, with those that are counted by
//! brute force, each wait from its definition, on generated traces.

use std::process::ExitCode;

use bench::bounds::text::told;
use bench::bounds::waits::{summary, Bound, Bounded, Summary, Terms};
use bench::bounds::Records;
use bench::compare::MOST_FAILURES;
use bench::generate::Case;
use bench::model::aic::SOURCES;
use bench::program::{not_so, words, Program};
use bench::report::generate::Generator;
use bench::say;
use bench::trace::PROGRAM_LIMIT;

const USAGE: &str = "\
bounds --exports COUNT
bounds --program COUNT PATH [WORD..]

  --exports   COUNT traces through the C function `wisteria_bounds`, if it is built with the feature `exports`
  --program   COUNT traces through the program at PATH, with WORDs and a source behind them as its arguments

Ends with 0 if nothing differs, no wait with a bound has more started than that, and every term and every break was
reached; else with 1, and with 2 if it was not asked properly.
";

/// Numbers that are those of no source that waits, besides those of sources that do not.
const NONE: [u32; 4] = [0, 32, 41, u32::MAX];

/// What is reached by a wait.
const ITEMS: [(&str, fn(&Bounded) -> bool); 11] = [
    ("waits that ended", |wait| wait.ended.is_some()),
    ("waits that did not end", |wait| wait.ended.is_none()),
    ("waits without a bound, by a rewrite", |wait| {
        terms(wait).is_none()
    }),
    ("waits that met their bound, over 0", |wait| {
        wait.started > 0 && terms(wait).is_some_and(|terms| terms.sum() == wait.started)
    }),
    ("waits with three terms or more", |wait| {
        (0..6).filter(|&nth| has(wait, nth)).count() > 2
    }),
    ("waits with the term pending", |wait| has(wait, 0)),
    ("waits with the term edges", |wait| has(wait, 1)),
    ("waits with the term commands", |wait| has(wait, 2)),
    ("waits with the term turns", |wait| has(wait, 3)),
    ("waits with the term closed while active", |wait| {
        has(wait, 4)
    }),
    ("waits with the term remembered", |wait| has(wait, 5)),
];

fn terms(wait: &Bounded) -> Option<Terms> {
    match wait.bound {
        Bound::Terms(terms) => Some(terms),
        Bound::Rewritten(_) => None,
    }
}

fn has(wait: &Bounded, nth: usize) -> bool {
    terms(wait).is_some_and(|terms| terms.each()[nth] > 0)
}

/// How much was asked, and how often each item was reached.
#[derive(Default)]
struct Coverage {
    traces: u64,
    asked: u64,
    waits: usize,
    reached: [usize; ITEMS.len()],
}

impl Coverage {
    fn see(&mut self, waits: &[Bounded]) -> Result<(), String> {
        let is_beyond = |wait: &&Bounded| terms(wait).is_some_and(|it| wait.started > it.sum());
        if let Some(wait) = waits.iter().find(is_beyond) {
            return Err(format!("more is started than its bound: {wait:?}"));
        }
        self.waits += waits.len();
        for (count, (_, reaches)) in self.reached.iter_mut().zip(ITEMS) {
            *count += waits.iter().filter(|wait| reaches(wait)).count();
        }
        Ok(())
    }
}

/// The figures of a source as the library writes them: waits, unended, unbounded, the first step, the terms, their sum.
type Numbers = ([u32; 4], [u32; 6], u64);

/// Of a largest bound of 0 no terms are told, and so of no bound.
fn expected(summary: &Summary) -> Numbers {
    let most = summary.most.unwrap_or_default();
    (
        [
            summary.waits,
            summary.unended,
            summary.unbounded,
            summary.first_unbounded.unwrap_or(0),
        ],
        most.each(),
        u64::from(most.sum()),
    )
}

#[cfg(feature = "exports")]
fn by_library(trace: &[u8], limit: u32, source: u32) -> Numbers {
    bench::exports::bounds_of(trace, limit, source)
}

#[cfg(not(feature = "exports"))]
fn by_library(_: &[u8], _: u32, _: u32) -> Numbers {
    unreachable!("--exports is refused without the feature")
}

/// The sources that are asked of a trace: all that wait in it, one that may not, and one number that is no source's.
fn asked(records: &Records, number: usize) -> Vec<u32> {
    let some = |&source: &usize| !records.history.waits(source).is_empty();
    let waiting = (0..SOURCES).filter(some).map(|source| source as u32);
    let others = [(number % SOURCES) as u32, NONE[number % NONE.len()]];
    waiting.chain(others).collect()
}

/// One trace through the library or, with a word that names a source or none, through a program.
fn compared(
    case: &Case,
    number: usize,
    program: Option<&Program>,
    coverage: &mut Coverage,
) -> Result<(), String> {
    let limit = program.map_or(case.limit, |_| PROGRAM_LIMIT);
    let records = Records::of(&case.trace, limit);
    coverage.traces += 1;
    for source in asked(&records, number) {
        let known = (1..SOURCES as u32).contains(&source) && !records.aics.is_empty();
        let waits = match known {
            true => records.waits(source as usize),
            false => Vec::new(),
        };
        coverage.asked += 1;
        coverage.see(&waits)?;
        match program {
            None => {
                let here = expected(&summary(&waits));
                let there = by_library(&case.trace, limit, source);
                if here != there {
                    return Err(format!(
                        "source {source}: {there:?}, by brute force {here:?}"
                    ));
                }
            }
            Some(program) => {
                let here = match told(&case.trace, &source.to_string()) {
                    Ok(text) => (text.into_bytes(), Vec::new()),
                    Err(line) => (Vec::new(), line.into_bytes()),
                };
                if program.run(&[&source.to_string()], &case.trace)? != here {
                    return Err(format!("source {source}: another text than by brute force"));
                }
            }
        }
    }
    Ok(())
}

fn main() -> ExitCode {
    let (count, program) = match words()[..] {
        ["--exports", count] if cfg!(feature = "exports") => (count, None),
        ["--program", count, path, ref more @ ..] => (count, Some(Program::new(path, more))),
        _ => return not_so(USAGE),
    };
    let Ok(count) = count.parse::<usize>() else {
        return not_so(USAGE);
    };
    let generator = Generator::new(1);
    // Through a program, which is slow to start, the traces that are the same for every seed are left to the library.
    let first = program.as_ref().map_or(0, |_| generator.sweeps());
    let (mut coverage, mut wrong) = (Coverage::default(), 0);
    for (number, counted) in generator.cases(first..first + count) {
        let outcome = compared(&counted.case, number, program.as_ref(), &mut coverage);
        if let Err(why) = outcome {
            say!("trace {number}: {why}");
            wrong += 1;
            if wrong == MOST_FAILURES {
                break;
            }
        }
    }
    let (traces, asked, waits) = (coverage.traces, coverage.asked, coverage.waits);
    say!("{traces} traces, {asked} questions, {waits} waits, {wrong} differ");
    for ((what, _), reached) in ITEMS.iter().zip(coverage.reached) {
        say!("{reached:>9} {what}");
    }
    ExitCode::from(u8::from(wrong > 0 || coverage.reached.contains(&0)))
}
