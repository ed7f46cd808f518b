//! Compares the texts of another side, a program or a linked library, with the model's on many generated cases: the
//! listings of traces, the figures of traces for a report, the stack lines of typed tables, the words that an index
//! read looks at after a trace, or traces explained.

use std::io::{self, Write};
use std::process::ExitCode;
use std::time::{Duration, Instant};

use bench::batch::Batch;
use bench::compare::{
    compare, expected, first_difference, Outcome, Subject, Summary, MOST_FAILURES,
};
use bench::explained::reached::Coverage;
use bench::explained::Asked as Explanation;
use bench::generate::Case;
use bench::hex;
use bench::looked::Question;
use bench::model::Kind;
use bench::numbered::{Made, Numbered};
use bench::program::Program;
use bench::report::generate::Counted;
use bench::say;
use bench::stack::generate::Typed;
use bench::tally::Listed;

const USAGE: &str = "\
differential --program PATH [options] [-- ARGUMENTS]
differential --batch PATH   [options] [-- ARGUMENTS]
differential --exports      [options]
differential --tuned        [options]
differential --trace N [--stack | --figures | --looked | --explained] [--seed N]

  --program PATH  a process for each trace: the trace on standard input, the listing on standard output
  --batch PATH    one process for all traces, which speaks as batch.c does; step limits and room vary too
  --exports       in this process, if it is built with the feature `exports`; step limits and room vary too
  --tuned         the tuned player, in this process, which needs no proved side; step limits and room vary too
  --stack         typed tables and their stack lines, instead of traces and their listings
  --figures       traces and their figures for a report, with --exports or --batch
  --looked        questions how many status words a read looks at after a trace, instead of listings; not for --program
  --explained     traces as text, explained, and parts of them, instead of listings; through programs no parts
  --trace N       writes the trace (or table) of case N to standard output
  --seed N        other traces for another seed (1)
  --count N       how many (900 for --program, else 100000)
  --first N       the number of the first one (0); coverage is judged only from 0 on
  --table         prints how often each listed item was reached
  -- ARGUMENTS    what the program is called with

Ends with 0 if nothing differs and all listed items were reached, else with 1, and with 2 if it was not asked properly.
";

/// How long a smaller case is looked for when a case differs.
const SHRINK_TIME: Duration = Duration::from_secs(10);

/// What was asked for.
#[derive(Default)]
struct Options {
    /// The word for how to reach the other side, and the program that is it.
    way: String,
    path: String,
    arguments: Vec<String>,
    /// The words for what is compared; none: listings.
    sorts: Vec<String>,
    trace: Option<usize>,
    seed: u64,
    count: Option<usize>,
    first: usize,
    table: bool,
}

fn main() -> ExitCode {
    let options = match options(std::env::args().skip(1)) {
        Ok(options) => options,
        Err(error) => return wrong(&error),
    };
    let sorts: Vec<&str> = options.sorts.iter().map(String::as_str).collect();
    match sorts[..] {
        [] => asked::<Case>(&options),
        ["--stack"] => asked::<Typed>(&options),
        ["--figures"] => asked::<Counted>(&options),
        ["--looked"] => asked::<Question>(&options),
        ["--explained"] => asked::<Explanation>(&options),
        _ => wrong("--stack, --figures, --looked and --explained are not asked together"),
    }
}

/// Does what is asked with the numbered cases.
fn asked<S: Reported>(options: &Options) -> ExitCode {
    let generator = Numbered::<S>::new(options.seed);
    let way = options.way.as_str();
    if let Some(number) = options.trace {
        // A reader that has gone away wants no more.
        let _ = io::stdout().write_all(generator.case(number).input());
        return ExitCode::SUCCESS;
    }
    match way {
        "" => wrong("none of --program, --batch, --exports and --tuned is given"),
        "--exports" if cfg!(not(feature = "exports")) => {
            wrong("--exports wants a build with the feature `exports`")
        }
        _ if S::NOT_BY.contains(&way) => wrong(&format!("{} are not asked by {way}", S::MANY)),
        _ => differential(&generator, Other::new(options), options),
    }
}

fn wrong(error: &str) -> ExitCode {
    eprint!("differential: {error}\n\n{USAGE}");
    ExitCode::from(2)
}

fn options(mut words: impl Iterator<Item = String>) -> Result<Options, String> {
    let mut options = Options {
        seed: 1,
        ..Options::default()
    };
    while let Some(word) = words.next() {
        let mut value = || words.next().ok_or(format!("{word} wants a value"));
        match word.as_str() {
            "--program" | "--batch" => (options.path, options.way) = (value()?, word),
            "--exports" | "--tuned" => options.way = word,
            "--stack" | "--looked" | "--figures" | "--explained" => options.sorts.push(word),
            "--trace" => options.trace = Some(number(&value()?)?),
            "--seed" => options.seed = number(&value()?)?,
            "--count" => options.count = Some(number(&value()?)?),
            "--first" => options.first = number(&value()?)?,
            "--table" => options.table = true,
            "--" => options.arguments = words.by_ref().collect(),
            _ => return Err(format!("{word:?} is not understood")),
        }
    }
    Ok(options)
}

fn number<T: std::str::FromStr>(word: &str) -> Result<T, String> {
    word.parse().map_err(|_| format!("{word:?} is no number"))
}

/// The other side of the comparison.
enum Other {
    Program(Program),
    Batch(Batch),
    Exports,
    Tuned,
}

impl Other {
    fn new(options: &Options) -> Other {
        let arguments: Vec<&str> = options.arguments.iter().map(String::as_str).collect();
        let program = Program::new(&options.path, &arguments);
        match options.way.as_str() {
            "--program" => Other::Program(program),
            "--batch" => Other::Batch(Batch::new(program)),
            "--exports" => Other::Exports,
            _ => Other::Tuned,
        }
    }

    fn ask<S: Subject>(&mut self, case: &S) -> Outcome {
        match self {
            Other::Program(program) => program.ask_with(case.input(), &case.complaint()),
            Other::Batch(batch) => case.heard(batch.ask(case.request())?),
            Other::Exports => in_process(case),
            Other::Tuned => case.by_tuned(),
        }
    }

    fn differs<S: Subject>(&mut self, case: &S) -> bool {
        self.ask(case).as_ref() != Ok(&expected(case))
    }
}

#[cfg(feature = "exports")]
fn in_process<S: Subject>(case: &S) -> Outcome {
    case.by_library()
}

#[cfg(not(feature = "exports"))]
fn in_process<S: Subject>(_: &S) -> Outcome {
    unreachable!("--exports is refused without the feature")
}

/// What is told of cases of a sort.
trait Reported: Subject + Made {
    /// What they are.
    const MANY: &'static str;

    /// The ways by which nobody answers them.
    const NOT_BY: &'static [&'static str];

    /// How much was compared, and of what.
    fn amount(summary: &Summary<Self>) -> String;

    /// The case in short.
    fn told(&self) -> String;
}

impl Reported for Case {
    const MANY: &'static str = "traces";
    const NOT_BY: &'static [&'static str] = &[];

    fn amount(summary: &Summary) -> String {
        let (steps, bytes) = (summary.coverage.steps(), summary.bytes);
        let started = by_kind(|kind| summary.coverage.started(kind));
        format!("{steps} steps, {bytes} bytes of listing, started: {started}")
    }

    fn told(&self) -> String {
        let shown = hex::print(start(&self.trace));
        format!("limit {}, trace: {shown}", self.limit)
    }
}

impl Reported for Typed {
    const MANY: &'static str = "tables";
    const NOT_BY: &'static [&'static str] = &["--tuned"];

    fn amount(summary: &Summary<Typed>) -> String {
        format!("{} bytes of lines", summary.bytes)
    }

    fn told(&self) -> String {
        format!("text: {}", start(&self.text).escape_ascii())
    }
}

impl Reported for Question {
    const MANY: &'static str = "questions";
    const NOT_BY: &'static [&'static str] = &["--program", "--tuned"];

    fn amount(summary: &Summary<Question>) -> String {
        format!("{} words looked at", summary.coverage.words)
    }

    fn told(&self) -> String {
        let shown = hex::print(start(&self.trace));
        let (limit, offset) = (self.limit, self.offset);
        format!("limit {limit}, offset {offset:#x}, trace: {shown}")
    }
}

impl Reported for Explanation {
    const MANY: &'static str = "explanations";
    const NOT_BY: &'static [&'static str] = &["--tuned"];

    fn amount(summary: &Summary<Explanation>) -> String {
        let Coverage { steps, longest, .. } = summary.coverage;
        let bytes = summary.bytes;
        format!("{steps} steps, {bytes} bytes of text, the longest line of {longest}")
    }

    fn told(&self) -> String {
        format!("window {:?}, {}", self.window, self.case.told())
    }
}

impl Reported for Counted {
    const MANY: &'static str = "traces";
    const NOT_BY: &'static [&'static str] = &["--program", "--tuned"];

    fn amount(summary: &Summary<Counted>) -> String {
        let [steps, handlers, waits] = summary.coverage.amounts();
        let started = by_kind(|kind| summary.coverage.started(kind));
        format!("{steps} steps, {handlers} handlers started, {waits} waits, started: {started}")
    }

    fn told(&self) -> String {
        self.case.told()
    }
}

/// A number of each kind.
fn by_kind(count: impl Fn(Kind) -> u64) -> String {
    Kind::ALL
        .map(|kind| format!("{} {}", kind.told(), count(kind)))
        .join(", ")
}

/// As much of a case as is shown; `--trace N` writes all.
fn start(bytes: &[u8]) -> &[u8] {
    &bytes[..bytes.len().min(1_000)]
}

/// Compares, reports, and answers the exit status.
fn differential<S: Reported>(
    generator: &Numbered<S>,
    mut other: Other,
    options: &Options,
) -> ExitCode {
    let begin = Instant::now();
    let program = matches!(other, Other::Program(_));
    let usual = if program { 900 } else { 100_000 };
    let numbers = options.first..options.first + options.count.unwrap_or(usual);
    let cases = generator
        .cases(numbers)
        .map(|(number, case)| match program {
            true => (number, case.for_program()),
            false => (number, case),
        });
    let summary = compare(cases, |case| other.ask(case));
    say!(
        "seed {}: {} {} compared, {} differ; {:.1} s; {}",
        options.seed,
        summary.compared,
        S::MANY,
        summary.differ,
        begin.elapsed().as_secs_f64(),
        S::amount(&summary),
    );
    if summary.failed == MOST_FAILURES {
        say!("stopped after {MOST_FAILURES} failures");
    }
    report_difference(&summary, &mut other);
    let judged = options.first == 0 && summary.failed < MOST_FAILURES;
    let gaps = report_items(&summary.coverage, judged, options.table);
    if summary.differ > 0 || (judged && gaps > 0) {
        ExitCode::FAILURE
    } else {
        ExitCode::SUCCESS
    }
}

/// The first case that differs, and a smaller one if there is one.
fn report_difference<S: Reported>(summary: &Summary<S>, other: &mut Other) {
    let Some((number, case)) = &summary.first else {
        return;
    };
    say!("case {number} differs:");
    describe(case, other);
    let smaller = case.smaller(SHRINK_TIME, |case| other.differs(case));
    if smaller.input().len() < case.input().len() {
        say!("a smaller one that differs:");
        describe(&smaller, other);
    }
}

fn describe<S: Reported>(case: &S, other: &mut Other) {
    let (name, length, room) = (case.name(), case.input().len(), case.room());
    say!("  {name}, {length} bytes, room {room:?}");
    say!("  {}", case.told());
    match other.ask(case) {
        Err(error) => say!("  other: {error}"),
        Ok(text) => match first_difference(&expected(case), &text) {
            None => say!("  the second time it does not differ"),
            Some(difference) => {
                say!("  line {}", difference.line);
                say!("  model: {}", difference.expected);
                say!("  other: {}", difference.other);
            }
        },
    }
}

/// Prints what was reached and what was not, and answers how many listed items were not.
fn report_items(coverage: &impl Listed, judged: bool, all: bool) -> usize {
    let items = coverage.table();
    let gaps = items.iter().filter(|(count, _)| *count == 0);
    let missing = gaps.clone().count();
    say!(
        "coverage: {} of {} listed items reached{}",
        items.len() - missing,
        items.len(),
        if judged { "" } else { " (not judged)" }
    );
    if judged {
        gaps.for_each(|(_, item)| say!("  not reached: {item:?}"));
    }
    if all {
        items
            .iter()
            .for_each(|(count, item)| say!("  {count:>10}  {item:?}"));
    }
    missing
}
