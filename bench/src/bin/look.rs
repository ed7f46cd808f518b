//! Runs the programs that print waves and pictures on generated traces and windows, reads what they print, and compares
//! every value, bar, box and number with the model, and then every byte.

use std::path::PathBuf;
use std::process::ExitCode;
use std::time::Duration;

use bench::compare::{self, first_difference, Subject, MOST_FAILURES};
use bench::generate::Case;
use bench::look::reached::{listed_of_pictures, listed_of_waves, Reached};
use bench::look::{Generator, Window, TRACES, WINDOWS};
use bench::program::{input, not_so, words, Program};
use bench::trace::PROGRAM_LIMIT;
use bench::{hex, picture, say, waves};

const USAGE: &str = "\
look --wave PATH --picture PATH [OPTION..] [-- WORD..]
look --meaning TRACE <DUMP

  --wave PATH      the program that prints the waves of the trace on standard input
  --picture PATH   the program that prints a picture of it, by a first step and a number of steps
  --traces N       how many traces (20000)
  --windows N      how many windows (2000)
  --seed N         other traces and windows (1)
  -- WORD..        what the programs are started by, with arguments: a loader or an emulator
  --meaning TRACE  whether the dump on standard input, from any program, says of the trace in a file what the model says

Ends with 0 if nothing differs and, with as many traces and windows as above or more, all listed items were reached;
else with 1, and with 2 if it was not asked properly.
";

/// How long a smaller trace is looked for.
const SEARCH: Duration = Duration::from_secs(20);

/// What was asked.
struct Asked {
    wave: Program,
    picture: Program,
    traces: usize,
    windows: usize,
    seed: u64,
}

fn main() -> ExitCode {
    let words = words();
    if let ["--meaning", path] = words[..] {
        return means_the_same(path);
    }
    let asked = match asked(&words) {
        Ok(asked) => asked,
        Err(why) => return not_so(&format!("look: {why}\n\n{USAGE}")),
    };
    let generator = Generator::new(asked.seed);
    let waves = compare_waves(&asked, &generator);
    let pictures = compare_pictures(&asked, &generator);
    ExitCode::from(u8::from(!(waves && pictures)))
}

/// Compares a dump that some program wrote, by what it means.
fn means_the_same(path: &str) -> ExitCode {
    let trace = std::fs::read(path).map_err(|error| error.to_string());
    let compared =
        trace.and_then(|trace| waves::meaning(&input(), &waves::waves(&trace, PROGRAM_LIMIT)));
    match compared {
        Ok(waves::Compared { ticks, values, .. }) => {
            say!("{ticks} ticks, {values} values of signals");
            ExitCode::SUCCESS
        }
        Err(why) => {
            say!("{path}: {why}");
            ExitCode::FAILURE
        }
    }
}

fn asked(words: &[&str]) -> Result<Asked, String> {
    let mut words = words.iter().copied();
    let (mut wave, mut picture, mut by) = (None, None, Vec::new());
    let (mut traces, mut windows, mut seed) = (TRACES, WINDOWS, 1);
    while let Some(option) = words.next() {
        if option == "--" {
            by = words.collect();
            break;
        }
        let value = words.next();
        let value = value.ok_or_else(|| format!("{option:?} is not understood"))?;
        let number = value.parse().map_err(|_| format!("{value:?} is no number"));
        match option {
            "--wave" => wave = Some(value),
            "--picture" => picture = Some(value),
            "--traces" => traces = number? as usize,
            "--windows" => windows = number? as usize,
            "--seed" => seed = number?,
            _ => return Err(format!("{option:?} is not understood")),
        }
    }
    let program = |path: Option<&str>| {
        let path = path.ok_or("a program is missing")?;
        let mut words: Vec<&str> = [by.as_slice(), &[path]].concat();
        let first = PathBuf::from(words.remove(0));
        Ok::<_, String>(Program::new(first, &words))
    };
    Ok(Asked {
        wave: program(wave)?,
        picture: program(picture)?,
        traces,
        windows,
        seed,
    })
}

/// What came of many comparisons of one sort.
#[derive(Default)]
struct Tally {
    compared: usize,
    reached: Reached,
    /// How much was compared.
    amounts: [usize; 4],
    /// Windows of which there is no picture.
    none: usize,
    /// The numbers of those that differ, and how.
    differ: Vec<(usize, String)>,
}

impl Tally {
    fn add(&mut self, more: [usize; 4]) {
        let amounts = self.amounts.iter_mut().zip(more);
        amounts.for_each(|(amount, more)| *amount += more);
    }
}

/// Compares so many on all processors, and adds up what came of it.
fn on_all_processors(
    count: usize,
    compare: impl Fn(usize, &mut Tally) -> Result<(), String> + Sync,
) -> Tally {
    let counted = |number: usize, tally: &mut Tally| {
        tally.compared += 1;
        compare(number, tally)
    };
    let (tallies, differ) = compare::on_all_processors(count, counted);
    let mut all = Tally {
        differ,
        ..Tally::default()
    };
    for tally in &tallies {
        all.compared += tally.compared;
        all.none += tally.none;
        all.add(tally.amounts);
        all.reached.add(&tally.reached);
    }
    all
}

/// The last line of a sort, and whether all is well. Fewer than are wanted by default need not reach everything.
fn judged(what: &str, tally: &Tally, listed: &[String], full: bool) -> bool {
    let gaps = tally.reached.gaps(listed);
    for (number, why) in &tally.differ {
        say!("  {what} {number}: {why}");
    }
    if full {
        gaps.iter().for_each(|item| say!("  not reached: {item}"));
    }
    let (differ, reached) = (tally.differ.len(), listed.len() - gaps.len());
    let differ = match differ {
        0 => "none differs".to_string(),
        MOST_FAILURES.. => format!("{differ} differ, and the rest was left out"),
        _ => format!("{differ} differ"),
    };
    say!(
        "  {differ}; {reached} of {} listed items reached",
        listed.len()
    );
    tally.differ.is_empty() && (gaps.is_empty() || !full)
}

fn compare_waves(asked: &Asked, generator: &Generator) -> bool {
    let compare = |number: usize, tally: &mut Tally| {
        let trace = generator.trace(number).trace;
        let expected = waves::waves(&trace, PROGRAM_LIMIT);
        tally.reached.see_waves(&expected);
        let (compared, bytes) = wave_differs(&asked.wave, &trace, &expected)?;
        tally.reached.see_dump(bytes);
        tally.add([
            compared.signals,
            compared.ticks,
            compared.values,
            compared.changes,
        ]);
        Ok(())
    };
    let tally = on_all_processors(asked.traces, compare);
    let [signals, ticks, values, changes] = tally.amounts;
    say!(
        "waves: {} traces, {signals} signals declared, {ticks} ticks, {values} values of signals, {changes} changes",
        tally.compared
    );
    let full = asked.traces >= TRACES;
    let well = judged("trace", &tally, &listed_of_waves(), full);
    if let Some((number, _)) = tally.differ.first() {
        show_smaller(asked, generator.trace(*number));
    }
    well
}

/// What a program prints for a trace against the model: what it means first, then every byte. Answers how much was
/// compared, and the number of bytes.
fn wave_differs(
    program: &Program,
    trace: &[u8],
    expected: &waves::Waves,
) -> Result<(waves::Compared, usize), String> {
    let printed = program.ask(trace)?;
    let compared = waves::compare(&printed, expected)?;
    match first_difference(&waves::write(expected), &printed) {
        None => Ok((compared, printed.len())),
        Some(difference) => Err(format!("means the same by another text, {difference:?}")),
    }
}

/// A trace that differs, and as small a one as is found in some time.
fn show_smaller(asked: &Asked, case: Case) {
    let why = |case: &Case| {
        let expected = waves::waves(&case.trace, PROGRAM_LIMIT);
        wave_differs(&asked.wave, &case.trace, &expected).err()
    };
    let smaller = case.smaller(SEARCH, |case| why(case).is_some());
    for (which, case) in [("the first", &case), ("a smaller one", &smaller)] {
        say!("  {which} that differs: {}", start(&case.trace));
        say!("    {}", why(case).unwrap_or_default());
    }
}

/// As much of a trace as is shown.
fn start(trace: &[u8]) -> String {
    hex::print(&trace[..trace.len().min(400)])
}

fn compare_pictures(asked: &Asked, generator: &Generator) -> bool {
    let compare = |number: usize, tally: &mut Tally| {
        let window = generator.window(number);
        compare_picture(&asked.picture, &window, tally).map_err(|why| {
            let (first, steps) = (&window.first, &window.steps);
            format!("{why}\n    {first:?} {steps:?} of {}", start(&window.trace))
        })
    };
    let tally = on_all_processors(asked.windows, compare);
    let [columns, bars, boxes, refused] = tally.amounts;
    say!(
        "pictures: {} windows, {} of them without a picture; {columns} columns, {bars} bars, {boxes} dark boxes, {refused} numbers of refusals",
        tally.compared,
        tally.none
    );
    let full = asked.windows >= WINDOWS;
    judged("window", &tally, &listed_of_pictures(), full)
}

/// What a program prints for a window against the model. Where there is no picture it says so in one line on standard
/// error and prints nothing.
fn compare_picture(program: &Program, window: &Window, tally: &mut Tally) -> Result<(), String> {
    let (printed, told) = program.run(&[&window.first, &window.steps], &window.trace)?;
    let expected = match (window.first.parse(), window.steps.parse()) {
        (Ok(first), Ok(steps)) => picture::nesting(&window.trace, PROGRAM_LIMIT, first, steps),
        _ => None,
    };
    let Some(nesting) = expected else {
        tally.none += 1;
        tally.reached.see_none(window);
        let one_line = told.iter().filter(|&&byte| byte == b'\n').count() == 1;
        return match printed.is_empty() && one_line && told.ends_with(b"\n") {
            true => Ok(()),
            false => Err(format!(
                "no picture is due, but {} bytes are printed; on standard error: {}",
                printed.len(),
                told.escape_ascii()
            )),
        };
    };
    if !told.is_empty() {
        return Err(format!("on standard error: {}", told.escape_ascii()));
    }
    tally.reached.see_picture(window, &nesting);
    tally.reached.see_size(printed.len());
    let compared = picture::compare(&printed, &nesting)?;
    tally.add([
        compared.columns,
        compared.bars,
        compared.boxes,
        compared.refused,
    ]);
    Ok(())
}
