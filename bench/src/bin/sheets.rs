//! The model of the tuning sheet as a program, and what compares the proved programs with it on generated folders.

use std::collections::BTreeSet;
use std::error::Error;
use std::fs;
use std::io::{self, BufReader, Write};
use std::path::Path;
use std::process::ExitCode;

use bench::compare::{first_difference, MOST_FAILURES};
use bench::program::{input, words, Program};
use bench::say;
use bench::sheet::figures::{due, figures};
use bench::sheet::generate::{sample, Generator};
use bench::sheet::names::named_table;
use bench::sheet::reached::ITEMS;
use bench::sheet::table::table;
use bench::sheet::{sheet_of_files, Pages};
use bench::stack::lead::lead;

const USAGE: &str = "\
sheets TABLE <NAMES                        prints the page over a typed table and the traces that are named
sheets --table <TRACE                      prints the typed table of a trace
sheets --sample FOLDER COUNT TABLE         makes a folder of COUNT traces for a typed table, and a list of names in it
sheets --compare FOLDER COUNT PATH WORD..  compares COUNT pages of the program at PATH, with WORDs and a table's name as
                                           its arguments, with the model's; each folder of traces is made in FOLDER, with
                                           the program's page in it as page.html
sheets --tables COUNT PATH WORD..          the same with the typed tables of COUNT traces
";

/// What the program's name puts before each line on standard error.
const TELLS: &str = "sheet_run: ";

/// What a line says that leads to the slip of a refused table: each is to be compared.
const LEADS: [&str; 9] = [
    "the text is longer than",
    "a number was expected",
    "the word of forced sources has",
    "nothing may follow",
    "a name has",
    "is over 7\n",
    "is over 3\n",
    "frame 65540 is over",
    "of the mark is over 65535\n",
];

type Outcome = Result<bool, Box<dyn Error>>;

fn main() -> ExitCode {
    match asked(&words()) {
        Ok(good) => ExitCode::from(u8::from(!good)),
        Err(error) => {
            eprintln!("sheets: {error}");
            ExitCode::from(2)
        }
    }
}

fn asked(words: &[&str]) -> Outcome {
    match *words {
        ["--table"] => print_table(),
        ["--sample", folder, count, table] => make_sample(Path::new(folder), count.parse()?, table),
        ["--compare", folder, count, path, ref more @ ..] => {
            compare(Path::new(folder), count.parse()?, &Program::new(path, more))
        }
        ["--tables", count, path, ref more @ ..] => {
            tables(count.parse()?, &Program::new(path, more))
        }
        [table] if !table.starts_with("--") => print_page(table),
        _ => Err(USAGE.into()),
    }
}

/// Prints the page, or the line that leads to the table's slip; as the proved program, which has no status to set.
fn print_page(table: &str) -> Outcome {
    let table = fs::read(table)?;
    match sheet_of_files(&table, BufReader::new(io::stdin().lock())) {
        Ok(pages) => io::stdout().write_all(pages.text().as_bytes())?,
        Err(_) => eprint!("{}", told_of(&table)),
    }
    Ok(true)
}

/// What is told of a refused table.
fn told_of(table: &[u8]) -> String {
    TELLS.to_owned() + &lead(table).unwrap_or_default()
}

fn print_table() -> Outcome {
    match table(&input()) {
        Ok(text) => print!("{text}"),
        Err(line) => eprint!("{line}"),
    }
    Ok(true)
}

/// Makes a folder of traces.
fn make_sample(folder: &Path, count: u32, table: &str) -> Outcome {
    let text = fs::read(table)?;
    let (table, _) = named_table(&text).map_err(|_| "the table is refused")?;
    sample(&text, &table, count).write(folder)?;
    Ok(true)
}

/// What the compared pages and lines have reached.
#[derive(Default)]
struct Reached(BTreeSet<&'static str>);

impl Reached {
    fn see(&mut self, pages: Option<&Pages>, table: &[u8]) {
        match pages {
            Some(pages) => {
                let held = ITEMS.iter().filter(|(_, holds)| holds(pages));
                self.0.extend(held.map(|(what, _)| *what));
            }
            None => {
                let line = told_of(table);
                let told = LEADS.iter().filter(|words| line.contains(**words));
                self.0.extend(told);
            }
        }
    }

    /// Says what is not reached; whether all is.
    fn all(&self) -> bool {
        let listed: Vec<&str> = ITEMS.iter().map(|(what, _)| *what).chain(LEADS).collect();
        let missed = listed.iter().filter(|what| !self.0.contains(**what));
        missed.for_each(|what| say!("not reached: {what}"));
        say!("{} of {} listed items reached", self.0.len(), listed.len());
        self.0.len() == listed.len()
    }
}

/// Compares so many pages; whether none differs and every item is reached.
fn compare(folder: &Path, count: u32, program: &Program) -> Outcome {
    let generator = Generator::new(1);
    let mut reached = Reached::default();
    let (mut wrong, mut traces, mut found, mut refused) = (0, 0, 0, 0);
    for number in 0..count as usize {
        let here = folder.join(number.to_string());
        let case = generator.case(number);
        let list = case.write(&here)?;
        let pages = sheet_of_files(&case.table, list.as_slice()).ok();
        reached.see(pages.as_ref(), &case.table);
        traces += pages.as_ref().map_or(0, |pages| pages.rows.len());
        refused += u32::from(pages.is_none());
        match judged(pages.as_ref(), program, &here, (&case.table, &list)) {
            Ok(count) => found += count,
            Err(why) => {
                say!("{}: {why}", here.display());
                wrong += 1;
            }
        }
        if wrong == MOST_FAILURES {
            break;
        }
    }
    say!("{count} tables, {refused} of them refused, {traces} traces, {found} figures found; {wrong} pages or lines differ");
    Ok(reached.all() && wrong == 0)
}

/// How many figures a page has that is the model's; of a refused table there is the model's line on standard error and no
/// page.
fn judged(
    pages: Option<&Pages>,
    program: &Program,
    folder: &Path,
    (table, list): (&[u8], &[u8]),
) -> Result<usize, String> {
    let (page, told) = program.run(&[&folder.join("table").to_string_lossy()], list)?;
    fs::write(folder.join("page.html"), &page).map_err(|error| error.to_string())?;
    let Some(pages) = pages else {
        let wanted = told_of(table);
        let good = page.is_empty() && told == wanted.as_bytes();
        let told = told.escape_ascii();
        return good
            .then_some(0)
            .ok_or(format!("a table that is refused has a page, or is told by\n  {told}\n  and by the model\n  {wanted}"));
    };
    let wanted = pages.text();
    if !told.is_empty() {
        return Err(format!("on standard error: {}", told.escape_ascii()));
    }
    if let Some(at) = first_difference(wanted.as_bytes(), &page) {
        return Err(format!(
            "line {}\n  {}\n  and by the model\n  {}",
            at.line, at.other, at.expected
        ));
    }
    match figures(&wanted)?.len() {
        found if found == due(pages) => Ok(found),
        found => Err(format!("{found} figures in place of {}", due(pages))),
    }
}

/// Compares so many typed tables of traces, or the lines that say why there is none; whether none differs.
fn tables(count: u32, program: &Program) -> Outcome {
    let traces = bench::report::generate::Generator::new(3);
    let (mut printed, mut wrong) = (0, 0);
    for number in traces.sweeps()..traces.sweeps() + count as usize {
        let trace = traces.case(number).case.trace;
        let wanted = match table(&trace) {
            Ok(text) => (text.into_bytes(), vec![]),
            Err(line) => (vec![], line.into_bytes()),
        };
        printed += u32::from(wanted.1.is_empty());
        if program.run(&[], &trace)? != wanted {
            say!("trace {number}: another table or line than by the model");
            wrong += 1;
        }
    }
    say!("{count} traces, {printed} tables of them, {wrong} differ");
    Ok(wrong == 0 && printed > 0 && printed < count)
}
