//! The model of a year's report as a program: names on standard input, the report on standard output; or it makes a
//! folder of traces with lists of names.

use std::io::{self, BufReader, BufWriter, Write};
use std::path::Path;
use std::process::ExitCode;

use bench::program::{not_so, words};
use bench::report::folder::{make, make_year, NAMES};
use bench::report::names::report;

const USAGE: &str = "\
report <NAMES                reports on the traces in the files that are named, one to a line
report --folder PATH         makes a folder of traces, and in it lists of names (*.names)
report --year PATH [COUNT]   makes a folder of so many traces (3000) of 20,000 steps each, and all.names in it
";

fn main() -> ExitCode {
    let made = match words()[..] {
        [] => {
            let mut names = BufReader::new(io::stdin().lock());
            let mut to = BufWriter::new(io::stdout().lock());
            // A reader that has gone away wants no more.
            let _ = report(&mut names, &mut to).and_then(|()| to.flush());
            return ExitCode::SUCCESS;
        }
        ["--folder", path] => make(Path::new(path)),
        ["--year", path] => make_year(Path::new(path), NAMES),
        ["--year", path, count] if count.parse::<usize>().is_ok() => {
            make_year(Path::new(path), count.parse().unwrap_or(NAMES))
        }
        _ => return not_so(USAGE),
    };
    match made {
        Ok(()) => ExitCode::SUCCESS,
        Err(error) => {
            eprintln!("report: {error}");
            ExitCode::FAILURE
        }
    }
}
