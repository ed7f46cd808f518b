//! Reads a transcript of calls on boards from standard input, replays it on the model and compares every answer.

use std::io::{self, Read};
use std::process::ExitCode;

use bench::boards::coverage::Coverage;
use bench::boards::replay;
use bench::program::{not_so, words};
use bench::say;
use bench::tally::Listed;

const USAGE: &str = "\
boards [LEAST] [--table] <transcript

  LEAST    how many boards the transcript has at least (1)
  --table  prints how often each listed item was reached

Ends with 0 if every line could be read, every answer is the model's and all listed items were reached, else with 1, and
with 2 if it was not asked properly.
";

fn main() -> ExitCode {
    let (mut least, mut table) = (1, false);
    for word in words() {
        match (word, word.parse()) {
            ("--table", _) => table = true,
            (_, Ok(number)) => least = number,
            _ => return not_so(&format!("boards: {word:?} is not understood\n\n{USAGE}")),
        }
    }
    match compared(least, table) {
        Ok(()) => ExitCode::SUCCESS,
        Err(why) => {
            say!("boards: {why}");
            ExitCode::FAILURE
        }
    }
}

/// Replays what stands on standard input, tells what was counted, and answers why it will not do.
fn compared(least: u64, table: bool) -> Result<(), String> {
    let mut transcript = String::new();
    let read = io::stdin().read_to_string(&mut transcript);
    read.map_err(|error| format!("the transcript cannot be read: {error}"))?;
    let coverage = replay(&transcript);
    let coverage = coverage.map_err(|fault| format!("line {}: {}", fault.line, fault.why))?;
    coverage.told().iter().for_each(|line| say!("{line}"));
    if table {
        let counts = coverage.table();
        counts
            .iter()
            .for_each(|(count, item)| say!("  {count:>10}  {item:?}"));
    }
    judged(&coverage, least)
}

/// The last line, if enough was compared.
fn judged(coverage: &Coverage, least: u64) -> Result<(), String> {
    let (listed, gaps) = (coverage.table().len(), coverage.gaps());
    gaps.iter().for_each(|item| say!("  not reached: {item:?}"));
    if coverage.boards() < least {
        return Err(format!(
            "{} boards, and {least} were wanted",
            coverage.boards()
        ));
    }
    let reached = format!("{} of {listed} listed items reached", listed - gaps.len());
    if !gaps.is_empty() {
        return Err(reached);
    }
    say!(
        "{} boards compared, none differs; {reached}",
        coverage.boards()
    );
    Ok(())
}
