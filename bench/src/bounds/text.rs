//! The lines of `./run bound`: the waits of a source over a trace, or the line that says why there are none.

use super::waits::{summary, Bound, Bounded};
use super::Records;
use crate::trace::{play, PROGRAM_LIMIT};

/// What the program prints for a trace and the word behind it, or the line that it says on standard error.
pub fn told(trace: &[u8], word: &str) -> Result<String, String> {
    let mut records = Records::default();
    let report = play(trace, PROGRAM_LIMIT, &mut records);
    let ending = match report.ending {
        Ok(_) => String::new(),
        Err(fault) => format!("E {} {}\n", fault.refusal.number(), fault.offset),
    };
    if report.machine.is_none() {
        return Err(format!("no bound: the trace has no beginning, {ending}"));
    }
    if records.aics.is_empty() {
        return Err(
            "no bound: the trace is not of an AIC, and no source of another controller waits\n"
                .to_owned(),
        );
    }
    let Some(source) = source(word) else {
        return Err("no bound: a source that waits is a number from 1 to 31\n".to_owned());
    };
    let waits = records.waits(source);
    let lines: String = waits.iter().map(line).collect();
    Ok(lines + &last(source, &waits) + &ending)
}

/// The source that a word names: digits alone, in so far as 16 bytes of it show.
fn source(word: &str) -> Option<usize> {
    let word = &word[..word.len().min(16)];
    let digits = word.bytes().all(|byte| byte.is_ascii_digit());
    let number: u64 = word.parse().ok().filter(|_| digits)?;
    (1..=31).contains(&number).then_some(number as usize)
}

fn line(wait: &Bounded) -> String {
    let ended = match wait.ended {
        None => "not ended".to_owned(),
        Some(step) => format!("ended by step {step}"),
    };
    let bound = match wait.bound {
        Bound::Rewritten(step) => {
            format!("no bound: a mode or a forcing written by step {step}")
        }
        Bound::Terms(terms) => format!(
            "at most {} handlers: pending {}, edges {}, commands {}, turns {}, closed while active {}, remembered {}",
            terms.sum(),
            terms.pending,
            terms.edges,
            terms.commands,
            terms.turns,
            terms.closed_active,
            terms.remembered,
        ),
    };
    format!(
        "began by step {}, {ended}; handlers started {}, {bound}\n",
        wait.began, wait.started
    )
}

fn last(source: usize, waits: &[Bounded]) -> String {
    let all = summary(waits);
    let most = match all.most {
        None => String::new(),
        Some(terms) => format!(
            "; handlers started in one with a bound at most {}",
            terms.sum()
        ),
    };
    format!(
        "source {source}: waits {}, not ended {}, without a bound {}{most}\n",
        all.waits, all.unended, all.unbounded
    )
}
