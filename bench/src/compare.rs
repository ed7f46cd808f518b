//! The comparison itself: another side prints a text for the same cases, and every byte has to be the model's.

use std::sync::atomic::{AtomicUsize, Ordering};
use std::sync::Mutex;
use std::thread;
use std::time::{Duration, Instant};

use crate::batch::Request;
use crate::coverage::Coverage;
use crate::generate::Case;
use crate::listing::Text;
use crate::model::{Answer, Machine, Recorded};
use crate::report::ending;
use crate::tally::Listed;
use crate::trace::{pieces, play, Observer, PROGRAM_LIMIT};
use crate::tuned::{self, added, Played};

/// What the other side makes of a case: its text, or what went wrong.
pub type Outcome = Result<Vec<u8>, String>;

/// What is compared: bytes that both sides print a text for, into so much room.
pub trait Subject: Clone {
    /// What counts what the cases reach.
    type Coverage: Default + Listed;

    /// Which sort of case it is.
    fn name(&self) -> &'static str;

    /// What is handed over.
    fn input(&self) -> &[u8];

    /// How many bytes the text may have; none said: as many as it has.
    fn room(&self) -> Option<usize> {
        None
    }

    /// The model's text, whatever the room; what the case reaches is counted.
    fn by_model(&self, coverage: &mut Self::Coverage) -> Vec<u8>;

    /// The same through a process that serves many.
    fn request(&self) -> Request;

    /// The text from what such a process replies, if that is no text itself.
    fn heard(&self, reply: Vec<u8>) -> Outcome {
        Ok(reply)
    }

    /// The same by the linked library.
    #[cfg(feature = "exports")]
    fn by_library(&self) -> Outcome;

    /// The same by the tuned player, where there is one for it.
    fn by_tuned(&self) -> Outcome {
        Err("nothing is tuned for it".to_string())
    }

    /// What a program of its own says of it on standard error.
    fn complaint(&self) -> Vec<u8> {
        Vec::new()
    }

    /// What a program of its own makes of it has all the room it wants.
    fn for_program(self) -> Self;

    /// A smaller case that still differs, if one is found in some time.
    fn smaller(&self, time: Duration, differs: impl FnMut(&Self) -> bool) -> Self;
}

impl Subject for Case {
    type Coverage = Coverage;

    fn name(&self) -> &'static str {
        self.name
    }

    fn input(&self) -> &[u8] {
        &self.trace
    }

    fn room(&self) -> Option<usize> {
        self.room
    }

    fn by_model(&self, coverage: &mut Coverage) -> Vec<u8> {
        let mut text = Text::default();
        play(&self.trace, self.limit, &mut (&mut text, coverage));
        text.bytes
    }

    fn request(&self) -> Request {
        Request::listing(self)
    }

    #[cfg(feature = "exports")]
    fn by_library(&self) -> Outcome {
        crate::exports::list(self)
    }

    /// The play has to come to the same as well.
    fn by_tuned(&self) -> Outcome {
        let (tuned, model) = (tuned::play(&self.trace, self.limit), played(self));
        if (Played { state: 0, ..tuned }) != model {
            return Err(format!("the model played {model:?}, the other {tuned:?}"));
        }
        written(self.ample_room(), |buffer| {
            tuned::list(&self.trace, self.limit, buffer)
        })
    }

    /// A program has its own step limit.
    fn for_program(self) -> Case {
        Case {
            limit: PROGRAM_LIMIT,
            room: None,
            ..self
        }
    }

    fn smaller(&self, time: Duration, differs: impl FnMut(&Case) -> bool) -> Case {
        let with = |trace| Case {
            trace,
            ..self.clone()
        };
        shrink(self, with, time, differs)
    }
}

/// What the model's play of a case comes to, without its state.
fn played(case: &Case) -> Played {
    let mut answers = Answers(0);
    let report = play(&case.trace, case.limit, &mut answers);
    let (refusal, offset) = ending(&report);
    Played {
        steps: report.steps,
        refusal,
        offset,
        answers: answers.0,
        state: 0,
    }
}

/// All answers of a play together.
struct Answers(u64);

impl Observer for Answers {
    fn after(&mut self, _: &Machine, _: u32, _: Recorded, answer: Answer) {
        self.0 = added(self.0, answer);
    }
}

/// What a buffer holds where nothing was written.
const UNTOUCHED: u8 = 0xA5;

/// What is written into so much room. The bytes behind it must be left as they were.
pub fn written(room: usize, write: impl Fn(&mut [u8]) -> usize) -> Outcome {
    let mut buffer = vec![UNTOUCHED; room];
    let written = write(&mut buffer);
    let rest = buffer
        .get(written..)
        .ok_or_else(|| format!("{written} bytes written into {room}"))?;
    if rest.iter().any(|&byte| byte != UNTOUCHED) {
        return Err(format!("bytes behind the {written} written ones changed"));
    }
    buffer.truncate(written);
    Ok(buffer)
}

/// What came of many comparisons.
pub struct Summary<S: Subject = Case> {
    pub compared: usize,
    /// The bytes of all texts.
    pub bytes: usize,
    pub differ: usize,
    /// How often the other side had no text at all; after some failures the comparison stops.
    pub failed: usize,
    /// The number of the first case that differs, and the case.
    pub first: Option<(usize, S)>,
    pub coverage: S::Coverage,
}

/// A comparison with so many failures is not worth the wait for more.
pub const MOST_FAILURES: usize = 10;

/// Compares numbered cases with the other side, and counts what they reach.
pub fn compare<S: Subject>(
    cases: impl IntoIterator<Item = (usize, S)>,
    mut other: impl FnMut(&S) -> Outcome,
) -> Summary<S> {
    let mut summary = Summary {
        compared: 0,
        bytes: 0,
        differ: 0,
        failed: 0,
        first: None,
        coverage: S::Coverage::default(),
    };
    for (number, case) in cases {
        let expected = within_room(&case, &mut summary.coverage);
        summary.compared += 1;
        summary.bytes += expected.len();
        let outcome = other(&case);
        if outcome.as_ref() != Ok(&expected) {
            summary.differ += 1;
            summary.failed += usize::from(outcome.is_err());
            summary.first.get_or_insert((number, case));
        }
        if summary.failed == MOST_FAILURES {
            break;
        }
    }
    summary
}

/// Compares numbered things on all processors, each with a tally of its own. After some that differ the rest is not worth
/// the wait. Answers the tallies, and the numbers of those that differ with how.
pub fn on_all_processors<T: Default + Send>(
    count: usize,
    compare: impl Fn(usize, &mut T) -> Result<(), String> + Sync,
) -> (Vec<T>, Vec<(usize, String)>) {
    let threads = thread::available_parallelism().map_or(2, usize::from);
    let next = AtomicUsize::new(0);
    let differ = Mutex::new(Vec::new());
    let told = || differ.lock().expect("a comparison does not panic");
    let work = || {
        let mut tally = T::default();
        while told().len() < MOST_FAILURES {
            let number = next.fetch_add(1, Ordering::Relaxed);
            if number >= count {
                break;
            }
            if let Err(why) = compare(number, &mut tally) {
                told().push((number, why));
            }
        }
        tally
    };
    let tallies = thread::scope(|scope| {
        let workers: Vec<_> = (0..threads).map(|_| scope.spawn(work)).collect();
        let tallies = workers.into_iter().map(|worker| worker.join());
        tallies
            .map(|tally| tally.expect("a comparison does not panic"))
            .collect()
    });
    let mut differ = std::mem::take(&mut *told());
    differ.sort();
    (tallies, differ)
}

/// The text of a case by the model, as far as there is room for it.
pub fn expected<S: Subject>(case: &S) -> Vec<u8> {
    within_room(case, &mut S::Coverage::default())
}

fn within_room<S: Subject>(case: &S, coverage: &mut S::Coverage) -> Vec<u8> {
    let mut text = case.by_model(coverage);
    text.truncate(case.room().unwrap_or(usize::MAX));
    text
}

/// The first line that differs, and what each side has there.
#[derive(Debug, PartialEq, Eq)]
pub struct Difference {
    pub line: usize,
    pub expected: String,
    pub other: String,
}

/// The first line in which two texts differ, counted from 1; nothing if they are the same.
pub fn first_difference(expected: &[u8], other: &[u8]) -> Option<Difference> {
    if expected == other {
        return None;
    }
    let lines = |text: &[u8]| -> Vec<String> {
        let lines = text.split_inclusive(|&byte| byte == b'\n');
        lines.map(|line| line.escape_ascii().to_string()).collect()
    };
    let (expected, other) = (lines(expected), lines(other));
    let same = expected.iter().zip(&other).take_while(|(a, b)| a == b);
    let at = same.count();
    let line = |lines: &[String]| lines.get(at).cloned().unwrap_or("(nothing)".into());
    Some(Difference {
        line: at + 1,
        expected: line(&expected),
        other: line(&other),
    })
}

/// A smaller case that still differs, found by leaving out steps, many at a time and then few, while there is time. What
/// is the same case with another trace is said.
pub fn shrink<S: Subject>(
    case: &S,
    with: impl Fn(Vec<u8>) -> S,
    time: Duration,
    mut differs: impl FnMut(&S) -> bool,
) -> S {
    let begin = Instant::now();
    let mut smallest = case.clone();
    let mut size = pieces(case.input()).len() / 2;
    while size > 0 {
        let mut from = 1;
        while from < pieces(smallest.input()).len() && begin.elapsed() < time {
            let shorter = with(without(smallest.input(), from, size));
            if differs(&shorter) {
                smallest = shorter;
            } else {
                from += size;
            }
        }
        size /= 2;
    }
    smallest
}

/// The trace without some of its pieces.
fn without(trace: &[u8], from: usize, count: usize) -> Vec<u8> {
    let mut pieces = pieces(trace);
    let end = pieces.len().min(from + count);
    pieces.drain(from..end);
    pieces.concat()
}

#[cfg(test)]
mod tests {
    use super::*;

    #[test]
    fn the_first_differing_line_is_named() {
        assert_eq!(first_difference(b"a\nb\n", b"a\nb\n"), None);
        let difference = |other: &[u8]| first_difference(b"a\nb\n", other).expect("they differ");
        assert_eq!(difference(b"a\nc\n").line, 2);
        assert_eq!(difference(b"a\nc\n").other, "c\\n");
        assert_eq!(difference(b"a\nb").other, "b");
        assert_eq!(difference(b"a\n").other, "(nothing)");
        assert_eq!(difference(b"a\nb\nd\n").expected, "(nothing)");
        assert_eq!(difference(b"a\nb\nd\n").line, 3);
    }

    #[test]
    fn a_case_shrinks_to_what_matters() {
        let mut trace = vec![0, 0, 0];
        trace.extend([1, 4].repeat(40));
        trace.extend([3, 7, 1]);
        trace.extend([1, 8].repeat(40));
        let case = Case {
            name: "test",
            trace,
            limit: 100,
            room: None,
        };
        let long = Duration::from_secs(60);
        let moves_line_7 = |case: &Case| pieces(&case.trace).contains(&[3, 7, 1].as_slice());
        assert_eq!(case.smaller(long, moves_line_7).trace, [0, 0, 0, 3, 7, 1]);
        assert_eq!(case.smaller(Duration::ZERO, moves_line_7).trace, case.trace);
    }
}
